//! Work on damaged words, counted in instructions and not timed: tables of 4,096 offers whose trees go in circles or share their children,
//! so that a walk which followed every link would visit 2^24 nodes or never end. Each call on each of them takes at most so many times
//! the instructions that it takes on the sound book. valgrind's callgrind counts: the test starts it on itself, and fails where it is
//! missing.
mod common;

use carrier_book::{lent, words, MOST_OFFERS};
use common::Random;
use std::path::{Path, PathBuf};
use std::process::Command;

/// The file with the sound books, which the run under valgrind is told by this variable.
const BOOKS: &str = "CARRIER_BOOKS";

/// A call on a damaged table takes at most so many times the instructions of the costliest call of its name on the sound book. An update
/// searches at each level, of which a sound book has twelve and damaged words can feign twenty-four; each search there goes on to its own
/// bound. A report of damaged words can cut off a child at each level below each slot that it puts, each time after a descent.
const MOST_TIMES: [(&str, u64); 11] = [
    ("post", 100),
    ("withdraw", 100),
    ("take_back", 100),
    ("query", 4),
    ("listing", 2),
    ("report", 40),
    ("pieces", 2),
    ("mark", 2),
    ("marks", 2),
    ("meet", 20),
    ("check", 2),
];

/// so many levels a walk goes down at most
const LEVELS: usize = 24;
/// A walk of all shared children has 2^24 leaves, and none is visited in fewer than six instructions.
const EVERY_NODE: u64 = 6 << LEVELS;

/// the greatest price of a report
const MOST: i64 = 101_000_000_000;

/// A sound book and one of lower rates. Both have room for one offer more, and their last update is a withdrawal.
struct Books {
    first: Vec<i64>,
    second: Vec<i64>,
}

/// tangents of a parabola, each listed, by rates from `lowest` on; their slots are in no order
fn book(lowest: i64) -> Vec<i64> {
    let mut part = vec![0; words(MOST_OFFERS)];
    lent::open(&mut part, 0, MOST_OFFERS as i64).unwrap();
    for i in 0..MOST_OFFERS as i64 {
        // 1,237 and 4,096 have no common divisor
        let rate = lowest + 7 * (i * 1_237 % MOST_OFFERS as i64);
        lent::post(&mut part, 0, i + 1, rate, rate * rate).unwrap();
    }
    lent::withdraw(&mut part, 0, 2_000).unwrap();
    assert!(lent::check(&part, 0));
    part
}

// ---- damage

/// the trees: of the pieces, the offers, the numbers, the order
const TREES: usize = 4;
/// the header's words with their roots
const ROOTS: [usize; TREES] = [2, 1, 4, 6];
/// the header's word with the first free slot
const FIRST_FREE: usize = 5;
/// fields of a slot
const RATE: usize = 1;
const BASE: usize = 2;
const NEXT_FREE: usize = 3;
const CROSSING: [usize; 2] = [6, 7];
const NEXT_PIECE: usize = 19;
/// the bridge's ends, and what stays with an inner node and with a leaf
const BRIDGE: [usize; 2] = [10, 11];
const RESTS: [usize; 2] = [20, 21];
const HEIGHTS: usize = 24;

fn put(part: &mut [i64], field: usize, slot: usize, word: i64) {
    part[64 + 4 * (field / 4 * (MOST_OFFERS + 1) + slot) + field % 4] = word;
}

/// the number of the inner node kept in a slot
fn inner(slot: usize) -> i64 {
    (MOST_OFFERS + slot) as i64
}

/// both children of a tree's inner node, and with those of the pieces and of the offers what hangs on the same slot
fn link(part: &mut [i64], tree: usize, slot: usize, children: [i64; 2]) {
    put(part, 4 * (tree + 1), slot, children[0]);
    put(part, 4 * (tree + 1) + 1, slot, children[1]);
    let next = |child: i64| if child > MOST_OFFERS as i64 { child - MOST_OFFERS as i64 } else { child };
    match tree {
        0 => put(part, NEXT_PIECE, slot, next(children[1])),
        1 => (0..2).for_each(|side| {
            put(part, BRIDGE[side], slot, next(children[side]));
            put(part, RESTS[side], slot, children[side]);
        }),
        _ => {}
    }
}

/// The root is both its children.
fn root_in_a_circle(part: &mut [i64], tree: usize) {
    let root = part[ROOTS[tree]];
    link(part, tree, root as usize - MOST_OFFERS, [root; 2]);
}

/// Every inner node is both its children.
fn each_its_own_child(part: &mut [i64], tree: usize) {
    (1..=MOST_OFFERS).for_each(|slot| link(part, tree, slot, [inner(slot); 2]));
}

/// Levels of one node each, which is both children of the one above; at the last level two leaves.
fn shared_children(part: &mut [i64], tree: usize) {
    part[ROOTS[tree]] = inner(1);
    for level in 1..=LEVELS {
        put(part, HEIGHTS + tree, level, (LEVELS + 1 - level) as i64);
        link(part, tree, level, if level < LEVELS { [inner(level + 1); 2] } else { [LEVELS as i64, LEVELS as i64 + 1] });
    }
}

/// Every inner node has two others, of any level, for its children.
fn links_anywhere(part: &mut [i64], tree: usize) {
    let r = &mut Random::new(11);
    for slot in 1..=MOST_OFFERS {
        let mut any = || inner(r.within(1, MOST_OFFERS as i64) as usize);
        let children = [any(), any()];
        link(part, tree, slot, children);
    }
}

type Damage = (&'static str, fn(&mut [i64], usize));

const DAMAGES: [Damage; 4] = [
    ("the root in a circle", root_in_a_circle),
    ("each node its own child", each_its_own_child),
    ("twenty-four levels of shared children", shared_children),
    ("links anywhere", links_anywhere),
];

/// The only free slot is followed by itself.
fn free_in_a_circle(part: &mut [i64], _: usize) {
    let free = part[FIRST_FREE];
    put(part, NEXT_FREE, free as usize, free);
}

/// For each slot that a report puts, as much work as can be: twelve levels of shared children, where both are under the price, and below
/// them twelve at which one child is cut off, after a descent through twenty-four levels of what stays with it.
fn cut_off_at_each_level(part: &mut [i64], _: usize) {
    let [cheap, dear, leaf, other, rests] = [100, 200, 300, 500, 400];
    for slot in 1..=MOST_OFFERS {
        put(part, RATE, slot, 10);
        put(part, BASE, slot, 1_000_000);
    }
    put(part, RATE, cheap, 5);
    put(part, BASE, cheap, 0);
    (part[ROOTS[1]], part[ROOTS[0]]) = (inner(1), cheap as i64);
    for level in 1..=LEVELS {
        let below = if level < LEVELS { inner(level + 1) } else { other as i64 };
        let (left, bridge) = if level <= LEVELS / 2 { (below, cheap) } else { (dear as i64, leaf) };
        link(part, 1, level, [left, below]);
        put(part, BRIDGE[0], level, bridge as i64);
        put(part, RESTS[0], level, inner(rests + 1));
        let slot = rests + level;
        link(part, 0, slot, if level < LEVELS { [inner(slot + 1); 2] } else { [leaf as i64; 2] });
        put(part, CROSSING[0], slot, 1);
        put(part, CROSSING[1], slot, 1);
    }
    [dear, other].iter().for_each(|slot| put(part, RESTS[1], *slot, inner(rests + 1)));
}

/// The sound table, and each damage to all trees and to one of them.
fn damages() -> Vec<(String, Vec<(Damage, usize)>)> {
    let circle: Damage = ("the free slots in a circle", free_in_a_circle);
    let costly: Damage = ("a child cut off at each level", cut_off_at_each_level);
    let mut tables = vec![("sound".to_string(), vec![])];
    tables.extend([circle, costly].map(|damage| (damage.0.to_string(), vec![(damage, 0)])));
    for damage in DAMAGES {
        tables.push((format!("{}, all trees", damage.0), (0..TREES).map(|tree| (damage, tree)).collect()));
        tables.extend((0..TREES).map(|tree| (format!("{}, tree {tree}", damage.0), vec![(damage, tree)])));
    }
    tables
}

fn damaged(part: &[i64], damages: &[(Damage, usize)]) -> Vec<i64> {
    let mut part = part.to_vec();
    damages.iter().for_each(|((_, damage), tree)| damage(&mut part, *tree));
    part
}

// ---- calls

/// A call on damaged books, with sound ones beside them, and whether it was accepted.
type Call = (&'static str, fn(&mut Books, &Books, &mut [i64]) -> bool);

/// A post at a rate of its own, ahead of the first of a rate, and behind it. A take-back undoes a withdrawal, and without the last entry a
/// post. Marks are asked one at a time: all of them take at most 4,097 times as much as the last. Reports are of all offers, of most, of
/// some thirty and of none.
const CALLS: [Call; 23] = [
    ("post", |b, _, _| lent::post(&mut b.first, 0, 9_999, 14_003, 14_003 * 14_003).is_ok()),
    ("post", |b, _, _| lent::post(&mut b.first, 0, 9_999, 14_001, 14_001 * 14_001 - 1).is_ok()),
    ("post", |b, _, _| lent::post(&mut b.first, 0, 9_999, 14_001, 14_001 * 14_001 + 1).is_ok()),
    ("withdraw", |b, _, _| lent::withdraw(&mut b.first, 0, 1_000).is_ok()),
    ("withdraw", |b, _, _| lent::withdraw(&mut b.first, 0, 1).is_ok()),
    ("take_back", |b, _, _| lent::take_back(&mut b.first, 0).is_ok()),
    ("take_back", |b, _, _| {
        b.first[7] -= 1;
        b.first[8] -= 1;
        lent::take_back(&mut b.first, 0).is_ok()
    }),
    ("query", |b, _, _| lent::query(&b.first, 0, -1_000_000).is_ok()),
    ("query", |b, _, _| lent::query(&b.first, 0, -28_001).is_ok()),
    ("query", |b, _, _| lent::query(&b.first, 0, 1_000_000).is_ok()),
    ("listing", |b, _, out| lent::listing(&b.first, 0, out).is_ok()),
    ("listing", |b, _, _| lent::listing(&b.first, 0, &mut []).is_ok()),
    ("report", |b, _, out| lent::report(&b.first, 0, -28_001, MOST, out).is_ok()),
    ("report", |b, _, out| lent::report(&b.first, 0, -28_001, 500_000, out).is_ok()),
    ("report", |b, _, out| lent::report(&b.first, 0, -28_001, -14_000 * 14_000, out).is_ok()),
    ("report", |b, _, out| lent::report(&b.first, 0, -28_001, -MOST, out).is_ok()),
    ("pieces", |b, _, _| lent::pieces(&b.first, 0).map_or(false, |pieces| pieces.count() == MOST_OFFERS - 1)),
    ("mark", |b, _, _| lent::mark(&b.first, 0, MOST_OFFERS as i64 - 1).is_ok()),
    ("marks", |b, _, _| lent::marks(&b.first, 0).take(64).count() == 64),
    ("meet", |b, _, _| lent::meet(&b.first, 0, &b.second, 0).is_ok()),
    ("meet", |b, sound, _| lent::meet(&b.first, 0, &sound.second, 0).is_ok()),
    ("meet", |b, sound, _| lent::meet(&sound.first, 0, &b.second, 0).is_ok()),
    ("check", |b, _, _| lent::check(&b.first, 0)),
];

/// What valgrind counts: it collects while this function runs, and writes the sum when it ends. It is told the function's very name.
#[no_mangle]
#[inline(never)]
fn counted_call(call: &Call, books: &mut Books, sound: &Books, out: &mut [i64], accepted: &mut usize) {
    *accepted += (call.1)(books, sound, out) as usize;
}

/// each call on each table, in order
fn run_calls(file: &Path) {
    let bytes = std::fs::read(file).unwrap();
    let mut first: Vec<i64> = bytes.chunks(8).map(|w| i64::from_le_bytes(w.try_into().unwrap())).collect();
    let second = first.split_off(words(MOST_OFFERS));
    let sound = Books { first, second };
    let mut out = vec![0; 3 * MOST_OFFERS];
    let mut accepted = 0;
    for (at, (_, damages)) in damages().into_iter().enumerate() {
        for call in &CALLS {
            let mut books = Books { first: damaged(&sound.first, &damages), second: damaged(&sound.second, &damages) };
            counted_call(call, &mut books, &sound, &mut out, &mut accepted);
        }
        // on the sound books all but the listing without room
        assert!(at > 0 || accepted == CALLS.len() - 1);
    }
}

// ---- counts

/// Runs this test under valgrind, and reads the sum that it wrote behind each call.
fn counts(books: &Path) -> Vec<u64> {
    let file = books.with_extension("callgrind");
    let mut valgrind = Command::new("valgrind");
    valgrind.args(["--tool=callgrind", "--combine-dumps=yes", "--collect-atstart=no"]);
    valgrind.args(["--toggle-collect=counted_call", "--dump-after=counted_call"]);
    valgrind.arg(format!("--callgrind-out-file={}", file.display())).arg(std::env::current_exe().unwrap());
    valgrind.args(["work_on_damaged_words", "--exact", "--test-threads=1"]).env(BOOKS, books);
    let run = valgrind.output().unwrap_or_else(|e| panic!("{e}: is valgrind installed?"));
    assert!(run.status.success(), "{}{}", String::from_utf8_lossy(&run.stdout), String::from_utf8_lossy(&run.stderr));
    let told = std::fs::read_to_string(&file).unwrap();
    // a part of the file for each call, and one for the end of the run
    let of_a_call = |part: &&str| part.contains("Trigger: --dump-after");
    let sum = |part: &str| part.lines().find_map(|line| line.strip_prefix("totals: ")).unwrap().trim().parse().unwrap();
    told.split("\npart: ").filter(of_a_call).map(sum).collect()
}

#[test]
fn work_on_damaged_words() {
    if let Some(file) = std::env::var_os(BOOKS) {
        return run_calls(Path::new(&file));
    }
    let file = PathBuf::from(env!("CARGO_TARGET_TMPDIR")).join("books_for_work");
    let bytes: Vec<u8> = [book(1), book(-30_000)].concat().iter().flat_map(|w| w.to_le_bytes()).collect();
    std::fs::write(&file, bytes).unwrap();
    let counts = counts(&file);
    let tables = damages();
    assert_eq!(counts.len(), CALLS.len() * tables.len());
    let mut over = vec![];
    for (i, count) in counts.iter().enumerate() {
        let (table, name) = (&tables[i / CALLS.len()].0, CALLS[i % CALLS.len()].0);
        let on_sound = CALLS.iter().zip(&counts).filter(|(call, _)| call.0 == name).map(|(_, count)| *count).max().unwrap();
        let most = MOST_TIMES.iter().find(|of| of.0 == name).unwrap().1 * on_sound;
        assert!(most < EVERY_NODE, "the bound for {name} is too high to see a walk of all nodes: {most}");
        if *count > most {
            over.push(format!("{name} on {table}: {count} instructions, and {on_sound} on a sound book"));
        }
    }
    assert!(over.is_empty(), "{over:#?}");
    // on the sound book a report of none is about a query, and one of some thirty offers far from one of all
    let of =
        |name: &str| CALLS.iter().zip(&counts).filter(|(call, _)| call.0 == name).map(|(_, count)| *count).collect::<Vec<_>>();
    let (queries, reports) = (of("query"), of("report"));
    assert!(reports[3] < 2 * queries[1], "{} instructions for none, {} for a query", reports[3], queries[1]);
    assert!(20 * reports[2] < reports[0], "{} instructions for some, {} for all", reports[2], reports[0]);
}
