//! docs/TOUR.md: the programs that it shows are this crate's examples/tour.rs and the repository's examples/tour.c, and print what the
//! page says. The commands for C that it shows are run in the gate.
use std::path::Path;
use std::process::Command;

const PAGE: &str = include_str!("../../../docs/TOUR.md");
const SHOWN: &str = include_str!("../examples/tour.rs");
const SHOWN_IN_C: &str = include_str!("../../../examples/tour.c");
const PRINTED_IN_C: &str = include_str!("../../../examples/tour_answers.txt");

/// lines as the page indents them
fn indented(lines: &str) -> String {
    lines.lines().map(|l| format!("    {l}\n")).collect()
}

#[test]
fn the_page_shows_the_example() {
    assert!(PAGE.contains(&format!("```rust\n{SHOWN}```\n")), "docs/TOUR.md and examples/tour.rs differ");
    assert!(PAGE.contains(&format!("```c\n{SHOWN_IN_C}```\n")), "docs/TOUR.md and examples/tour.c differ");
    assert!(
        PAGE.contains(&format!("prints\n\n{}\n", indented(PRINTED_IN_C))),
        "docs/TOUR.md and examples/tour_answers.txt differ"
    );
}

#[test]
fn the_example_prints_what_the_page_says() {
    // tests stand in target/debug/deps, examples in target/debug/examples
    let tests = std::env::current_exe().unwrap();
    let example = tests.parent().and_then(Path::parent).unwrap().join("examples/tour");
    let run = Command::new(&example).output().unwrap_or_else(|e| panic!("{}: {e}", example.display()));
    assert!(run.status.success());
    let printed = indented(&String::from_utf8(run.stdout).unwrap());
    assert!(PAGE.contains(&format!("prints\n\n{printed}\n")), "docs/TOUR.md does not show\n{printed}");
}
