# Read in by the scripts that time two commits: a crate's code at a commit, proved, as a shared library.
set -euo pipefail
cd "$(dirname "$0")/../.."
made=$(mktemp -d)
trap 'rm -rf "$made"' EXIT

# library NAME COMMIT CRATE [FUNCTION] makes $made/NAME.so; a FUNCTION of the crate that is not exported to C is, there. The commit has to be in the
# Rattle of the kit that is used.
library() {
    local tree=$made/$1
    mkdir "$tree"
    git archive "$2" crates crates.txt | tar -x -C "$tree"
    sed -i -E "s/^$3( staticlib)?:/$3 staticlib:/" "$tree/crates.txt"
    [ $# -lt 4 ] || sed -i "s/^pub fn $4(/#[unsafe(no_mangle)]\npub extern \"C\" fn $4(/" "$tree/crates/$3/src/lib.rt"
    (cd "$tree/crates/$3" && rt lib >"$tree.log") || { cat "$tree.log"; exit 1; }
    cc -shared -o "$tree.so" -Wl,--whole-archive "$tree/crates/$3/out/lib$3.a" -Wl,--no-whole-archive
}

# bench WORD has it time the libraries before and after, and put the table into docs/BENCHMARKS.md
bench() {
    cd rust
    cargo run --release --offline --locked -p bench "$1" "$made/before.so" "$made/after.so"
}
