#!/bin/bash
# Counts the instructions of an update and of a take-back by valgrind's callgrind, for each kind and size, and writes the tables into
# docs/BENCHMARKS.md. It installs Debian's valgrind where there is none; the archive is built where it is missing.
set -e
command -v valgrind > /dev/null || { apt-get update -q && apt-get install -y -q valgrind; }
cd "$(dirname "$0")/.."
cargo run --release --offline --locked -p bench instructions
