#!/bin/bash
# Times how long a number takes to print, by the counter's code at two commits, and writes the table into docs/BENCHMARKS.md:
# `rust/bench/printing.sh BEFORE [AFTER]`, AFTER the last commit if left out. The page's table has aee38dc, before the division was taken out, for BEFORE; it
# is in an older Rattle, and needs that one's kit and this script as it stood then.
. "$(dirname "$0")/libraries.sh"
library before "${1:?which commit is BEFORE}" counter_print justify
library after "${2:-HEAD}" counter_print justify
bench printing
