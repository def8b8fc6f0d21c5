#!/bin/bash
# Times a query by the archive's code at two commits, and writes the table into docs/BENCHMARKS.md: `rust/bench/asking.sh BEFORE [AFTER]`, AFTER the last
# commit if left out. The page's table has 8000555, before a query told its second offer, for BEFORE; it is in an older Rattle, and needs that one's kit
# and this script as it stood then.
. "$(dirname "$0")/libraries.sh"
library before "${1:?which commit is BEFORE}" carrier
library after "${2:-HEAD}" carrier
bench asking
