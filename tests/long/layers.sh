#!/usr/bin/env bash
# Compares the search's results for 40,000 random windows with those of their layers.
#
#   tests/long/layers.sh
#
# tests/long/layers.txt, a program in Rattle that is not proved, makes windows of at most eight transactions over three registers. For each,
# `layer` visits all sets of transactions and all states, as the definition does. `possible` and `outcomes` must have the same results.
#
# If a window differs, all that differ are printed, and the counts. The last line is 'N passed, M failed'. The exit status is 1 if one
# differed, or if no window was without a serial order.
set -eu
# shellcheck source=tests/common.sh
. "$(dirname "${BASH_SOURCE[0]}")/../common.sh"
cp "$top/crates.txt" "$top/HANDLES" "$folder/"
tar c -C "$top" --exclude=must-fail --exclude=out crates | tar x -C "$folder"
mkdir -p "$folder/crates/layers/src"
cp "$top/tests/long/layers.txt" "$folder/crates/layers/src/main.rt"
echo 'layers: tmw_events tmw_defs tmw_wellformed tmw_cuts tmw_search' >>"$folder/crates.txt"

# The windows have to agree, and some of them to have no order.
agree() {
    (cd "$folder/crates/layers" && rt try --seconds 600) >"$folder/tried" 2>&1
    grep -E 'differs|same,' "$folder/tried"
    grep -qE '^[1-9][0-9]* same, 0 differ; [1-9][0-9]* without an order' "$folder/tried"
}
ends 'the search finds what the layers tell' 0 agree
end_rows
