#!/usr/bin/env bash
# Compares the counterexamples of `tmwatch show --why` with the plain definitions of a serial order and of a part.
#
#   tests/long/parts.sh [HISTORIES]
#
# tests/long/parts.py makes HISTORIES (20000) random histories of at most five transactions, and the program judges each under a random
# criterion. For each violated one:
# - Each permutation with each completion is tried: neither the window nor its part has a serial order from any of its states.
# - The part satisfies KeptPart.antt of tmw_part: it has whole calls and the last event, and each transaction keeps events of its own. A
#   write is missing only if the part does not read its value. A transaction of the part leaves the same value as before in each register
#   that it changes, and its first answer that contradicts its own calls has the same values.
# - If one more transaction, or one more call and its answer, is removed, the rest is no such part, or has a serial order: without them
#   only, and also without the reads of their values.
# - Each sentence of the reason is true for the window: which transaction ended before another began, the values that a transaction read,
#   the values that it left at its end, and the values that its own calls require. For a read that no order explains, the last event before
#   its answer that sets that value is named, with its fate; or that there is none.
# - The drawing and the traces of `--trace` have the part's events. `judge` finds each trace violated: if there is one, at its end.
#
# Each other history has a serial order, and so has each random part of it, which is made without the program. Each of three broken rules
# must make a part that has none. That takes thousands of histories; with fewer, its test case may fail.
#
# Each history that fails is printed. Then come the number of each verdict, and how many parts showed each rule to be broken. A count of 0
# has failed. The last line is 'N passed, M failed'. The exit status is 1 if one failed, 2 if the program is not built.
# Environment: SEED (1).
set -eu
# shellcheck source=tests/common.sh
. "$(dirname "${BASH_SOURCE[0]}")/../common.sh"
[ -x "$program" ] || { echo 'parts.sh: the program is not built: ./build' >&2 && exit 2; }
python3 "$top/tests/long/parts.py" "$program" "${1:-20000}" "${SEED:-1}"
