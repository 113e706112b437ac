#!/usr/bin/env bash
# Checks whether the sentences of `tmwatch show --why` are enough to conclude the violation.
#
#   tests/long/enough.sh [WINDOWS [DENSE]]
#
# tests/long/enough.py makes random histories until WINDOWS (100000) windows are violated under a random criterion. A window has at most
# five transactions, 1 to 64 initial states, adds, equal values, blind writes, and values near 2^64. Then it makes dense histories until
# DENSE (2000) windows are violated under strict serializability. A dense window has at most eight long transactions that overlap, in up to
# 1,000 events, and two to five values. The output for each window is parsed with the forms of tests/long/sentences.py. The script counts:
#
# - windows without a reason, and outputs that cannot be parsed
# - sentences that are not true by the events of the window, or whose conclusion is false in some state, completion and order of the whole
#   window that agrees with the reads in the sentences up to this one
# - sentences that mention a transaction, a read, a change or an event that is not drawn
# - explanations that are not enough: some history that agrees with the sentences has a serial order. This is counted three times: if no
#   other transactions exist, if others do, and if others do and the history agrees with the drawing too. The head of enough.py describes
#   the reader's conclusions. Dense windows are not counted here, because they have too many orders, and may have no reason.
#
# The output has the shortest history for each fault, then the counts, then the number of lines of a reason. A count other than 0 has
# failed. The last line is 'N passed, M failed'. The exit status is 1 if one failed, 2 if the program is not built.
# Environment: SEED (1); PROCESSES (2); PROGRAM (the built one).
set -eu
# shellcheck source=tests/common.sh
. "$(dirname "${BASH_SOURCE[0]}")/../common.sh"
[ -x "$program" ] || { echo 'enough.sh: the program is not built: ./build' >&2 && exit 2; }
python3 "$top/tests/long/enough.py" "$program" "${1:-100000}" "${2:-2000}" "${SEED:-1}"
