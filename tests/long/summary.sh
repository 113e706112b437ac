#!/usr/bin/env bash
# Compares the counts of `tmwatch judge --summary` with counts that are made from the trace's text by the plain definitions.
#
#   tests/long/summary.sh [RUNS]
#
# First tests/long/summary.py counts the traces of tests/rows/summary.rows, whose counts were computed by hand. Then it makes RUNS (2000)
# random histories: correct ones, and ones with wrong reads, open transactions or an event that cannot occur in any run. Each is judged
# under a random criterion with random limits:
# - With --summary, the output and the status are the same as without it. The line of counts is that of the longest part that a verdict
#   covers, and standard error says that nothing overlapped if and only if that is so.
# - With --first, the output is that of the trace up to the event at which the last verdict is final.
# With 0 RUNS nothing is built.
#
# Each test case and each history that fails is printed. Then come the numbers of reports with each verdict; a verdict that none had has
# failed. The last line is 'N passed, M failed'. The exit status is 1 if one failed.
# Environment: SEED (1).
set -eu
# shellcheck source=tests/common.sh
. "$(dirname "${BASH_SOURCE[0]}")/../common.sh"
runs=${1:-2000}
[ "$runs" -eq 0 ] || "$top/build"
python3 "$top/tests/long/summary.py" "$top" "$program" "$runs" "${SEED:-1}"
