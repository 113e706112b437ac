#!/usr/bin/env bash
# Compares the verdicts of `tmwatch judge` with the plain definitions, and with another program that has the same output.
#
#   tests/long/verdicts.sh [HISTORIES]
#
# tests/long/verdicts.py makes HISTORIES (20000) random histories of at most five transactions, and puts a mistake into three in ten:
# another answer, two events that change places, or one that is missing. Each is judged under both criteria. The verdict and its event must
# be those of the shortest prefix that is not well-formed, or has no serial order: each permutation with each completion is tried, after
# each answer, and in one history of ten after each event. `both` must report the same as each criterion separately, with random limits,
# also on a longer history. If PEER is set to another program with the same output, it must write the same line with the same status, also
# on a history of up to 900 events.
#
# Each history that fails is printed. Then comes the number of each verdict. The last line is 'N passed, M failed'. The exit status is 1 if
# one failed, or if none was violated or malformed, 2 if the program is not built.
# Environment: SEED (1), PEER.
set -eu
# shellcheck source=tests/common.sh
. "$(dirname "${BASH_SOURCE[0]}")/../common.sh"
[ -x "$program" ] || { echo 'verdicts.sh: the program is not built: ./build' >&2 && exit 2; }
python3 "$top/tests/long/verdicts.py" "$program" "${1:-20000}" "${SEED:-1}" ${PEER:+"$PEER"}
