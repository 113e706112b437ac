#!/usr/bin/env bash
# Compares examples/import/whole.py with the plain definitions on many small histories, and with `judge --criterion strict` if that decides
# histories of clients that run freely; and tests that it finds stale reads (imported.py).
#
#   tests/long/imported.sh
#
# The last line of each test case says what was compared. The last line of all is 'N passed, M failed', and the exit status is 1 if a test
# case failed.
# Environment: HISTORIES (20000), the number of small ones; JUDGED (600), the number of those for judge; TRANSACTIONS (100000), of the
# longest ones.
set -eu
# shellcheck source=tests/common.sh
. "$(dirname "${BASH_SOURCE[0]}")/../common.sh"
[ -x "$program" ] || "$top/build"
export PYTHONDONTWRITEBYTECODE=1

last=1 ends 'small histories' 0 "$top/tests/import.py" "$program" "${HISTORIES:-20000}"
last=1 ends 'what judge decides' 0 "$top/tests/long/imported.py" judge "$program" "${JUDGED:-600}"
last=1 ends 'stale reads' 0 "$top/tests/long/imported.py" stale 10000
for form in jepsen intervals; do
    "$top/tests/long/imported.py" "$form" "${TRANSACTIONS:-100000}" >"$folder/history"
    began=$EPOCHREALTIME
    ends "long, $form" 0 "$top/examples/import/whole.py" "$form" <"$folder/history"
    echo "long, $form: $(tail -n 1 "$folder/output"), $(since "$began") s"
done
end_rows
