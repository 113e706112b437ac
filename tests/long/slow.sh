#!/usr/bin/env bash
# Slows the judge down with the mutants of tests/long/slow, one after the other. No verdict shows that, but a test case of tests/speed.sh
# must fail.
#
#   tests/long/slow.sh [NAME..]
#
# Each mutant is built unproved (unproved.py), in a minute or two, and so is the original. The limits here are the counts of the original
# plus 3 %. A test case names a mutant, and below it the test cases of tests/speed.sh that fail. The last line is 'N passed, M failed', and
# the exit status is 1 if a mutant makes none fail.
# Environment: that of tests/speed.sh.
set -eu
# shellcheck source=tests/common.sh
. "$(dirname "${BASH_SOURCE[0]}")/../common.sh"
# shellcheck disable=SC2046
[ $# -gt 0 ] || set -- $(cd "$top/tests/long/slow" && printf '%s\n' *.edit | sed 's/\.edit$//')
mkdir "$folder/tests" "$folder/measure"
ln -s "$top/crates" "$folder/crates"
cp "$top"/tests/{speed,common}.sh "$folder/tests/"
cp "$top/measure/traces.c" "$folder/measure/"

ends 'the tree as it is, unproved' 0 "$top/tests/unproved.py" judge "$folder/as_it_is"
ends 'its limits' 0 "$folder/tests/speed.sh" write "$folder/as_it_is"
for name in "$@"; do
    ends "$name, unproved" 0 "$top/tests/unproved.py" judge "$folder/$name" "$top/tests/long/slow/$name.edit"
    [ -x "$folder/$name" ] || continue
    ends "$name" 1 "$folder/tests/speed.sh" "$folder/$name"
    grep FAILED "$folder/output" || true
done
end_rows
