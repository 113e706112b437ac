#!/usr/bin/env bash
# Runs the tests, and the quick test cases, with a program and a library for C that are built unproved. Nothing is proved, and no program is
# left behind.
#
#   tests/quick.sh
#
# Prints each test case that fails, and for each part how many passed and failed, and its seconds. The last lines are 'N passed, M failed',
# and that nothing was proved. The exit status is 1 if one failed.
# Environment: SECONDS_EACH (300), the time limit of a test.
set -eu
# shellcheck source=tests/common.sh
. "$(dirname "${BASH_SOURCE[0]}")/common.sh"
export BUILT=$folder/built PROGRAM=$folder/built/bin/tmwatch
mkdir "$folder/parts"

# Runs a part: its name and its words. What it has written, its exit status and its seconds stay in parts.
part() {
    local began=$SECONDS status=0
    "${@:2}" >"$folder/parts/$1" 2>&1 </dev/null || status=$?
    echo "$status $((SECONDS - began))" >"$folder/parts/$1.status"
}
# The tests of a crate.
# shellcheck disable=SC2317
tests_of() {
    (cd "$top/crates/$1" && rt try --test --seconds "${SECONDS_EACH:-300}") >"$folder/$1.output" 2>&1 || true
    grep -v ' ok$' "$folder/$1.output" | tail -n 40
    sed -n 's/^test result: .* \([0-9]*\) passed; \([0-9]*\) failed;.*/\1 passed, \2 failed/p' "$folder/$1.output" | grep .
}

# Runs these scripts, one after another, with less of what takes long.
lane() {
    local name
    for name; do
        case $name in
        c) part c env ROUNDS=500 "$top/tests/c.sh" --alone ;;
        c_waits) part c_waits env ROUNDS=20 "$top/tests/c_waits.sh" ;;
        orders) part orders "$top/tests/orders.sh" --model ;;
        *) part "$name" "$top/tests/$name.sh" ;;
        esac
    done
}
# Adds up what a part came to, and prints its failed rows and what it has skipped. One that ends with a fault and names no failure counts
# as one.
end_part() {
    local status seconds well=0 badly=0
    [ -e "$folder/parts/$1.status" ] || { echo "$1: not run" && return; }
    read -r status seconds <"$folder/parts/$1.status"
    read -r well badly < <(sed -n 's/^\([0-9]*\) passed, \([0-9]*\) failed.*/\1 \2/p' "$folder/parts/$1" | tail -n 1) || true
    [ "$status" -eq 0 ] || [ "${badly:-0}" -gt 0 ] || badly=1
    passed=$((passed + ${well:-0})) failed=$((failed + ${badly:-0}))
    grep -a ': skipped, ' "$folder/parts/$1" || true
    [ "${badly:-0}" -eq 0 ] || grep -a --no-group-separator -A 3 'FAILED\|, and not ' "$folder/parts/$1" || tail -n 40 "$folder/parts/$1"
    echo "$1: ${well:-0} passed, ${badly:-0} failed, in $seconds s"
}

crates=$(grep -rl '#\[test\]' "$top"/crates/*/src | sed "s|^$top/crates/||; s|/.*||" | sort -u)
for crate in $crates; do
    part "$crate" tests_of "$crate" &
done
lane repository orders &
mkdir -p "$BUILT/bin"
(
    part program "$top/tests/unproved.py" program "$PROGRAM" &
    ! has "${CC:-cc}" 'the library for C' || part library "$top/tests/unproved.py" library "$BUILT" &
    wait
)
if [ -x "$PROGRAM" ]; then
    lane command gallery import &
    if [ -x "$BUILT/bin/tmwatch-bench" ]; then
        lane c ci &
        lane c_waits lines &
        lane jobs runs &
    fi
fi
wait
for it in $crates repository orders program library command gallery import c ci c_waits lines jobs runs; do
    end_part "$it"
done
end_rows && status=0 || status=1
echo 'nothing was proved: ./test is the gate'
exit "$status"
