#!/usr/bin/env bash
# Runs memories on the bench in C as the tests of a pipeline, each for so many seconds, by a seed that is another each day.
#
#   bench.sh OUT PROGRAM..
#
# A PROGRAM is a memory on the bench (examples/c/norec.c), which by a time alone runs a job on each processor. A violation is shrunk.
# First come the lines of REPRODUCERS, which found a violation once: a program and the options that reproduce it, as `./norec --seed 1 --round 7`.
# Comments begin with #. A test passes if its run is opaque so far and tests enough: the bench names in `untested` what it did not test. That nothing
# was aborted is no failure.
#
# OUT gets, of test N: N.json, what the bench printed; N.log, its standard error; N.trace, and N.trace.report beside it; N.html, the window of
# a violation as a page, if tmwatch is there. junit.xml has all tests, as CI systems read them. Standard output has them as TAP.
#
# Exit status: 0 all pass; 1 a run is violated; 2 another failure, and none violated; 4 wrong words.
# Environment: EACH (60), the seconds of a test; SEED (today, as 20261128); REPRODUCERS, a file; TMWATCH (tmwatch), the program.
set -eu
if [ $# -lt 2 ]; then
    echo 'usage: bench.sh OUT PROGRAM..' >&2
    exit 4
fi
out=$1 each=${EACH:-60} seed=${SEED:-$(date -u +%Y%m%d)} tmwatch=${TMWATCH:-tmwatch}
shift
mkdir -p "$out"
: >"$out/junit.new"
tests=()
if [ -n "${REPRODUCERS:-}" ]; then
    mapfile -t tests < <(sed 's/ *\(#.*\)\?$//; /^$/d' "$REPRODUCERS")
fi
for program; do
    tests+=("$program --seed $seed --seconds $each")
done

# What is wrong with a run, by its exit status and what the bench printed; nothing if the test passes.
failure_of() {
    case $1:$(<"$out/$2.json") in
    [01]:*'"opaque so far"'*'"race"'*) echo 'a data race: see race' ;;
    0:*'"untested":["aborts"]'*) ;; # (a memory that locks aborts nothing)
    0:*'"untested"'*) echo 'nothing is wrong, but the run tests little: see untested' ;;
    0:*'"opaque so far"'*) ;;
    1:*'"violated"'*) echo violated ;;
    2:*'"undecided"'*) echo undecided ;;
    3:*'"malformed"'*) echo 'malformed: the record fits no run' ;;
    4:*'"fault"'*) echo "no verdict: $(head -n 1 "$out/$2.json")" ;;
    124:* | 137:*) echo 'no verdict: the program did not end' ;;
    *) echo "no verdict: the program ended with status $1" ;;
    esac
}

# A text within quotes of XML.
quote() {
    sed 's/&/\&amp;/g; s/</\&lt;/g; s/"/\&quot;/g' <<<"$1"
}

# A test's case in JUnit's words: its number, its words, its seconds, and what is wrong.
report() {
    printf '<testcase classname="tmwatch" name="%s" time="%d">' "$(quote "$2")" "$3"
    [ -z "$4" ] || printf '<failure message="%s">see %s.json, %s.log and %s.trace</failure>' "$(quote "$4")" "$1" "$1" "$1"
    echo '</testcase>'
}

echo "1..${#tests[@]}"
number=0 failures=0 status=0
for words in "${tests[@]}"; do
    number=$((number + 1)) ended=0 began=$SECONDS
    read -r -a command <<<"$words"
    # (a run ends by itself, even if it hangs: this is for one that does not)
    timeout -k 10 $((each + 120)) "${command[@]}" --shrink --quiet --trace "$out/$number.trace" >"$out/$number.json" 2>"$out/$number.log" || ended=$?
    why=$(failure_of $ended $number)
    echo "${why:+not }ok $number - $words"
    if [ -n "$why" ]; then
        failures=$((failures + 1))
        printf '# %s\n' "$why" "$(grep '"reproduce"' "$out/$number.json" || echo "see $number.log")"
        [ "$why" = violated ] && status=1 || status=$((status == 1 ? 1 : 2))
    fi
    if [ "$why" = violated ] && command -v "$tmwatch" >/dev/null; then
        skipped=$(sed -n 's/.*"skipped":\([0-9]*\).*/\1/p' "$out/$number.json")
        "$tmwatch" show --page --why --skipped "${skipped:-0}" <"$out/$number.trace" >"$out/$number.html" || true
    fi
    report $number "$words" $((SECONDS - began)) "$why" >>"$out/junit.new"
done
{
    echo "<testsuite name=\"tmwatch\" tests=\"${#tests[@]}\" failures=\"$failures\">"
    cat "$out/junit.new"
    echo '</testsuite>'
} >"$out/junit.xml"
rm "$out/junit.new"
exit $status
