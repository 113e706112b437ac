#!/usr/bin/env bash
# Runs correct and wrong memories with examples/ci/bench.sh, and programs that end in all other ways (ci.py). Then runs the shell commands
# of packaging/action.yml, and a command of docs/CI.md for traces.
#
#   tests/ci.sh
#
# The last line is 'N passed, M failed', and the exit status is 1 if a test case failed. Without a C compiler, nothing is tested: a line
# says so, and the status is 0.
# Environment: CC (cc), BUILT (tests/common.sh).
set -eu
# shellcheck source=tests/common.sh
. "$(dirname "${BASH_SOURCE[0]}")/common.sh"
cc=${CC:-cc}
has "$cc" tests/ci.sh || exit 0
use_library
export EACH=1 TMWATCH=$program
cd "$folder"

# Compiles the little memory, with a fault: norec-FAULT.
compile() {
    ends "norec, $1, compiles" 0 "$cc" -O2 -pthread -DTMWATCH_PAUSES "-DFAULT=$1" "-I$built/include" -o "norec-$1" \
        "$top/examples/c/norec.c" "$built/lib/libtmwatch_bench.a" "$built/lib/libtmwatch.a"
}

# Runs these programs as tests: the row's name, the exit status, and the lines of TAP that begin with ok or not.
tested() {
    local name=$1 wanted=$2 lines=$3
    shift 3
    rm -rf out
    # (as a run leaves it that is killed)
    mkdir out && echo '<testcase/>' >out/junit.new
    ends "$name" "$wanted" "$top/examples/ci/bench.sh" out "$@"
    cp output tap
    ends "$name: its tests" 0 diff <(printf '%s\n' "$lines") <(sed -n '/^\(not \)\?ok/p' tap)
    if has python3 "$name: junit.xml"; then
        ends "$name: junit.xml" 0 counts_failures "$(grep -c '^not ok' tap)"
    fi
}

# Whether junit.xml has so many failures, of as many tests as TAP has.
counts_failures() {
    python3 -c 'import sys, xml.etree.ElementTree as tree
suite = tree.parse("out/junit.xml").getroot()
failed = [it.find("failure") for it in suite.iter("testcase") if it.find("failure") is not None]
assert len(list(suite)) == int(suite.get("tests")) == int(sys.argv[2]), suite.attrib
assert len(failed) == int(suite.get("failures")) == int(sys.argv[1]), suite.attrib' "$1" "$(sed -n 's/^1\.\.//p' tap)"
}

compile NONE
compile READS
export SEED=7
tested 'a right memory' 0 'ok 1 - ./norec-NONE --seed 7 --seconds 1' ./norec-NONE
tested 'a wrong one beside it' 1 'ok 1 - ./norec-NONE --seed 7 --seconds 1
not ok 2 - ./norec-READS --seed 7 --seconds 1' ./norec-NONE ./norec-READS
ends 'its reason as a page' 0 grep -q 'left there\|calls make it' out/2.html
at=$(sed -n 's/^{"at":\([0-9]*\),.*/\1/p' out/2.json)
ends 'its event, counted in the run' 0 grep -q "\"mark\":$at," out/2.html
ends 'its trace' 1 "$program" judge <out/2.trace
ends 'what its run was' 0 grep -q '"reproduce"' out/2.trace.report
again=$(sed -n 's/.*"reproduce":"\([^"]*\)".*/\1/p' out/2.json)
printf '%s\n' '# what was found once' "./norec-READS $again" '' "./norec-NONE $again # mended" >again
REPRODUCERS=again tested 'what was found once' 1 "not ok 1 - ./norec-READS $again
ok 2 - ./norec-NONE $again
ok 3 - ./norec-NONE --seed 7 --seconds 1" ./norec-NONE
if has python3 'other ends'; then
    mkdir ends && cd ends
    ends 'other ends' 0 "$top/tests/ci.py" "$top/examples/ci/bench.sh"
    cd "$folder"
fi

# The steps of packaging/action.yml, as a runner of GitHub runs their shell: its inputs are variables here.
# shellcheck disable=SC2034 # (inputs are read by their names)
act() {
    local packages=debs build="cp norec-$1 norec" programs='./norec ./norec-NONE' each=1 reproducers='' variable input command
    mkdir -p bin
    printf '%s\n' '#!/bin/sh' 'echo "$@" >installed' >bin/sudo && chmod +x bin/sudo
    rm -rf out norec && mkdir -p debs && touch debs/one.deb debs/two.deb
    while read -r variable input; do
        export "$variable=${!input}"
    done < <(sed -n 's/^ *\([A-Z]*\): \${{ inputs\.\([a-z]*\) }}$/\1 \2/p' "$top/packaging/action.yml")
    while read -r command; do
        GITHUB_ACTION_PATH=$top/packaging PATH=$PWD/bin:$PATH bash --noprofile --norc -eo pipefail -c "$command" || return
    done < <(sed -n 's/^ *run: //p' "$top/packaging/action.yml")
}
ends 'the action' 0 act NONE
ends 'the action: what it installs' 0 grep -qx 'dpkg -i debs/one.deb debs/two.deb' installed
ends 'the action: its artifact' 0 test -s "$(sed -n 's/^ *path: //p' "$top/packaging/action.yml")/junit.xml"
ends 'the action: its tests' 0 grep -q 'tests="2" failures="0"' out/junit.xml
ends 'the action, a wrong memory' 1 act READS

# As docs/CI.md judges a trace that has to show enough.
shows() {
    set -o pipefail
    "$program" judge --summary <"$1" | tee report && ! grep -q untested report
}
ends 'a run that overlaps' 0 shows "$top/examples/two_writers.trace"
ends 'a run that is violated' 1 shows "$top/examples/zombie_read.trace"
printf '%s\n' 'opacity-trace 1 1' '0 R 0' '0 V 0' '0 T' '0 C' >serial
ends 'a run that shows nothing' 1 shows serial
end_rows
