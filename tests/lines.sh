#!/usr/bin/env bash
# Runs small stores with tmwatch-bench, under every schedule: correct ones, wrong ones, and ones that fail. Checks that no process is left,
# no matter how a run ends.
#
#   tests/lines.sh
#
# Prints a line for each test case, and 'N passed, M failed' as the last line. The exit status is 1 if a test case failed. Without a C
# compiler, nothing is tested: a line says so, and the status is 0.
# Environment: CC (cc), BUILT (tests/common.sh), FLAGS (additional flags of the compiler), KILLS (20).
set -eu
# shellcheck source=tests/common.sh
. "$(dirname "${BASH_SOURCE[0]}")/common.sh"
cc=${CC:-cc}
has "$cc" tests/lines.sh || exit 0
use_library
read -r -a flags <<<"${FLAGS:-}"
strict=(-Wall -Wextra -pedantic -Werror -g -O2 -pthread "-I$top/include" "${flags[@]}")
ends 'the bench compiles' 0 build_bench "$cc" -std=c11 "${strict[@]}"
ends 'the bench by lines compiles' 0 "$cc" -std=gnu11 "${strict[@]}" -o "$folder/tmwatch-bench" "$top"/bench-lines/*.c \
    "$folder/lib/libtmwatch_bench.a" "$built/lib/libtmwatch.a"
ends 'a bench whose children are listed compiles' 0 "$cc" -std=gnu11 "${strict[@]}" -Wl,--wrap=open,--wrap=fopen,--wrap=fork -o "$folder/listed" \
    "$top"/bench-lines/*.c "$top/tests/lines/foreign.c" "$folder/lib/libtmwatch_bench.a" "$built/lib/libtmwatch.a"
# (a store under a sanitizer of threads sleeps for a while after a fork)
ends 'a little store compiles' 0 "$cc" -std=c11 "${strict[@]:0:7}" -o "$folder/little" "$top/tests/lines/little.c"
cd "$folder"
one=(--single-process -- ./little one)
file=(--setup 'rm -f registers' -- ./little lock registers)

# What is started by the bench is known by this.
marked=(env "TMWATCH_TESTED=$folder")

# Runs the bench by these words: what it prints is in `printed`, what it says in `said`.
bench() {
    timeout 300 "${marked[@]}" ./tmwatch-bench "$@" >printed 2>said
}

# Runs a row of the bench: its name, its status, and its words; then lines that `printed` or `said` has to have.
runs() {
    local name=$1 wanted=$2
    shift 2
    ends "$name" "$wanted" bench "$@"
}
prints() {
    ends "$1: $2" 0 grep -q -- "$2" printed
}
says() {
    ends "$1: what is said" 0 grep -qxF -- "$2" said
}

# Whether no process of the bench is left, within half a minute. (A zombie has no environment.)
is_clean() {
    local tries
    for tries in $(seq 300); do
        # (its status says too that a process has ended meanwhile)
        grep -lsz "^TMWATCH_TESTED=$folder" /proc/[0-9]*/environ >left || true
        [ -s left ] || return 0
        sleep 0.1
    done
    echo "left, after $tries looks: $(sed 's|environ|comm|' left | xargs cat | xargs)"
    return 1
}

# A process of the bench that this one has started, if there is any. (`pgrep` isn't on each machine.)
started_by() {
    local child
    for child in $(grep -lsx "PPid:[[:space:]]$1" /proc/[0-9]*/status | cut -d / -f 3); do
        ! grep -qsx tmwatch-bench "/proc/$child/comm" || { echo "$child" && return; }
    done
}

# Right stores, and wrong ones, by each schedule; in one process, and in one for each thread.
for schedule in steps rounds permits all; do
    runs "one program, $schedule" 0 --schedule "$schedule" --rounds 300 "${one[@]}" right
    runs "a program for each thread, $schedule" 0 --schedule "$schedule" --rounds 100 "${file[@]}" right
    runs "a wrong store, $schedule" 1 --schedule "$schedule" "${one[@]}" reads
    prints "a wrong store, $schedule" '"verdict":"violated"'
done
alone='warning: no two calls ran at the same time. Also run with --schedule rounds'
runs 'all, by steps alone' 0 --rounds 20 "${one[@]}" right
says 'all, by steps alone' "$alone"
runs 'all, steps and rounds' 0 --seconds 8 --threads 2 --accesses 1 --single-process -- \
    sh -c './little one right | while read -r answer; do sleep 0.002; echo "$answer"; done'
ends 'all, steps and rounds: what is said' 1 grep -qF "$alone" said
runs 'another wrong store' 1 --trace once "${one[@]}" commit
prints 'another wrong store' '"deterministic":true'
ends 'another wrong store: no debugger' 1 grep -q gdb said
read -r -a again < <(sed -n 's/.*"reproduce":"\(.*\)"}$/\1/p' printed)
ends 'the options that reproduce it' 0 test "${#again[@]}" -ge 4
ends 'what stands beside its trace' 0 diff printed once.report
runs 'again' 1 "${again[@]}" --trace twice "${one[@]}" commit
ends 'the same trace' 0 cmp once twice
if [ -x "$program" ]; then
    ends 'judge says so' 1 "$program" judge <once
fi
runs 'a run that shows nothing' 0 --schedule steps --threads 1 --rounds 10 "${one[@]}" right
prints 'a run that shows nothing' '"untested":\["threads"'
runs JUnit 1 --junit junit.xml "${one[@]}" commit
ends 'JUnit: the program' 0 grep -q 'name="./little one commit"' junit.xml

# A violation is deterministic only if a second run shows it too, in a store that is set up anew. Else its trace is left, beside those of other runs.
rm -f tmwatch-bench*.trace*
cp little gone
runs 'a second run' 1 --setup 'echo up >>ups' --teardown 'echo down >>ups; rm gone' --single-process -- ./gone one commit
prints 'a second run' '"deterministic":true'
ends 'a second run: how often the store was set up' 0 diff <(xargs <ups) <(echo up up down)
runs 'a second run after a teardown' 1 --setup 'mkdir up && echo up >>ups' --teardown 'rmdir up && echo down >>ups' "${one[@]}" commit
prints 'a second run after a teardown' '"deterministic":true'
ends 'a second run after a teardown: how often the store was set up' 0 diff <(xargs <ups) <(echo up up down up down up down)
ends 'a second run: no trace is left' 1 test -e tmwatch-bench.trace
printf '%s\n' '#!/bin/sh' 'mkdir "${0%/*}/first" 2>/dev/null && exec sh -c "$1"; exec sh -c "$2"' >turns
chmod +x turns
turns=(--single-process -- "$folder/turns")
is_left() {
    prints "$1" '"deterministic":false'
    says "$1" 'no second run has confirmed this'
    says "$1" "its trace: $2"
    ends "$1: beside its trace" 0 diff printed "$2.report"
    if [ -x "$program" ]; then
        ends "$1: judge says so" 1 sh -c '"$1" judge <"$2"' sh "$program" "$2"
    fi
}
runs 'a second run that is right' 1 "${turns[@]}" './little one commit' './little one right'
is_left 'a second run that is right' tmwatch-bench.trace
md5sum tmwatch-bench.trace* >sums || true
rm -r first
runs 'a second run that is wrong otherwise' 1 "${turns[@]}" './little one commit' './little one reads'
is_left 'a second run that is wrong otherwise' tmwatch-bench-2.trace
ends 'a second run that is wrong otherwise: the other trace' 0 md5sum -c sums
md5sum tmwatch-bench-2.trace >>sums || true
rm -rf first tmwatch-bench.trace tmwatch-bench-2.trace.report
runs 'a second run that differs by a value' 1 "${turns[@]}" "./little one first | sed -u 's/V 7/V 8/'" './little one first'
is_left 'a second run that differs by a value' tmwatch-bench-3.trace
ends 'a second run that differs by a value: what another trace has left' 0 md5sum -c <(sed 1d sums)
rm -r first
runs 'a second run, and a shrunk one' 1 --jobs 2 --shrink --junit junit.xml --trace trace "${turns[@]}" './little one commit' './little one right'
prints 'a second run, and a shrunk one' '"deterministic":false'
ends 'a second run, and a shrunk one: for CI systems' 0 grep -q '"deterministic":false' junit.xml
ends 'a second run, and a shrunk one: one trace' 1 test -e tmwatch-bench-4.trace
in_no_folder() {
    rm -r first
    mkdir gone.dir && cd gone.dir && rmdir ../gone.dir
    "$folder/tmwatch-bench" "${turns[@]}" "'$folder/little' one commit" "'$folder/little' one right"
}
ends 'a trace that cannot be left' 1 in_no_folder
has_told 'a trace that cannot be left: what is said' -xF "error: cannot write the trace to tmwatch-bench.trace. Use --trace"
# (an interrupt ends the second run)
interrupted_second() {
    local status=0 began=$SECONDS
    rm -r first
    timeout 100 "${marked[@]}" --default-signal=INT ./tmwatch-bench --startup-timeout 50 "${turns[@]}" './little one commit' 'touch second; sleep 1000' \
        >printed 2>said &
    while kill -0 $! && [ ! -e second ]; do sleep 0.1; done
    kill -INT "$(started_by $!)"
    wait $! || status=$?
    # (a sanitizer of threads lets a signal wait as long as the process does)
    [ $((SECONDS - began)) -lt 40 ] || [[ ${FLAGS:-} == *thread* ]] && return "$status"
}
ends 'an interrupt in a second run' 1 interrupted_second
prints 'an interrupt in a second run' '"deterministic":false'

# What passes is the record: the program's lines, but for the first one, are those of the trace.
printf '%s\n' '#!/bin/sh' 'tee calls | ./little one right | tee answers' >taped
chmod +x taped
runs 'a taped run' 0 --single-process --schedule steps --threads 1 --rounds 20 --trace trace -- ./taped
ends 'the calls are those of the trace' 0 diff <(sed 1d calls) <(grep '^0 [RWNTX]' trace)
ends 'the answers are those of the trace' 0 diff <(sed 1d answers) <(grep '^0 [VKCA]' trace)
ends 'values are small' 0 awk '$2 == "W" && $4 > 10000 { exit 1 }' calls
ends 'nothing adds' 1 grep -q ' N ' calls
runs 'a program that adds' 0 --single-process --schedule steps --threads 1 --rounds 20 --add -- ./taped
refused='warning: the program refused every add (N). Does it support --add?'
ends 'a program that adds: what is said' 1 grep -qF "$refused" said
ends 'addends are small' 0 awk '$2 == "N" { adds++ } $2 == "N" && $4 >= 65536 { exit 1 } END { exit !adds }' calls
runs 'a program that does not add' 0 --schedule steps --rounds 20 --add "${one[@]}" adds
says 'a program that does not add' "$refused"
runs 'wide values' 0 --single-process --schedule steps --threads 1 --rounds 20 --values wide -- ./taped
ends 'values are wide' 0 awk '$2 == "W" { wide += length($4) > 17 } END { exit wide < 10 }' calls

# The whole run goes on after a violation.
rm -f tmwatch-bench*.trace*
runs 'a whole run' 1 --schedule steps --rounds 100 --full-trace whole "${one[@]}" reads
ends 'a whole run: all events' 0 test "$(($(wc -l <whole) - 1))" = "$(sed -n 's/.*"events":\([0-9]*\),"verdict.*/\1/p' printed)"
ends 'a whole run: after the violation' 0 test "$(wc -l <whole)" -gt 4000
ends 'a whole run: no other trace' 1 test -e tmwatch-bench.trace
if has python3 'a whole run, by the plain definitions'; then
    for criterion in opacity strict; do python3 "$top/tests/long/whole.py" $criterion <whole; done >lengths
    ends 'a whole run, by the plain definitions' 0 grep -Pzqx '[0-9]+\nnone\n' lengths
fi
runs 'a whole run with adds' 0 --single-process --schedule steps --threads 2 --registers 3 --rounds 20 --add --full-trace adds -- ./little one right
for of in '1 8 whole' '2 3 0 0 0 adds'; do
    ends "a whole run, ${of##* }: its header" 0 test "$(head -n 1 "${of##* }")" = "opacity-trace ${of% *}"
    ends "a whole run, ${of##* }: its first call" 0 grep -qxa '[0-3] [RWN] .*' <(sed -n 2p "${of##* }")
done
runs 'a whole run that cannot be written' 4 --full-trace none/whole "${one[@]}" right
says 'a whole run that cannot be written' "thread 0, between calls: cannot write none/whole: No such file or directory"
long=none/$(printf '%0600d' 1)
runs 'a file of a long name' 4 --full-trace "$long" "${one[@]}" right
says 'a file of a long name' "thread 0, between calls: cannot write ${long:0:473}"

# Locks of the store: a call that waits lets others go on.
runs 'a store that locks' 0 --schedule steps --rounds 200 "${file[@]}" right
prints 'a store that locks' '"stalls":0,.*"waits":[1-9]'
runs 'a store that locks, by time' 0 --schedule steps --rounds 50 --blocked-after 5 "${file[@]}" right
prints 'a store that locks, by time' '"stalls":0,.*"waits":[1-9]'
runs 'a store that is slow once' 0 --schedule steps --rounds 20 "${one[@]}" slow
prints 'a store that is slow once' '"stalls":0,'
# (a busy machine may run nothing of a program for a while)
no_wait() {
    local _
    for _ in 1 2 3; do
        bench "$@" || return
        grep -q '"waits"' printed || break
    done
}
for what in computes thread child; do
    ends "a long call: $what" 0 no_wait --schedule steps --rounds 20 "${one[@]}" $what
    ends "a long call: $what: it does not wait" 1 grep '"waits"' printed
done
# Time counts little in which a program computes or waits for a disk, or in which a server elsewhere may do so, but such time ends too.
export LONG=1400000
late=(--schedule steps --rounds 20 --timeout 1 --single-process -- bash -c)
for what in computes thread child disk; do
    runs "a call that takes four seconds: $what" 0 "${late[@]}" "exec ./little one $what"
done
while [ ! -e idle ]; do :; done &
busy=$!
LONG=4200000 runs 'a server that is slow' 0 "${late[@]}" 'exec 3<>/dev/udp/127.0.0.1/9; exec ./little one slow'
LONG=20000000 runs 'a program that sleeps for twenty seconds' 4 "${late[@]}" 'exec ./little one slow'
prints 'a program that sleeps for twenty seconds' '{"fault":"hang"}'
ends 'a program that sleeps for twenty seconds: how long' 0 grep -qx 'hang: no event for [1-7] seconds (--timeout)' said
touch idle && wait $busy
LONG=60000000 runs 'a program that computes on and on' 4 "${late[@]}" 'exec ./little one computes'
ends 'a program that computes on and on: how long' 0 grep -qE '^hang: no event for ([89]|[1-4][0-9]) seconds ' said
unset LONG
WHEN=100 runs 'a store that locks, and ends' 4 --schedule steps --setup 'rm -f registers' -- ./little lock registers ends
prints 'a store that locks, and ends' '"deterministic":false'

# A store that crashes, at calls that the seed draws: it holds what was committed, or it has lost that.
crashes=(--setup 'rm -f registers crashed' --timeout 30 --rounds 500 --seed 5 -- ./little lock registers right)
for schedule in steps rounds; do
    runs "a store that crashes, $schedule" 0 --schedule "$schedule" --crash 'echo >>crashed' "${crashes[@]}"
    prints "a store that crashes, $schedule" '"crashes":[1-9]'
    ends "a store that crashes, $schedule: how often" 0 grep -q "\"crashes\":$(wc -l <crashed)," printed
done
runs 'a store that loses what was committed' 1 --crash 'head -c 64 /dev/zero >registers' --schedule rounds "${crashes[@]}"
prints 'a store that loses what was committed' '"crashes":1,'
prints 'a store that loses what was committed' '"deterministic":false'
runs 'a crash that fails' 4 --crash 'exit 3' --schedule rounds "${crashes[@]}"
says 'a crash that fails' 'the crash has ended with status 3: exit 3'
ends 'a crash that fails: which call' 0 grep -q '^thread [0-3], call "[RWTX].*": the command of --crash failed$' said
runs 'a crash and a whole run' 4 --crash true --full-trace whole "${crashes[@]}"

# What the program and the commands get.
printf '%s\n' '#!/bin/sh' 'env | grep "^TMWATCH_[TR]" | grep -v TESTED | sort | xargs >>"$1"; exec ./little lock registers right' >environment
chmod +x environment
rm -f registers
runs 'a program for each thread' 0 --schedule rounds --threads 2 --registers 2 --rounds 1 -- ./environment each
ends 'a program for each thread: its environment' 0 diff <(sort each) - <<'END'
TMWATCH_REGISTERS=2 TMWATCH_THREAD=0 TMWATCH_THREADS=2
TMWATCH_REGISTERS=2 TMWATCH_THREAD=1 TMWATCH_THREADS=2
END
runs 'setup and teardown' 0 --setup 'rm registers; echo up $TMWATCH_REGISTERS >order' --teardown 'echo down >>order' --single-process --rounds 1 -- ./environment all
ends 'setup and teardown: their order' 0 diff order <(printf '%s\n' 'up 8' down)
ends 'one program: its environment' 0 grep -qx 'TMWATCH_REGISTERS=8 TMWATCH_THREADS=8' all
# (the last of two words counts; by all, threads are drawn)
for number in 1 8; do
    rm -f registers each
    runs "$number threads and registers" 0 --schedule rounds --threads 5 --threads $number --registers 5 --registers $number --rounds 1 --single-process -- \
        ./environment each
    ends "$number threads and registers: their environment" 0 grep -qx "TMWATCH_REGISTERS=$number TMWATCH_THREADS=$number" each
done
for schedule in steps permits; do
    rm -f registers each
    runs "threads, $schedule" 0 --schedule all --schedule $schedule --rounds 1 --single-process -- ./environment each
    ends "threads, $schedule: their environment" 0 grep -qx 'TMWATCH_REGISTERS=8 TMWATCH_THREADS=4' each
done
runs 'a setup that fails' 4 --setup 'exit 3' --teardown 'echo down >failed' "${one[@]}" right
says 'a setup that fails' 'the setup has ended with status 3: exit 3'
prints 'a setup that fails' '{"fault":"program"}'
ends 'a setup that fails: the teardown' 0 grep -qx down failed
runs 'a setup that is killed' 4 --setup 'kill -9 $$' "${one[@]}" right
says 'a setup that is killed' 'the setup was ended by signal 9 (Killed): kill -9 $$'
runs 'a teardown that fails' 0 --teardown 'exit 3' --rounds 1 "${one[@]}" right
says 'a teardown that fails' 'the teardown has ended with status 3: exit 3'

# Descriptors 0 to 2 that are closed: the trace has nothing of what is written to them, and the program the same calls.
printf '%s\n' '#!/bin/sh' 'echo message >&2; tee calls | ./little one right' >loud
chmod +x loud
loud=(./tmwatch-bench --single-process --schedule steps --threads 1 --rounds 20 --setup 'echo setup')
ends 'a loud program' 0 "${loud[@]}" --trace open -- ./loud
for closed in '<&-' '>&-' '2>&-' '<&- >&-' '<&- 2>&-' '>&- 2>&-' '<&- >&- 2>&-'; do
    rm -f trace calls
    # (a verdict that can't be printed is a fault)
    case $closed in '>'* | *' >'*) wanted=4 ;; *) wanted=0 ;; esac
    ends "a loud program, $closed" $wanted sh -c "exec \"\$@\" $closed" sh "${loud[@]}" --print-phases --trace trace -- ./loud
    ends "a loud program, $closed: its trace" 0 cmp open trace
    ends "a loud program, $closed: its calls" 0 diff <(sed 1d calls) <(grep '^0 [RWTX]' trace)
done

# What goes wrong in a program has a line that says which thread, which call and what came; and the trace is kept.
ours='(Use standard error for messages.)'
fails() {
    local what=$1 wanted=$2
    rm -f trace
    runs "$what" 4 --schedule steps --timeout 3 --trace trace "${@:4}" "$what"
    says "$what" "$wanted"
    prints "$what" "$3"
    ends "$what: its trace" 0 grep -q '^[0-3] [RW] ' trace
}
fails ends 'thread 3, call "R 2": the program has ended with status 3' '{"fault":"program"}' "${one[@]}"
fails killed 'thread 3, call "R 2": the program was ended by signal 9 (Killed)' '{"fault":"program"}' "${one[@]}"
fails closes 'thread 3, call "R 2": the program has closed its standard input or output, and goes on' '{"fault":"program"}' "${one[@]}"
fails text "thread 3: the answer to \"R 2\" was \"hello from the store\", not \"V number\" or \"A\". $ours" '{"fault":"program"}' "${one[@]}"
fails blank "thread 3: the answer to \"R 2\" was \"\", not \"V number\" or \"A\". $ours" '{"fault":"program"}' "${one[@]}"
fails register "thread 3: the answer to \"R 2\" was \"9 C\", not \"V number\" or \"A\". $ours" '{"fault":"program"}' "${one[@]}"
fails kind 'thread 3: the answer to "R 2" was "K", not "V number" or "A"' '{"fault":"program"}' "${one[@]}"
WHEN=28 runs 'kind, of a commit' 4 --schedule steps "${one[@]}" kind
says 'kind, of a commit' 'thread 3: the answer to "T" was "K", not "C" or "A"'
fails huge 'thread 3, call "R 2": the number in "V 18446744073709551616" has more than 64 bits' '{"fault":"program"}' "${one[@]}"
fails negative 'thread 3: the answer to "R 2" was "V -1", not "V number" or "A"' '{"fault":"program"}' "${one[@]}"
fails control 'thread 3: the answer to "R 2" was "\x01", not "V number" or "A"' '{"fault":"program"}' "${one[@]}"
fails long "thread 3: the answer to \"R 2\" was \"3 V 000000000000000000000000000000000000000000000000000000000000..\", not \"V number\" or \"A\". $ours" '{"fault":"program"}' \
    "${one[@]}"
fails unended "thread 3: the answer to \"R 2\" was \"3 V 000000000000000000000000000000000000000000000000000000000000..\", not \"V number\" or \"A\". $ours" \
    '{"fault":"program"}' "${one[@]}"
fails empty 'thread 3: the answer to "R 2" was "V ", not "V number" or "A". Does --setup set every register to 0?' '{"fault":"program"}' \
    "${one[@]}"
runs 'empty, after a setup' 4 --schedule steps --setup true "${one[@]}" empty
says 'empty, after a setup' 'thread 3: the answer to "R 2" was "V ", not "V number" or "A"'
fails twice "thread 3, call \"R 2\": the line \"3 V 0\" answers no call. $ours" '{"fault":"program"}' "${one[@]}"
fails more "thread 3, between calls: the line \"3 V 0\" answers no call. $ours" '{"fault":"program"}' "${one[@]}"
fails silent 'thread 3: read(register 2) has not returned' '{"fault":"hang"}' "${one[@]}"
export WHEN=20
for what in half half_end other; do
    rm -f registers trace
    runs "$what" 4 --schedule steps --timeout 3 --trace trace "${file[@]}" "$what"
    prints "$what" '{"fault":"program"}'
    ends "$what: its trace" 0 grep -q '^[0-3] [RW] ' trace
    mv said "$what"
done
ends 'half: what is said' 0 grep -q '^thread [0-3], call "[RWT].*": the line "[0-3] V" has no end, and nothing follows$' half
ends 'half_end: what is said' 0 grep -q '^thread [0-3], call "[RWT].*": the program has ended after half a line, "0 V"$' half_end
ends 'other: what is said' 0 grep -q \
    '^thread \([0-3]\), call "[RWT].*": the line ".*" is an answer of thread [1-4], whose calls go to another process$' other
unset WHEN
runs 'answers in pieces' 0 --schedule rounds --threads 8 --rounds 50 "${one[@]}" pieces
runs 'lines that end as those of Windows' 0 --schedule steps --rounds 20 "${one[@]}" return
runs 'registers that hold no 0' 1 --schedule steps "${one[@]}" first
says 'registers that hold no 0' 'thread 0: register 0 is 7 before anything was written. --setup must set every register to 0'
runs 'no such program' 4 --single-process -- ./none
says 'no such program' "thread 0, between calls: cannot start ./none: No such file or directory"
prints 'no such program' '{"fault":"program"}'
runs 'no such program, by a shell' 4 --single-process -- sh -c ./none
ends 'no such program, by a shell: what is said' 0 grep -qx 'thread [0-7], call "X": the program has ended with status 127' said
runs 'a banner' 4 "${one[@]}" banner
says 'a banner' "thread 0: the answer to \"X\" was \"a store, version 1\", not \"A\". $ours"
runs 'a program that is never ready' 4 --startup-timeout 1 "${one[@]}" unready
says 'a program that is never ready' 'thread 0, call "X": no answer to the first line within 1 seconds (--startup-timeout)'

# Stores in Python.
if has python3 'stores in Python'; then
    export PYTHONDONTWRITEBYTECODE=1 PYTHONPATH=$top/examples/python
    memory=(--single-process -- python3 "$top/examples/python/memory.py")
    sqlite=(--setup "python3 '$top/examples/python/sqlite.py' setup registers.db WAL" -- python3 "$top/examples/python/sqlite.py" registers.db)
    runs 'a memory in Python' 0 --schedule rounds --rounds 100 --threads 8 "${memory[@]}"
    runs 'a memory in Python, by steps' 0 --schedule steps --rounds 100 "${memory[@]}"
    for part in reads commit; do
        runs "a memory in Python, without validation: $part" 1 --schedule steps "${memory[@]}" $part
    done
    runs 'SQLite' 0 --schedule steps --rounds 100 "${sqlite[@]}" BEGIN
    runs 'SQLite, by Python'\''s defaults' 1 --schedule steps "${sqlite[@]}"
    prints 'SQLite, by Python'\''s defaults' '"deterministic":true'
    cat >failing.py <<'END'
import sys

from tmwatch_store import Refused, Store, serve, serve_all

class Failing(Store):
    calls = 0

    def begin(self):
        print("the store prints")

    def read(self, register):
        self.calls += 1
        if self.calls == 9:
            raise OSError("the store fails")
        if self.calls % 4 == 0:
            raise Refused
        return 0

    def write(self, register, value):
        raise Refused

    def commit(self):
        pass

    def abort(self):
        pass

serve(Failing()) if len(sys.argv) == 1 else serve_all([Failing() for _ in range(8)])
END
    for all in '' --single-process; do
        runs "a store in Python that fails $all" 4 $all --schedule steps -- python3 failing.py $all
        says "a store in Python that fails $all" 'OSError: the store fails'
        ends "a store in Python that fails $all: which call" 0 grep -q '^thread [0-3], call "R .": the program has ended with status 1$' said
        says "a store in Python that prints $all" 'the store prints'
    done
    # (of two calls that wait for a third thread's, another thread reads for one)
    cat >locked.py <<'END'
import threading

from tmwatch_store import Store, serve_all

lock, values = threading.Lock(), [0] * 8

class Locked(Store):
    def begin(self):
        lock.acquire()
        self.kept = values[:]

    def read(self, register):
        return self.kept[register]

    def write(self, register, value):
        self.kept[register] = value

    def commit(self):
        values[:] = self.kept
        lock.release()

    def abort(self):
        lock.release()

serve_all([Locked() for _ in range(8)])
END
    runs 'a store in Python that locks' 0 --single-process --schedule steps --rounds 50 -- python3 locked.py
    prints 'a store in Python that locks' '"stalls":0,.*"waits":[1-9]'
    ends 'a memory in Python ends by itself' 0 timeout 60 python3 "${memory[@]:3}" </dev/null
    # What the stores ask of a database, by a driver that tells it (driver.py): all that a conversation comes to.
    mkdir drivers
    for name in sqlite3 psycopg2 pymysql; do cp "$top/tests/lines/driver.py" "drivers/$name.py"; done
    printf '0 %s\n' X 'R 1' 'W 2 3' T X 'W 2 13' 'W 4 5' X >talk
    # The row's name, the exit status, the code of the refusal, if there is one, and the store's words.
    asks() {
        ends "$1" "$2" env -u PYTHONUNBUFFERED ${3:+"ERROR=$3"} PYTHONPATH="drivers:$PYTHONPATH" python3 "$top/examples/python/$4" "${@:5}" <talk
        cp output asked
    }
    has_asked() {
        ends "$1: what it asks" 0 diff asked -
    }
    sqlite_calls='execute PRAGMA busy_timeout = 0
rollback
0 A
execute BEGIN IMMEDIATE
execute SELECT v FROM registers WHERE k = ? ['\''1'\'']
0 V 7
execute UPDATE registers SET v = ?2 WHERE k = ?1 ['\''2'\'', '\''3'\'']
0 K
commit
0 C
rollback
0 A
execute BEGIN IMMEDIATE
execute UPDATE registers SET v = ?2 WHERE k = ?1 ['\''2'\'', '\''13'\'']
rollback
0 A
execute BEGIN IMMEDIATE
execute UPDATE registers SET v = ?2 WHERE k = ?1 ['\''4'\'', '\''5'\'']
0 K
rollback
0 A'
    asks 'SQLite, BEGIN' 0 1 sqlite.py file 'BEGIN IMMEDIATE'
    has_asked 'SQLite, BEGIN' <<<$'connect file {}\nexecute PRAGMA synchronous = OFF\n'"$sqlite_calls"
    SYNCHRONOUS=FULL asks 'SQLite, no BEGIN' 0 1 sqlite.py file
    has_asked 'SQLite, no BEGIN' <<<$'connect file {}\nexecute PRAGMA synchronous = FULL\n'"${sqlite_calls//$'execute BEGIN IMMEDIATE\n'/}"
    asks 'SQLite, setup' 0 1 sqlite.py setup file TRUNCATE
    has_asked 'SQLite, setup' <<'END'
connect file {}
executescript PRAGMA journal_mode = TRUNCATE; DROP TABLE IF EXISTS registers; CREATE TABLE registers (k INTEGER PRIMARY KEY, v INTEGER)
executemany INSERT INTO registers VALUES (?, 0) [(0,), (1,), (2,), (3,), (4,), (5,), (6,), (7,)]
commit
END
    calls='0 A
execute BEGIN ()
execute SELECT v FROM registers WHERE k = %s (1,)
0 V 7
execute UPDATE registers SET v = %s WHERE k = %s (3, 2)
0 K
execute COMMIT ()
0 C
0 A
execute BEGIN ()
execute UPDATE registers SET v = %s WHERE k = %s (13, 2)
execute ROLLBACK ()
0 A
execute BEGIN ()
execute UPDATE registers SET v = %s WHERE k = %s (5, 4)
0 K
execute ROLLBACK ()
0 A'
    asks 'PostgreSQL' 0 40001 dbapi.py postgres dbname=test SERIALIZABLE
    has_asked 'PostgreSQL' <<END
connect dbname=test {'options': '-c lock_timeout=1ms'}
autocommit = True
cursor
execute SET SESSION CHARACTERISTICS AS TRANSACTION ISOLATION LEVEL SERIALIZABLE ()
$calls
END
    asks 'MariaDB' 0 1213 dbapi.py mariadb socket:user:base 'READ COMMITTED'
    has_asked 'MariaDB' <<END
connect {'unix_socket': 'socket', 'user': 'user', 'database': 'base', 'autocommit': True}
cursor
execute SET SESSION innodb_lock_wait_timeout = 0 ()
execute SET SESSION TRANSACTION ISOLATION LEVEL READ COMMITTED ()
$calls
END
    LOCKS=7s asks 'PostgreSQL, its locks' 0 40P01 dbapi.py postgres dbname=test SERIALIZABLE
    ends 'PostgreSQL, its locks: how long' 0 grep -q lock_timeout=7s asked
    LOCKS=7 asks 'MariaDB, its locks' 0 1205 dbapi.py mariadb socket:user:base SERIALIZABLE
    ends 'MariaDB, its locks: how long' 0 grep -q 'lock_wait_timeout = 7 ' asked
    asks 'PostgreSQL, a lock that is held' 0 55P03 dbapi.py postgres dbname=test SERIALIZABLE
    asks 'MariaDB, a row that has changed' 0 1020 dbapi.py mariadb socket:user:base SERIALIZABLE
    for code in '' 04000 55000; do asks "PostgreSQL, the error '$code'" 1 "$code" dbapi.py postgres dbname=test SERIALIZABLE; done
    asks 'MariaDB, another error' 1 1062 dbapi.py mariadb socket:user:base SERIALIZABLE
    ends 'MariaDB, another error: it is said' 0 grep -x 'pymysql.Error: 1062' asked
fi

# Jobs: a store each, whose setup, programs and teardown know its number; and a shrunk run that shows a violation, in a store that is set up anew.
jobs=(--setup 'rm -f registers$TMWATCH_JOB; echo up$TMWATCH_JOB >>each' --teardown 'echo down$TMWATCH_JOB >>each' -- sh -c
    'echo job$TMWATCH_JOB >>each; exec ./little lock registers$TMWATCH_JOB "$1"' sh)
rm -f each
runs 'two jobs' 0 --jobs 2 --rounds 40 --threads 2 "${jobs[@]}" right
prints 'two jobs' '"rounds":40,'
ends 'two jobs: what ran for each' 0 diff <(sort each | uniq -c | xargs) <(echo 1 down0 1 down1 2 job0 2 job1 1 up0 1 up1)
is_of() {
    sed -n 's/^{"events":\([0-9]*\),.*/\1/p' printed
}
runs 'one job' 0 --rounds 20 --threads 2 "${file[@]}" right
first=$(is_of)
runs 'the other job' 0 --rounds 20 --threads 2 --seed 1000001 "${file[@]}" right
second=$(is_of)
runs 'both jobs' 0 --jobs 2 --rounds 40 --threads 2 "${jobs[@]}" right
ends 'both jobs: what they have counted' 0 test "$(is_of)" -eq "$((first + second))"
runs 'a wrong store by two jobs' 1 --jobs 2 --seconds 60 "${one[@]}" commit
prints 'a wrong store by two jobs' '"deterministic":true'
ends 'a program that fails in each job' 4 bench --jobs 2 --rounds 1000 -- false
ends 'a program that fails in each job: one fault' 0 test "$(<printed)" = '{"fault":"program"}'
rm -f each
runs 'as many jobs as can be' 4 --jobs 64 --rounds 1000 --setup 'echo $TMWATCH_JOB >>each' -- false
ends 'as many jobs as can be: the setup of each' 0 diff <(sort -n each) <(seq 0 63)
for store in reads commit; do
    of=(--setup 'echo up >>each' --teardown 'echo down >>each' --trace small --single-process -- ./little one $store)
    rm -f each
    runs "a shrunk run, $store" 1 --shrink "${of[@]}"
    cp small twice && cp said small.said
    ends "a shrunk run, $store: a setup for each try" 0 test "$(grep -c up each)" -gt 3 -a "$(grep -c up each)" -eq "$(($(grep -c down each) + 1))"
    ends "a shrunk run, $store: its round alone" 0 test "$(wc -l <small)" -lt 40
    prints "a shrunk run, $store" '"deterministic":true,"reproduce":".* --audit-first .*"'
    read -r -a again < <(sed -n 's/.*"reproduce":"\(.*\)"}$/\1/p' printed)
    runs "a shrunk run, $store, again" 1 "${again[@]}" "${of[@]}"
    ends "a shrunk run, $store: the same trace" 0 cmp small twice
    ends "a shrunk run, $store: what was found first" 0 grep -q '^shrunk from: --seed 1 --round [0-9]* --values small$' small.said
    ends "a shrunk run, $store: nothing is left" 0 is_clean
done
# The program of a try has ended before the store is set up for the next one, whatever it stays for.
rm -f stayed pid
runs 'a shrunk run of a store that stays' 1 --shrink --setup '[ ! -e pid ] || for try in $(seq 50); do
        [ -n "$(tr -d "\0" <"/proc/$(cat pid)/cmdline")" ] || break
        [ $try -lt 50 ] || echo "$try looks" >stayed
        sleep 0.1
    done; rm -f pid' --single-process -- sh -c 'echo $$ >pid; trap "" TERM; ./little one commit; sleep 1000'
ends 'a shrunk run of a store that stays: none is left' 1 test -e stayed

# Words.
ends 'help' 0 ./tmwatch-bench --help
mv output told
ends 'help: what it says of all' 0 diff <(grep -v '^  --' told) - <<'END'
usage: tmwatch-bench [OPTION].. -- PROGRAM [ARGUMENT]..
Tests a database or any other store for opacity. Starts PROGRAM once per thread,
sends it the calls of random transactions, and checks its answers (LINES.md).

The store:
What to run:
To reproduce a violation, use the options printed after it:
Transactions (with --schedule all, random after the first 1000 rounds):
Values and output:
Exit status: 0 opaque so far, 1 violated, 2 undecided, 3 malformed, 4 fault
END
ends 'help: each option, as the man page has it' 0 diff <(sed -n 's/^  --/--/p' told | tr -s ' ') \
    <(entries "$top/packaging/tmwatch-bench.1" '.SH OPTIONS' | sed 's/ ,/,/')
ends 'help: options of the bench' 0 grep -q '^  --schedule  *WORD ' told
ends 'help: none of memories in C' 1 grep -qE '^  --(event|orders|plain|races) |by --seconds alone' told
runs 'no program' 4 --single-process
says 'no program' 'tmwatch-bench: the program is missing. Write it after --'
runs 'a word that is none' 4 --ones -- ./little one right
says 'a word that is none' '--ones: no such option'
runs 'too many jobs' 4 --jobs 65 -- ./little one right
says 'too many jobs' '--jobs: 65 is not in 1 to 64'
for words in '--startup-timeout' '--startup-timeout 0' '--blocked-after x' '--setup' '--jobs 0 -- ./little one right'; do
    # shellcheck disable=SC2086
    runs "$words" 4 $words
    ends "$words: what is said" 0 grep -q "^${words%% *}: " said
done

# No process is left, whatever ended the run: programs that ignore SIGTERM, with children in sessions of their own, and what the setup has left.
stays=(--setup 'setsid sleep 1000 & echo up >up' --teardown 'echo down >down' --single-process -- ./little one stays)
left_by() {
    ends "$1: nothing is left" 0 is_clean
    ends "$1: the teardown" 0 rm down
}
runs 'an end' 0 --schedule steps --threads 2 --rounds 5 "${stays[@]}"
left_by 'an end'
runs 'a fault' 4 --schedule steps --threads 2 --timeout 1 "${stays[@]:0:5}" -- sh -c 'setsid sleep 1000 & exec ./little one silent'
left_by 'a fault'
runs 'a violation' 1 --schedule steps --threads 2 "${stays[@]:0:5}" -- sh -c './little one first; sleep 1000'
left_by 'a violation'
# The teardown finds no program of the bench any more, of any thread and job.
runs 'two jobs, and an end' 0 --jobs 2 --schedule steps --threads 3 --rounds 10 --setup 'rm -f registers$TMWATCH_JOB; echo up >up' \
    --teardown 'for it in pid$TMWATCH_JOB?; do echo $it; ! kill -0 $(cat $it) || echo is left; done >>down' -- \
    sh -c 'echo $$ >pid$TMWATCH_JOB$TMWATCH_THREAD; exec ./little lock registers$TMWATCH_JOB stays'
ends 'two jobs, and an end: no program is left' 0 diff <(sort down) <(printf '%s\n' pid0{0..2} pid1{0..2})
left_by 'two jobs, and an end'
interrupted() {
    local status=0
    rm -f up begun
    timeout 300 "${marked[@]}" --default-signal=INT,TERM,HUP ./tmwatch-bench --seconds 50 "${@:2}" >printed 2>said &
    until [ -e begun ]; do sleep 0.1; done
    kill "-$1" "$(started_by $!)"
    wait $! || status=$?
    return "$status"
}
begins=("${stays[@]:0:5}" -- sh -c 'echo >begun; exec ./little one stays')
for signal in INT TERM HUP; do
    ends "SIG$signal" 0 interrupted "$signal" --schedule rounds --threads 2 "${begins[@]}"
    prints "SIG$signal" '"opaque so far"'
    left_by "SIG$signal"
done
# (timeout signals the process, and then its group)
ends 'timeout' 124 timeout 10 "${marked[@]}" --default-signal=TERM ./tmwatch-bench --threads 2 --trace trace "${stays[@]}"
has_told 'timeout: the verdict' '"opaque so far"'
left_by timeout

# No other process is signalled: none whose number a list of children has at its end, or would have if it were cut there,
goes_on() {
    grep -qs '^State:[[:space:]]*S' "/proc/$1/status"
}
cut_off() {
    local foreign
    sleep 1000 &
    foreign=$!
    { printf '%.0s4194304 ' {1..500} && printf '%*s%s99 %s ' $((95 - ${#foreign})) '' $foreign $foreign; } >list
    [ "$(head -c 4095 list | tail -c ${#foreign})" = $foreign ]
    LISTED=list timeout 300 ./listed --schedule steps --rounds 5 "${one[@]}" right
    goes_on $foreign && kill $foreign
}
ends 'a list of children that is cut within a number' 0 cut_off
# nor a group that has the number of programs that are gone: those of job 1, which end long before job 0.
reused() {
    local number
    rm -f pid? registers? used
    bench --jobs 2 --schedule rounds --rounds 40 --threads 2 -- sh -c 'echo $$ >>pid$TMWATCH_JOB
        [ $TMWATCH_JOB = 0 ] || exec ./little lock registers1 right
        ./little lock registers0 right | while read -r answer; do sleep 0.01; echo "$answer"; done' &
    until [ -s pid1 ] && number=$(head -n 1 pid1) && ! kill -0 "$number" 2>/dev/null; do
        kill -0 $! || return
        sleep 0.05
    done
    # (the system gives numbers in turn)
    timeout 20 python3 -c 'import os, sys, time
number, child = int(sys.argv[1]), 0
while child != number:
    with open("/proc/sys/kernel/ns_last_pid", "w") as last:
        last.write(str(number - 1))
    child = os.fork()
    if child == 0 and os.getpid() == number:
        os.setpgid(0, 0)
        open("used", "w").close()
        time.sleep(1000)
    if child == 0:
        os._exit(0)
    if child != number:
        os.waitpid(child, 0)' "$number"
    until [ -e used ]; do sleep 0.01; done
    kill -0 $! && wait $! && goes_on "$number" && kill "$number"
}
if has python3 'a number that is used again' && [ -w /proc/sys/kernel/ns_last_pid ]; then
    ends 'a number that is used again' 0 reused
fi
# Of 64 jobs with 8 programs each, and of more children than a page has numbers, nothing is left.
sleep 1000 &
foreign=$!
rm -f registers*
runs '64 jobs of 8 programs' 0 --jobs 64 --threads 8 --schedule rounds --rounds 128 --setup 'for i in 1 2 3 4 5 6 7 8 9 10 11 12
    do sleep 1000 & done; rm -f registers$TMWATCH_JOB; echo >>setups' -- sh -c 'exec ./little lock registers$TMWATCH_JOB right'
ends '64 jobs of 8 programs: all have run' 0 test "$(wc -l <setups)" -eq 64 -a "$(find . -name 'registers*' | wc -l)" -eq 64
ends '64 jobs of 8 programs: nothing is left' 0 is_clean
ends '64 jobs of 8 programs: another process goes on' 0 goes_on $foreign
kill $foreign
# A run for which no process can be started is a fault, and so is one of whose children the system would keep no status.
for forks in 0 1 2; do
    ends "no process after $forks" 4 env FORKS=$forks ./listed --setup true "${one[@]}" right
    has_told "no process after $forks: the fault" '^{"fault":"\(memory\|program\)"}$'
done
ends 'a wrong store where children are ignored' 1 env --ignore-signal=CHLD ./tmwatch-bench "${one[@]}" commit

# A process of a run: the one that was started, or below it the one that ends all, the bench, or its job, as far as they have begun.
process() {
    local pid=$1 depth below
    for ((depth = 0; depth < $2; depth++)); do
        below=$(started_by "$pid")
        pid=${below:-$pid}
    done
    echo "$pid"
}
# Kills one of them at some moment. (By a sanitizer of threads, what the kernel signals then comes when a wait is over.)
[[ ${FLAGS:-} != *thread* ]] || stays=(--seconds 10 "${stays[@]}")
killed() {
    rm -f up down
    "${marked[@]}" ./tmwatch-bench --threads 2 --schedule rounds "${stays[@]}" >printed 2>said &
    sleep "0.$((RANDOM % 4))$((RANDOM % 10))"
    kill -9 "$(process $! "$1")"
    ! wait $!
    is_clean && { [ ! -e up ] || [ -e down ]; }
}
for kill in $(seq "${KILLS:-20}"); do
    ends "kill -9, number $kill" 0 killed $((kill % 4))
done
end_rows
