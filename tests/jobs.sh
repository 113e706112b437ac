#!/usr/bin/env bash
# Runs memories on the bench in C with several jobs, and shrinks the violations. Tests the totals of all jobs, the report of the first
# violation, the ends of runs, and which runs have a single process; and that the options of each violation reproduce it in one process,
# byte for byte.
#
#   tests/jobs.sh
#
# Prints a line for each test case, and 'N passed, M failed' as the last line. The exit status is 1 if a test case failed. Without a C
# compiler, nothing is tested, nor with a sanitizer for threads, which starts a thread of its own: a line says so, and the status is 0.
# Environment: CC (cc), BUILT (tests/common.sh), FLAGS (additional flags of the compiler).
set -eu
# shellcheck source=tests/common.sh
. "$(dirname "${BASH_SOURCE[0]}")/common.sh"
cc=${CC:-cc}
has "$cc" tests/jobs.sh && [ "${FLAGS:-}" != -fsanitize=thread ] || exit 0
use_library
read -r -a flags <<<"${FLAGS:-}"
strict=(-std=c11 -Wall -Wextra -pedantic -Werror -g -O2 -pthread "-I$top/include" "${flags[@]}")
bench=("$folder/lib/libtmwatch_bench.a" "$built/lib/libtmwatch.a")
ends 'the bench compiles' 0 build_bench "$cc" "${strict[@]}"

# Compiles a memory with its pauses: its name, its file, and further words.
paused() {
    ends "$1 compiles" 0 "$cc" "${strict[@]}" -DTMWATCH_PAUSES -o "$folder/$1" "$top/$2" "${@:3}" "${bench[@]}"
}
paused norec examples/c/norec.c
paused norec_READS examples/c/norec.c -DFAULT=READS
paused tl2_LOCKED tests/c/bench_tl2.c -DFAULT=LOCKED
paused jobs tests/c/bench_jobs.c
paused hooked tests/c/bench_jobs.c -DHOOK
paused direct tests/c/bench_jobs.c -DDIRECT

# Runs words with an empty list of the processes that have run the memory: their status.
export PROCESSES=$folder/processes FAULT=NONE ODDS=1000
fresh() {
    : >"$PROCESSES"
    timeout 120 "$@"
}
# Whether so many have, by a pattern, and none of them is left.
have_run() {
    local process
    # shellcheck disable=SC2053
    [[ $(sort -u "$PROCESSES" | wc -l) == $1 ]] || return 1
    while read -r process; do
        ! kill -0 "$process" 2>/dev/null || return 1
    done <"$PROCESSES"
}
processes() {
    local status=0
    fresh "${@:2}" >"$folder/told" 2>&1 || status=$?
    cat "$folder/told"
    [ "$(grep -c '"verdict"' "$folder/told")" -le 1 ] && have_run "$1" || return 99
    return $status
}

# How many processes there are.
usual=$(nproc) few=$(processors)
usual=$((usual < 8 ? usual : 8)) few=${few%%[-,]*}
ends 'by a time alone, one job for each processor' 0 processes "$usual" "$folder/jobs" --seconds 2
ends 'by a time alone, on one processor' 0 processes 1 taskset -c "$few" "$folder/jobs" --seconds 1
ends 'three jobs' 0 processes 3 "$folder/jobs" --jobs 3 --rounds 900
for words in '--rounds 900' '--schedule steps --seconds 1' '--print-phases --seconds 1' '--jobs 3 --round 50' '--jobs 1 --seconds 1' \
    '--jobs 3 --keep-going --schedule steps --rounds 900'; do
    read -r -a given <<<"$words"
    ends "one process, $words" 0 processes 1 "$folder/jobs" "${given[@]}"
done
ends "three jobs beside a file with a name as of shared bytes" 0 processes 3 env BESIDE=NAMED "$folder/jobs" --jobs 3 --rounds 900
for beside in THREAD MAP WRITES FILE SOCKET; do
    ends "one process beside another's $beside" 0 processes 1 env BESIDE=$beside "$folder/jobs" --jobs 3 --rounds 900
done
ends 'a memory that is made anew in each' 0 processes 3 env BESIDE=MAP "$folder/hooked" --jobs 3 --rounds 900
ends 'by one call there is one process' 0 processes 1 "$folder/direct"
if has_debugger 'jobs in a debugger'; then
    ends 'one process in a debugger' 0 processes 1 gdb -q -batch -ex run --args "$folder/jobs" --jobs 3 --rounds 900
fi

# What all jobs have counted is the sum of what each counts that runs by itself, and the trace is that of the first one.
counts() {
    local name
    for name in events aborted committed concurrent cuts forced_aborts transactions rounds steps context_switches; do
        sed -n "s/.*\"$name\":\([0-9]*\)[,}].*/$name \1/p" "$1"
    done | awk '{ sum[$1] += $2 } END { for (it in sum) print it, sum[it] }' | sort
}
sums() {
    local seed
    "$folder/norec" --jobs 3 --rounds 1900 --seed 7 --trace "$folder/all.trace" >"$folder/all" 2>&1
    for seed in 1000007 2000007; do
        "$folder/norec" --rounds 633 --seed "$seed" >>"$folder/others" 2>&1
    done
    "$folder/norec" --rounds 634 --seed 7 --trace "$folder/first.trace" >"$folder/first" 2>&1
    cat "$folder/others" "$folder/first" >"$folder/each"
    diff <(counts "$folder/all") <(counts "$folder/each")
    [ "$(counts "$folder/all" | wc -l)" -eq 10 ]
    cmp "$folder/all.trace" "$folder/first.trace"
    diff <(sed -n 's/.*"skipped":\([0-9]*\)[,}].*/events \1/p' "$folder/all") <(counts "$folder/others" | grep events)
}
ends 'what three jobs have counted' 0 sums

# Words that find a violation say by which words it is found again; and these do so in one process. Its trace, steps and event are the same.
again() {
    sed -n 's/^{"deterministic":true,"reproduce":"\(.*\)"}$/\1/p' "$1"
}
event() {
    sed -n 's/.*: add --event \([0-9]*\), then.*/\1/p' "$1" | grep .
}
repeats() {
    local words status=0 again=0
    rm -f "$folder"/{one,two}*
    fresh "$folder/$1" "${@:2}" --trace "$folder/one" >"$folder/one.told" 2>&1 || status=$?
    cat "$folder/one.told"
    read -r -a words < <(again "$folder/one.told")
    fresh "$folder/$1" "${words[@]}" --trace "$folder/two" >"$folder/two.told" 2>&1 || again=$?
    [ "$status $again" = '1 1' ] && [ "$(grep -c '"verdict"' "$folder/one.told")" -eq 1 ] && [ "$(grep -c '^to reproduce: ' "$folder/one.told")" -eq 1 ] &&
        cmp "$folder/one" "$folder/two" && cmp "$folder/one.steps" "$folder/two.steps" &&
        diff <(event "$folder/one.told") <(event "$folder/two.told") && [ "$(wc -l <"$PROCESSES")" -le 1 ]
}
# (most are found by another job than the first)
by_another() {
    local seed
    for seed in 1 2 3 4 5 6; do
        ODDS=30000 repeats jobs --jobs 3 --schedule steps --seconds 100 --seed $seed || return
        ! again "$folder/one.told" | grep -q -- "--seed [12]00000$seed " || return 0
    done
    return 1
}
FAULT=WRONG
ends 'a violation of another job, again' 0 by_another
ends 'a violation by jobs, again' 0 repeats tl2_LOCKED --jobs 2 --rounds 20000
ends 'what is found soon' 0 repeats norec_READS --seconds 60 --seed 5
ends 'what is found soon has the seed that was given' 0 grep -q '"reproduce":"--seed 5 --round' "$folder/one.told"

# How a run ends by what one job does: nothing but that is told.
export JOB=2
hooked=("$folder/hooked" --jobs 3 --seconds 50 --seed 4)
FAULT=CRASH
ends 'a job that dies' 139 processes '[23]' env ASAN_OPTIONS=handle_segv=0 "${hooked[@]}"
has_told 'a job that dies: its seed' -x 'the job of --seed 2000004 was ended by signal 11 (Segmentation fault)'
FAULT=LEAVES
ends 'a job that ends by itself' 7 processes '[23]' "${hooked[@]}"
FAULT=STUCK
ends 'a job that is stuck' 4 processes '[23]' "${hooked[@]}" --trace "$folder/one"
has_told 'a job that is stuck: its seed' -Pz '{"fault":"hang"}\n{"deterministic":true,"reproduce":"--seed 2000004 --round [0-9]*"}\n'
ends 'a job that is stuck: where' 0 grep -q '^thread [0-7]: begin has not returned$' "$folder/told"
FAULT=WRONG
ends 'a violation of one job' 1 processes '[23]' "${hooked[@]}" --junit "$folder/junit"
ends 'a violation of one job, for CI systems' 0 grep -q 'failures="1" errors="0"' "$folder/junit"
ends 'a violation of one job, for CI systems: its seed' 0 grep -q '"reproduce":"--seed 2000004 ' "$folder/junit"
ends 'a violation, and no room' 4 processes '[23]' "${hooked[@]}" --trace /dev/full
has_told 'a violation, and no room: the fault' -x '{"fault":"io"}'
ends 'a violation, and no room for the report' 4 processes '[23]' "${hooked[@]}" --junit /dev/full
FAULT=NONE
ends 'nothing is found, and no room' 4 sh -c '"$@" --trace /dev/full | grep -c verdict && exit 4' sh "$folder/jobs" --jobs 2 --rounds 2000
ends 'nothing is found, for CI systems' 0 processes 2 "$folder/jobs" --jobs 2 --rounds 100 --junit "$folder/junit"
ends 'nothing is found, for CI systems: one test' 0 grep -q 'tests="1" failures="0" errors="0"' "$folder/junit"

# Waits until so many processes run the memory, and then signals the one that was started.
signalled() {
    local signal=$1 wanted=$2 status=0 _
    : >"$PROCESSES"
    env --default-signal=INT "${@:3}" >"$folder/told" 2>&1 &
    for _ in {1..400}; do
        [ "$(wc -l <"$PROCESSES")" -lt "$wanted" ] || break
        sleep 0.05
    done
    kill "-$signal" $!
    wait $! || status=$?
    cat "$folder/told"
    for _ in {1..600}; do
        ! have_run "$(sort -u "$PROCESSES" | wc -l)" >/dev/null || return $status
        sleep 0.05
    done
    return 99
}
for signal in INT TERM; do
    ends "$signal" 0 signalled $signal 3 "$folder/jobs" --jobs 3 --seconds 100 --trace "$folder/one"
    has_told "$signal: one verdict" -Pzo '^{"events":[0-9]*,"verdict":"opaque so far"}\n(?!(.|\n)*verdict)'
    ends "$signal, stuck" 4 env FAULT=STUCK JOB=1 "$folder/hooked" --jobs 2 --rounds 90000 --timeout 1
done
# An interrupt of all processes, as by Ctrl-C, says nothing of progress: whether the memory is slow, hangs or does neither, a verdict comes.
early() {
    local signal=$1 delay=$2 status=0
    env --default-signal=INT setsid "${@:3}" >"$folder/told" 2>&1 &
    catches_signals $!
    sleep "$delay"
    kill "-$signal" -- -$!
    wait $! || status=$?
    cat "$folder/told"
    [ "$(grep -c '"verdict":"opaque so far"' "$folder/told")" -eq 1 ] && ! grep '"fault"' "$folder/told" && return $status
}
unset JOB
for FAULT in NONE SLOW STUCK; do
    for words in '--jobs 3' '--jobs 1' '--schedule rounds --jobs 1' '--schedule permits --jobs 2'; do
        read -r -a given <<<"$words"
        for delay in 0 0.1 0.6; do
            signal=$([ "$delay" = 0.1 ] && echo TERM || echo INT)
            ODDS=50 ends "$signal after $delay seconds, $FAULT, $words" 0 early "$signal" $delay "$folder/jobs" --seconds 100 --seed 3 "${given[@]}"
        done
    done
done
has_told 'INT after a second, STUCK: where' '^thread [0-7]: begin has not returned$'
export JOB=2
FAULT=NONE
ends 'an end by SIGKILL leaves no process' 137 signalled KILL 3 "$folder/jobs" --jobs 3 --seconds 100

# On a terminal one line says how far all are.
shown() {
    script -qec "'$folder/jobs' --jobs 4 --seconds 4 >'$folder/printed'" /dev/null </dev/null | tr '\r' '\n' >"$folder/shown"
    tail -n 3 "$folder/shown"
    [ "$(grep -c ' rounds, ' "$folder/shown")" -ge 3 ] && [ "$(grep -c ' rounds, ' "$folder/shown")" -le 10 ]
    sed -n 's/.*"rounds":\([0-9]*\).*/\1/p' "$folder/printed" >"$folder/rounds"
    awk -v all="$(<"$folder/rounds")" '/ rounds, / { last = substr($1, 4) + 0 } END { exit !(last > 0.45 * all && last <= all + 0) }' "$folder/shown"
}
if has script 'progress of jobs'; then
    ends 'progress of jobs' 0 shown
fi

# A shrunk run that shows what is found: its trace is the wrong round alone. (On a loaded machine the time for tries may end before.)
smaller() {
    is_smaller "$@" || is_smaller "$@" || is_smaller "$@"
}
is_smaller() {
    local words
    repeats "$@" --shrink || return
    [ $(($(wc -l <"$folder/one") - 1)) -eq "$(event "$folder/one.told")" ] || return
    grep -q '"reproduce":".* --audit-first' "$folder/one.told" || return
    read -r -a words < <(sed -n 's/^shrunk from: //p' "$folder/one.told")
    fresh "$folder/$1" "${words[@]}" --trace "$folder/two" >"$folder/two.told" 2>&1 || [ $? -eq 1 ] || return
    wc -l "$folder"/{one,two}
    [ "$(event "$folder/one.told")" -le "$(event "$folder/two.told")" ] && [ "$(wc -l <"$folder/one")" -lt "$(wc -l <"$folder/two")" ]
}
unset JOB
FAULT=WRONG
ends 'a shrunk run' 0 smaller norec_READS --seed 3
ends 'a shrunk run: few threads' 0 grep -q '"reproduce":".* --threads 2 ' "$folder/one.told"
ends 'a shrunk run of a round' 0 smaller norec_READS --seed 4 --round 50
ends 'a shrunk run by jobs' 0 smaller norec_READS --seed 2 --jobs 2 --rounds 20000
ends 'a shrunk run for CI systems' 1 "$folder/norec_READS" --shrink --junit "$folder/junit"
ends 'a shrunk run for CI systems: its words' 0 grep -q '"reproduce":".* --audit-first ' "$folder/junit"
ends 'a shrunk run, and no room' 4 "$folder/norec_READS" --shrink --trace /dev/full
has_told 'a shrunk run, and no room: the fault' -x '{"fault":"io"}'
ends 'nothing to shrink' 0 "$folder/norec" --shrink --rounds 100
ends 'what may not repeat is told as it was found' 1 "$folder/norec_READS" --shrink --schedule rounds
has_told 'what may not repeat is told as it was found: so it says' '"deterministic":false'
ends 'nothing is shrunk beside a thread' 0 env BESIDE=THREAD "$folder/jobs" --shrink --rounds 9
has_told 'nothing is shrunk beside a thread: why' '^warning: --shrink has no effect in a debugger'
# What no try shows is told as it was found; so it is if an interrupt ends the tries.
FAULT=ONCE
once() {
    : >"$PROCESSES"
    "$folder/jobs" --shrink --rounds 20000 --trace "$folder/one"
}
ends 'a violation that no try shows' 1 once
has_told 'a violation that no try shows: its words' '^{"deterministic":true,"reproduce":"--seed 1 --round [0-9]*"}$'
ends 'an interrupt while smaller plans are tried' 1 signalled INT 2 "$folder/jobs" --shrink --rounds 20000 --trace "$folder/one"
has_told 'an interrupt while smaller plans are tried: what was found' '^{"deterministic":true,"reproduce":"--seed 1 --round [0-9]*"}$'
end_rows
