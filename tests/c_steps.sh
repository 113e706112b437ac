#!/usr/bin/env bash
# Runs memories on the bench in C with --schedule steps, under which the seed determines the run. Tests that a run has the same trace on one
# processor and on several, with the printed options, and when a debugger stops it; the random choices (draws.py); memories without pauses
# placed by hand, also with delayed stores; interrupts, memories that hang, and runs that cannot show much.
#
#   tests/c_steps.sh
#
# Prints a line for each test case, and 'N passed, M failed' as the last line. The exit status is 1 if a test case failed. Without a C
# compiler, nothing is tested: a line says so, and the status is 0. Parts that need a missing tool are skipped, and a line says so.
# Environment: CC (cc), CXX (c++), BUILT (tests/common.sh), FLAGS (additional flags of the compiler: then no memory runs without its pauses
# or under gdb).
set -eu
# shellcheck source=tests/common.sh
. "$(dirname "${BASH_SOURCE[0]}")/common.sh"
cc=${CC:-cc} cxx=${CXX:-c++}
has "$cc" tests/c_steps.sh || exit 0
use_library
read -r -a flags <<<"${FLAGS:-}"
strict=(-std=c11 -Wall -Wextra -pedantic -Werror -g -O2 -pthread "-I$top/include" "${flags[@]}")
# (a fence is no more than a fence to ThreadSanitizer)
[ "${FLAGS:-}" != -fsanitize=thread ] || strict+=(-Wno-tsan)
bench=("$folder/lib/libtmwatch_steps.a" "$folder/lib/libtmwatch_bench.a" "$built/lib/libtmwatch.a")
ends 'the bench compiles' 0 build_bench "$cc" "${strict[@]}"

# Compiles a memory with its pauses: its name, its file, its fault or NONE, and further words.
paused() {
    ends "$1 compiles" 0 "$cc" "${strict[@]}" -DTMWATCH_PAUSES "-DFAULT=$3" -o "$folder/$1" "$top/$2" "${@:4}" "${bench[@]}"
}

# Compiles a memory without a pause: its name, its compiler, its file, its fault or NONE, and further words.
unpaused() {
    ends "$1 compiles" 0 "$2" -std=c11 -Wall -Wextra -g -O2 -fsanitize=thread -Wno-tsan -Wno-unknown-warning-option "-I$top/include" \
        "-DFAULT=$4" "${@:5}" -c -o "$folder/memory.o" "$top/$3"
    ends "$1 is linked" 0 "$cc" "${flags[@]}" -pthread -o "$folder/$1" "$folder/memory.o" "$waits" "$blocks" "${bench[@]}"
}

# The options that reproduce a run, of what it has printed.
again() {
    sed -n 's/^{"deterministic":true,"reproduce":"\(.*\)"}$/\1/p' "$1"
}

ends 'a replay compiles' 0 "$cc" "${strict[@]}" -o "$folder/replay" "$top/tests/c/bench_replay.c" "${bench[@]}"
ends 'parts of the bench compile' 0 "$cc" "${strict[@]}" -o "$folder/parts" "$top/tests/c/bench_parts.c" "${bench[@]:1}"
# (a thread there computes until it is interrupted, which ThreadSanitizer puts off)
[ "${FLAGS:-}" = -fsanitize=thread ] || ends 'parts of the bench' 0 "$folder/parts"
ends 'blocks that are given back compile' 0 "$cc" "${strict[@]}" -o "$folder/blocks" "$top/tests/c/bench_blocks.c"
ends 'blocks that are given back' 0 "$folder/blocks"
# What marked accesses and wrapped functions ask of the steps, the model and the C library. (ThreadSanitizer has functions of those names.)
by_themselves() {
    ends "$1 by themselves compile" 0 "$cc" "${strict[@]}" -o "$folder/$1" "$top/tests/c/bench_$1.c" "${@:2}"
    ends "$1 by themselves" 0 sh -c '"$1" >"$2" && diff "$2" "$3"' sh "$folder/$1" "$folder/lines" "$top/tests/c/bench_$1.lines"
}
if [ "${FLAGS:-}" != -fsanitize=thread ]; then
    by_themselves wrapped
    by_themselves accesses "$top/bench-c/instrumented/accesses_16.c"
fi
paused norec examples/c/norec.c NONE
paused norec_READS examples/c/norec.c READS
paused tl2 tests/c/bench_tl2.c NONE
paused tl2_LOCKED tests/c/bench_tl2.c LOCKED
paused versions tests/c/bench_versions.c NONE
paused versions_AGAIN tests/c/bench_versions.c AGAIN
paused undo tests/c/bench_undo.c NONE
paused locks tests/c/bench_locks.c NONE
paused readers tests/c/bench_readers.c NONE
paused sequence tests/c/bench_sequence.c NONE
paused jumping tests/c/bench_jumping.c NONE
paused mutex tests/c/bench_stuck.c NONE "$waits"
paused mutex_unseen tests/c/bench_stuck.c NONE
paused outside tests/c/bench_outside.c NONE
paused outside_UNASKED tests/c/bench_outside.c UNASKED
paused outside_FAILS tests/c/bench_outside.c FAILS
paused outside_READS tests/c/bench_outside.c READS
paused outside_CRAWLS tests/c/bench_outside.c CRAWLS
paused outside_CRASHES tests/c/bench_outside.c CRASHES
paused outside_LOSES tests/c/bench_outside.c LOSES

# The time that a run by default takes, which is all that it has, if the machine has time once in three runs. (Long pauses, which steps don't
# make, let each phase by permits end late.)
timed_legs() {
    local began took _
    for _ in 1 2 3; do
        began=$EPOCHREALTIME
        "$folder/$1" --seconds 3 --threads 2 --registers 1 --accesses 1 --pause 1000000 >"$folder/printed" || return
        took=$(since "$began")
        echo "$took seconds"
        awk -v took="$took" 'BEGIN { exit !(took >= 2.9) }' || return
        ! awk -v took="$took" 'BEGIN { exit !(took < 5) }' || return 0
    done
    return 1
}

# The same seed gives the same trace, on one processor and on several; another seed another one.
many=$(processors)
few=${many%%[-,]*}
run_by_steps() {
    "${@:2}" --schedule steps --rounds 2000 --trace "$folder/$1" >"$folder/printed"
    grep -q '"stalls":0,' "$folder/printed"
}
for name in norec tl2 versions undo locks readers sequence jumping mutex; do
    ends "$name by steps, on one processor" 0 run_by_steps one taskset -c "$few" "$folder/$name"
    ends "$name by steps, on all" 0 run_by_steps two taskset -c "$many" "$folder/$name"
    ends "$name: the same trace" 0 cmp "$folder/one" "$folder/two"
    ends "$name by steps, another seed" 0 run_by_steps two "$folder/$name" --seed 2
    ends "$name: another trace" 1 cmp -s "$folder/one" "$folder/two"
done
# (each look whether a thread sleeps gives its file back)
ends 'a mutex that the bench does not see' 0 sh -c 'ulimit -n 40 && exec "$@"' sh "$folder/mutex_unseen" --schedule steps --rounds 20
has_told 'a mutex that the bench does not see: stalls' '"stalls":[1-9]'
# (of two threads a stall lets the other one continue)
ends 'a mutex that the bench does not see, two threads' 0 "$folder/mutex_unseen" --schedule steps --rounds 20 --threads 2

# A memory that asks elsewhere, and says so.
ends 'a lock elsewhere' 0 "$folder/outside" --schedule steps --rounds 500
has_told 'a lock elsewhere: waits, and no stall' '"stalls":0,.*"waits":[1-9]'
ends 'a lock elsewhere, untold' 0 "$folder/outside_UNASKED" --schedule steps --rounds 20
has_told 'a lock elsewhere, untold: stalls, and no wait' '"stalls":[1-9].*"untracked":\["waits"\]}$'
ends 'no lock elsewhere' 1 "$folder/outside_READS" --schedule steps
has_told 'no lock elsewhere: deterministic' '"deterministic":true'
ends 'no answer comes' 4 "$folder/outside_FAILS" --schedule steps --trace "$folder/failed" --junit "$folder/failed.xml"
has_told 'no answer comes: why' -x 'the disk is gone'
ends 'no answer comes: the fault' 0 grep -qx '{"fault":"program"}' "$folder/told"
ends 'no answer comes: after a wait, nothing is deterministic' 0 grep -q '"deterministic":false' "$folder/told"
ends 'no answer comes: its trace' 0 grep -q '^[0-3] R' "$folder/failed"
ends 'no answer comes: JUnit' 0 grep -q '<error message="program">' "$folder/failed.xml"

# A memory that crashes: what has committed is there, or it isn't.
for schedule in steps rounds all; do
    ends "a memory that crashes, $schedule" 0 "$folder/outside_CRASHES" --crashes --schedule "$schedule" --rounds 1000
    has_told "a memory that crashes, $schedule: how often" '"crashes":[1-9][0-9]'
    ends "a memory that loses what has committed, $schedule" 1 "$folder/outside_LOSES" --crashes --schedule "$schedule" --trace "$folder/one"
    has_told "a memory that loses what has committed, $schedule: at the first crash" '"crashes":1,'
    ends "a memory that loses what has committed, $schedule: a fresh thread reads" 0 test "$(tail -n 1 "$folder/one" | cut -d' ' -f1,2)" = \
        "$(awk 'NR > 1 && !seen[$1]++ { last = $1 } END { print last " V" }' "$folder/one")"
done
ends 'crashes and eight threads' 4 "$folder/outside_CRASHES" --crashes --threads 8
ends 'crashes and permits' 4 "$folder/outside_CRASHES" --crashes --schedule permits

# A phase by steps that takes long ends, and then one in rounds comes.
ends 'slow rounds' 0 "$folder/outside_CRAWLS" --seconds 7 --print-phases
has_told 'slow rounds: a phase by steps, and one in rounds' -Pz 'phase 1: --schedule steps.*\nphase 21: --schedule rounds'

ends 'quick rounds of a memory that asks' 0 "$folder/outside" --rounds 1001 --print-phases
has_told 'quick rounds of a memory that asks: two phases by steps' '^phase 2: --schedule steps'

# After what is wrong the rounds go on.
ends 'a run that goes on' 1 "$folder/norec_READS" --keep-going --schedule steps --rounds 300
has_told 'a run that goes on: all its rounds' '"at":[0-9]*,"events":[1-9][0-9]\{4\}'

# Small values: fewer than 32 bits, and none is written twice.
writes_small() {
    "$folder/norec" --values small --schedule steps --rounds 500 --trace "$1" >"$folder/printed"
    awk '$2 == "W" && ($4 > 100000 || seen[$4]++) || $2 == "N" && $4 >= 65536 { exit 1 } $2 == "N" { adds++ } END { exit !adds || NR < 1000 }' "$1"
}
ends 'small values' 0 writes_small "$folder/one"

# The printed options reproduce a violation, and end with its round.
for name in norec_READS tl2_LOCKED versions_AGAIN; do
    ends "$name by default" 1 "$folder/$name" --trace "$folder/one"
    cp "$folder/output" "$folder/told"
    read -r -a words < <(again "$folder/told") || true
    ends "$name: the options that reproduce it" 0 test "${#words[@]}" -ge 4
    ends "$name, again" 1 "$folder/$name" "${words[@]}" --trace "$folder/two"
    ends "$name: the same trace" 0 cmp "$folder/one" "$folder/two"
    ends "$name: what stands beside its trace" 0 diff <(sed -n '/^{/p' "$folder/told") <(sed 's/"events":[0-9]*/&/' "$folder/one.report")
done
paused versions_O0 tests/c/bench_versions.c AGAIN -O0
ends 'without optimization, again' 1 "$folder/versions_O0" "${words[@]}" --trace "$folder/two"
ends 'without optimization: the same trace' 0 cmp "$folder/one" "$folder/two"
if [ ${#flags[@]} -eq 0 ] && has_debugger 'a stop before the round'; then
    printf '%s\n' 'set pagination off' 'set breakpoint pending on' 'set disable-randomization off' 'break tmwatch_breakpoint' \
        "run ${words[*]} --trace $folder/two" 'print this_thread->bench->round' 'break commit' continue 'next' 'delete' continue \
        >"$folder/stops"
    ends 'a stop before the round' 0 timeout 300 gdb -q -batch -x "$folder/stops" "$folder/versions_AGAIN"
    cp "$folder/output" "$folder/stopped"
    # (a phase has 1000 rounds)
    ends 'a stop before the round: which' 0 grep -qx "\$1 = $(((words[-1] - 1) % 1000 + 1))" "$folder/stopped"
    ends 'a stop before the round: the same trace' 0 cmp "$folder/one" "$folder/two"
fi

# Each of these ends with options that reproduce it, or says that they may not: by further options, its status, and whether they do.
patience=()
repeats() {
    local name=$1 status=$2 certain=$3 given
    read -r -a given <<<"$4"
    ends "$name $4" "$status" ${tries:+"$tries"} "$folder/$name" "${given[@]}" "${patience[@]}" --trace "$folder/one"
    cp "$folder/output" "$folder/told"
    ends "$name $4: deterministic" 0 grep -q '^{"deterministic":'"$certain"',"reproduce":".*"}$' "$folder/told"
    [ "$certain" = true ] || return 0
    read -r -a given < <(again "$folder/told") || true
    ends "$name $4, again" "$status" ${tries:+"$tries"} "$folder/$name" "${given[@]}" "${patience[@]}" --trace "$folder/two"
    ends "$name $4: the same trace" 0 cmp "$folder/one" "$folder/two"
}
sed 's/words\[8\];/words[8] = {0, 5};/' "$top/examples/c/norec.c" >"$folder/wrong_start.c"
ends 'a wrong start compiles' 0 "$cc" "${strict[@]}" "-I$top/examples/c" -o "$folder/wrong_start" "$folder/wrong_start.c" "${bench[@]}"
for words in '' '--schedule steps' '--schedule steps --seed 7 --seconds 9'; do
    repeats wrong_start 1 true "$words"
done
repeats wrong_start 1 false '--schedule rounds'
repeats wrong_start 1 false '--schedule permits'
repeats norec_READS 1 true '--attempts 1 --seconds 9'
repeats norec_READS 1 true '--schedule steps --blind-writes 60 --mixed-rounds 0 --plain'
repeats norec_READS 1 true '--event 3 --round 900'
repeats norec_READS 1 false '--schedule rounds'
paused unlocked tests/c/bench_stuck.c UNLOCKED
until_stalled() {
    local seed
    for seed in {1..20}; do
        "$folder/unlocked" --schedule steps --seed "$seed" || [ $? -eq 1 ] || return
        ! "$folder/unlocked" --schedule steps --seed "$seed" 2>&1 | grep -q '"stalls":[1-9]' || break
    done
    "$folder/unlocked" --schedule steps --seed "$seed"
}
ends 'a violation after a stall' 1 until_stalled
has_told 'a violation after a stall is not deterministic' '^{"deterministic":false,'
# What a later phase finds is told by that phase's plan: without a mark, only threads that run at once find it.
ends 'a memory without a mark compiles' 0 "$cc" "${strict[@]}" -DFAULT=MEETS -o "$folder/unmarked" "$top/tests/c/bench_stuck.c" "${bench[@]}"
# (ThreadSanitizer makes the twenty phases by steps before that take longer than a minute, unless they are short.)
short=
[ "${FLAGS:-}" != -fsanitize=thread ] || short=' --threads 2 --registers 1 --accesses 1 --mixed-rounds 0'
repeats unmarked 1 false "--writes 0 --adds 0 --seconds 60$short"
ends 'a memory without a mark: by which schedule' 0 grep -q '"reproduce":"--schedule [rp]' "$folder/told"

# The round of the words is that of the wrong event: without it all is well. A right run ends with its round.
read -r -a words < <("$folder/versions_AGAIN" --schedule steps --seed 3 2>/dev/null | sed -n 's/^{"deterministic":true,"reproduce":"\(.*\)"}$/\1/p') || true
round=${words[-1]:-1}
ends 'one round less' 0 "$folder/versions_AGAIN" --schedule steps --seed 3 --round $((round - 1))
# The wrong event is one of its round, also if it ends that.
paused norec_COMMIT examples/c/norec.c COMMIT
has_events() {
    local seed
    for seed in {1..40}; do
        "$folder/norec_COMMIT" --schedule steps --seed "$seed" --threads 2 >"$folder/printed" 2>&1 || [ $? -eq 1 ]
        grep -q "^to stop in gdb just before the violation: add --event [1-9][0-9]*, then 'break tmwatch_breakpoint'\$" "$folder/printed"
    done
}
ends 'a wrong event in its round' 0 has_events
ends 'to a round' 0 "$folder/norec" --round 1234
has_told 'to a round: no further' '"rounds":1234,'

# A seed decides on the schedule too: here all else is the same.
alike() {
    "$folder/norec" --schedule steps --rounds 100 --threads 2 --registers 1 --accesses 1 --writes 0 --adds 0 --aborts 0 --mixed-rounds 0 --blind-writes 0 \
        --seed "$1" --trace "$folder/$2"
}
ends 'calls that are alike' 0 alike 1 one
ends 'calls that are alike, by another seed' 0 alike 2 two
ends 'calls that are alike: another trace' 1 cmp -s "$folder/one" "$folder/two"

# What comes out of several phases is the sum of what comes out of each. (This memory goes the same way from any values.)
sums() {
    local of words
    for of in aborted committed concurrent cuts forced_aborts transactions steps context_switches; do
        sed -n "s/.*\"$of\":\([0-9]*\)[,}].*/$of \1/p" "$1"
    done
}
summed() {
    "$folder/norec" --rounds 3000 --print-phases >"$folder/three" 2>"$folder/legs"
    : >"$folder/each"
    while read -r -a words; do
        "$folder/norec" "${words[@]:2}" >"$folder/printed"
        sums "$folder/printed" >>"$folder/each"
    done <"$folder/legs"
    diff <(sums "$folder/three" | sort) <(awk '{ sum[$1] += $2 } END { for (it in sum) print it, sum[it] }' "$folder/each" | sort)
}
ends 'what comes out of three phases' 0 summed
# A last phase in which nothing overlaps doesn't say so of the run.
overlapped() {
    local seed words given=(--threads 2 --registers 8 --accesses 1 --mixed-rounds 0 --aborts 0)
    for seed in {1..60}; do
        "$folder/norec" --rounds 1001 --seed "$seed" --print-phases "${given[@]}" >"$folder/whole" 2>"$folder/legs"
        read -r -a words < <(sed -n 's/^phase 2: //p' "$folder/legs")
        "$folder/norec" "${words[@]}" >"$folder/printed" 2>/dev/null
        ! grep -q '"untested":\[.*"overlap"' "$folder/printed" || break
    done
    grep -q '"untested":\[.*"overlap"' "$folder/printed" && ! grep -q '"untested":\[.*"overlap"' "$folder/whole"
}
ends 'a last phase without overlap' 0 overlapped
ends 'a last phase without overlap: nor is what has met less' 1 grep '"max_interleaved_commits":0,\|"max_window":[01],' "$folder/whole"
# The place of what is wrong in the run is that in its trace, and what precedes the trace, also in a later phase.
later() {
    local seed
    for seed in {1..40}; do
        "$folder/versions_AGAIN" --seed "$seed" --trace "$folder/one" >"$folder/printed" || [ $? -eq 1 ]
        ! grep -q '"rounds":[0-9]\{4,\}' "$folder/printed" || break
    done
    grep -q '"rounds":[0-9]\{4,\}' "$folder/printed"
    "$folder/replay" <"$folder/one" >"$folder/judged" 2>/dev/null || [ $? -eq 1 ]
    sed 's/[^0-9]*\([0-9]*\).*"skipped":\([0-9]*\).*/\1 \2/' <(tr -d '\n' <"$folder/printed") >"$folder/places"
    diff <(awk '{ print $1 - $2 }' "$folder/places") <(sed -n '1s/^{"at":\([0-9]*\),.*/\1/p' "$folder/judged")
}
ends 'a violation in a later phase' 0 later

# A round may starve a thread for long: what only that shows is found within few rounds.
paused sequence_WRAP tests/c/bench_sequence.c WRAP
for seed in 1 2 4; do
    ends "a starved thread, seed $seed" 1 "$folder/sequence_WRAP" --schedule steps --rounds 300 --seed $seed
done

# The threads of a run are the same in all phases.
paused threads tests/c/bench_threads.c NONE
ends 'the threads of six phases' 0 "$folder/threads" --rounds 6000
has_told 'the threads of six phases: how many' '^[2-8] threads$'
# A thread that sleeps for less time than a stall takes, again and again, is not taken for one that is blocked.
paused sleeping tests/c/bench_threads.c NONE -DSLEEP=10
ends 'a thread that sleeps often' 0 no_stall "$folder/sleeping" --schedule steps --rounds 12 --threads 2 --mixed-rounds 100
has_told 'a thread that sleeps often: no stall' '"stalls":0,'
# Meanwhile the judge rests.
rests() {
    local TIMEFORMAT='%U %S %R'
    { time "$folder/sleeping" --schedule steps --rounds 12 --threads 2 --mixed-rounds 100 >"$folder/printed" 2>&1; } 2>"$folder/times"
    cat "$folder/times"
    awk '{ exit !($1 + $2 < 0.4 * $3) }' "$folder/times"
}
ends 'a thread that sleeps often: little of a processor' 0 rests

# What only more than four registers show is found by default too.
paused stripes tests/c/bench_stripes.c NONE
ends 'words that share four locks' 0 "$folder/stripes" --registers 8 --rounds 5000
for fault in NEIGHBOUR EXTENSION; do
    paused "stripes_$fault" tests/c/bench_stripes.c $fault
    ends "words that share four locks, $fault" 1 "$folder/stripes_$fault" --seed 5 --rounds 20000
    ends "words that share four locks, $fault, with four registers" 0 "$folder/stripes_$fault" --seed 5 --rounds 5000 --registers 4
done

# Which phase goes by which plan, drawn by another program.
legs_drawn() {
    "$folder/$1" --print-phases --seed "$2" --rounds 42000 >"$folder/printed" 2>"$folder/legs"
    "$top/tests/legs.py" "$folder/legs" "$2" "$3" "$4"
}
ends 'the phases of a marked memory' 0 legs_drawn norec 3 1 0
ends 'a memory without marks compiles' 0 "$cc" "${strict[@]}" -o "$folder/unmarked" "$top/examples/c/norec.c" "${bench[@]}"
ends 'the phases of an unmarked memory' 0 legs_drawn unmarked 4 0 0
ends 'a run by default has all its time' 0 timed_legs norec
ends 'a run by default has all its time, without marks' 0 timed_legs unmarked
# The steps of the round lead to their lines, and a report that CI systems read says what came out.
lists_steps() {
    rm -f "$folder/one.steps"
    "$folder/versions_AGAIN" "${words[@]}" --trace "$folder/one" --junit "$folder/junit" >"$folder/printed" || [ $? -eq 1 ]
    cut -d' ' -f3 "$folder/one.steps" | addr2line -spe "$folder/versions_AGAIN" | paste -d' ' "$folder/one.steps" - >"$folder/lines"
    awk '$1 < before { exit 1 } { before = $1 }' "$folder/lines"
    [ "$(grep -cv '^[0-9]* [0-3] 0x[0-9a-f]* bench_versions.c:[0-9]*' "$folder/lines")" -eq 0 ]
    # (each pause that is reached stands in one of the lines of the source)
    sed 's/.*bench_versions.c:\([0-9]*\).*/\1/' "$folder/lines" | sort -un | while read -r line; do
        sed -n "${line}p" "$top/tests/c/bench_versions.c" | grep -q 'TMWATCH_PAUSE\|sched_yield'
    done
    [ "$(wc -l <"$folder/lines")" -gt 10 ]
}
read -r -a words < <("$folder/versions_AGAIN" 2>/dev/null | again /dev/stdin) || true
if has addr2line 'the steps of a round'; then
    ends 'the steps of a round' 0 lists_steps
    ends 'what came out, for CI systems' 0 grep -q '<failure message="violated">' "$folder/junit"
fi
reports() {
    "$folder/$1" --rounds 9 --junit "$folder/junit" >"$folder/printed" || [ $? -eq "$3" ]
    python3 -c 'import sys, xml.etree.ElementTree as t; it = t.parse(sys.argv[1]).getroot()
sys.exit([it.get("tests"), it.get("failures"), it.get("errors")] != sys.argv[2].split())' "$folder/junit" "$2"
}
ends 'a report of a right memory' 0 reports norec '1 0 0' 0
ends 'a report of a wrong one' 0 reports wrong_start '1 1 0' 1

# What is drawn: by a plan, and by one in which all differs.
drawn() {
    local name=$1 schedule=$2 rounds=$3
    "$folder/$name" --schedule "$schedule" --rounds "$rounds" --seed "$4" --threads "$5" --registers "$6" --accesses "$7" --writes "$8" \
        --adds "$9" --aborts "${10}" --mixed-rounds "${11}" --blind-writes "${12}" "${@:13}" --trace "$folder/one" >"$folder/printed"
    "$top/tests/draws.py" "$folder/one" "$rounds" "$4" "$5" "$7" "$8" "$9" "${10}" "${11}" "${12}" "${@:14}"
}
last=true
for schedule in steps rounds; do
    for name in norec tl2 undo locks readers; do
        ends "what $name draws, in $schedule" 0 drawn $name $schedule 1000 7 4 3 3 50 20 12 50 10
        ends "what $name draws, in $schedule, by another plan" 0 drawn $name $schedule 300 9 7 2 5 90 30 40 100 40
        ends "what $name draws, in $schedule, without a mixed round" 0 drawn $name $schedule 500 3 3 8 2 60 50 0 0 0
        ends "what $name draws, in $schedule, of two attempts" 0 drawn $name $schedule 300 5 3 4 3 60 20 12 100 10 --attempts 2
    done
done
ends 'what is drawn of long transactions' 0 drawn undo steps 300 9 4 4 16 90 30 12 100 10
for words in '--attempts 2 --mixed-rounds 100' '--accesses 16 --mixed-rounds 100 --writes 100'; do
    read -r -a given <<<"$words"
    ends "eight attempts in a round, $words" 0 "$folder/undo" --schedule rounds --rounds 1000 "${given[@]}"
    has_told "eight attempts in a round, $words: no more" '"max_window":[1-8],'
done
ends 'a start that is written first, compiled' 0 "$cc" "${strict[@]}" -o "$folder/start" "$top/tests/c/bench_start.c" "${bench[@]}"
ends 'a start that is written first' 0 sh -c '"$1" >"$2"' sh "$folder/start" "$folder/one"
ends 'a start that is written first: what is drawn' 0 "$top/tests/draws.py" "$folder/one" 20 1 1 3 100 20 0 50 10

# A trace begins at the last look before a violation, and there are at most 64 rounds of eight attempts after it.
ends 'a trace of few rounds' 1 "$folder/versions_AGAIN" --schedule steps --trace "$folder/one"
has_told 'a trace of few rounds: not from the beginning' '"skipped":[1-9]'
ends 'a trace of few rounds: how many' 0 sh -c 'test "$(grep -c " [CA]$" "$1")" -le 520' sh "$folder/one"
# One of a long run begins with a look that is whole. A round of one thread here has 6 events, a look 16, and 131,072 events are kept: the
# first that is kept falls into a look in two of these runs.
whole_looks() {
    local rounds
    for rounds in $(seq 22050 22064); do
        "$folder/norec" --schedule rounds --threads 1 --registers 7 --accesses 1 --writes 100 --adds 0 --aborts 0 --mixed-rounds 0 \
            --rounds "$rounds" --trace "$folder/one" >"$folder/printed" 2>&1
        "$folder/replay" <"$folder/one" >"$folder/judged" 2>&1
    done
}
if [ ${#flags[@]} -eq 0 ]; then
    ends 'traces of long runs' 0 whole_looks
fi

# A time is in seconds, and alone it is all that ends the rounds.
timed() {
    local began=$EPOCHREALTIME
    timeout 30 "$folder/norec" --threads 1 --accesses 1 --schedule rounds --seconds 3 >"$folder/printed"
    echo "$(since "$began") $(sed -n 's/.*"rounds":\([0-9]*\).*/\1/p' "$folder/printed")" | awk '{ exit !($1 >= 2.9 || $2 > 100000) }'
}
ends 'a time alone' 0 timed
ends 'eight permits' 0 "$folder/norec" --schedule permits --threads 8 --rounds 3000
has_told 'eight permits: eight attempts in a window' '"max_window":8'

# Memories without a pause: what they lack is found, and nothing else.
plain_legs() {
    "$folder/$1" --print-phases --plain --rounds 2500 >"$folder/printed" 2>"$folder/legs"
    [ "$(grep -c ' --plain$' "$folder/legs")" -eq 3 ]
}
unset last
compilers=(gcc clang)
[ ${#flags[@]} -eq 0 ] || compilers=()
for compiler in "${compilers[@]}"; do
    has $compiler "memories without a pause, by $compiler" || continue
    for wide in '' '-DWIDE -mcx16'; do
        read -r -a words <<<"$wide"
        unpaused "accesses_$compiler" $compiler tests/c/accesses.c NONE "${words[@]}"
        ends "each access by $compiler $wide" 0 "$folder/accesses_$compiler"
        ends "steps of accesses by $compiler $wide compile" 0 $compiler -std=c11 -g -O2 -fsanitize=thread -Wno-tsan -Wno-unknown-warning-option \
            "-I$top/include" -DSTEPS "${words[@]}" -c -o "$folder/memory.o" "$top/tests/c/accesses.c"
        ends "steps of accesses by $compiler $wide are linked" 0 "$cc" -pthread -o "$folder/accesses" "$folder/memory.o" \
            -Wl,--wrap=tmwatch_orders_wide,--wrap=tmwatch_orders_plain "${bench[0]}"
        ends "each access is a step, by $compiler $wide" 0 "$folder/accesses"
    done
    for file in norec:READS tl2:AFTER versions:CLOCK undo:UNLOCK locks:EARLY readers:NONE; do
        name=${file%:*} fault=${file#*:} path=tests/c/bench_${file%:*}.c
        [ "$name" != norec ] || path=examples/c/norec.c
        unpaused "plain_$name" $compiler "$path" NONE
        [ "$name" != norec ] || ends "the phases of norec by $compiler" 0 legs_drawn plain_norec 5 1 1
        [ "$name" != norec ] || ends "the phases of norec by $compiler, by --plain" 0 plain_legs plain_norec
        ends "$name by $compiler, with buffers" 0 "$folder/plain_$name" --schedule steps --rounds 2000 --orders x86 --plain
        has_told "$name by $compiler, with buffers: no stall" '"stalls":0,'
        [ "$fault" != NONE ] || continue
        unpaused "plain_$file" $compiler "$path" "$fault"
        ends "$file by $compiler" 1 "$folder/plain_$file" --schedule steps
    done
    unpaused plain_FENCE $compiler tests/c/bench_readers.c FENCE
    ends "a fence that is missing, by $compiler" 0 "$folder/plain_FENCE" --schedule steps --rounds 2000
    for seed in 1 2 3; do
        ends "a fence that is missing, by $compiler, with buffers, seed $seed" 1 "$folder/plain_FENCE" --orders x86 --seed $seed \
            --trace "$folder/one"
        cp "$folder/output" "$folder/told"
        read -r -a words < <(again "$folder/told") || true
        ends "a fence that is missing, by $compiler, again" 1 "$folder/plain_FENCE" "${words[@]}" --trace "$folder/two"
        ends "a fence that is missing, by $compiler: the same trace" 0 cmp "$folder/one" "$folder/two"
    done
done
# What a thread stores to its own bytes, or to a block that is given back, is not overtaken.
for compiler in "${compilers[@]}"; do
    has $compiler "own bytes, by $compiler" || continue
    unpaused litmus $compiler tests/c/bench_litmus.c NONE -DWIDE -mcx16
    ends "litmus tests by $compiler" 0 "$folder/litmus"
    for kind in TX LOCAL HEAP GROWN REGISTERED ASSIGNED; do
        unpaused "own_$kind" $compiler tests/c/bench_own.c NONE -DKIND=$kind
        ends "own bytes, $kind, by $compiler" 0 "$folder/own_$kind" --schedule steps --rounds 2000 --orders x86
        ends "own bytes, $kind, by $compiler, in several phases" 0 "$folder/own_$kind" --rounds 3000
        # (clang leaves these stores out)
        [ "$kind $compiler" = 'HEAP gcc' ] || continue
        ends "blocks that are given back unseen, by $compiler, are linked" 0 "$cc" -pthread -o "$folder/unseen" "$folder/memory.o" "$waits" "${bench[@]}"
        ends "blocks that are given back unseen, by $compiler" 0 "$folder/unseen" --schedule steps --rounds 100 --orders x86
        has_told "blocks that are given back unseen, by $compiler: it is told" '"untracked":\["blocks"\]}$'
    done
    ends "own bytes, $kind, by $compiler, c++" 0 "$folder/own_$kind" --schedule steps --rounds 500 --orders c++
    has_told "own bytes, $kind, by $compiler, c++: all is seen" '"rounds":500,"stalls":0,"steps":[0-9]*\(,"untested":\["aborts"\]\)\{0,1\}}$'
done
for compiler in g++ clang++; do
    [ ${#flags[@]} -eq 0 ] && has $compiler "a class without a pause, by $compiler" || continue
    ends "a class that never returns, by $compiler, compiles" 0 $compiler -std=c++17 -O2 "-I$top/include" -pthread -o "$folder/exit" \
        "$top/tests/c/bench_exit.cpp" "${bench[@]}"
    ends "a class that never returns, by $compiler" 4 "$folder/exit" --writes 0 --timeout 1
    has_told "a class that never returns, by $compiler: the fault" -x '{"fault":"hang"}'
    ends "a class that never returns, by $compiler: what it uses stays" 1 grep destroyed "$folder/told"
    for fault in NONE READS; do
        ends "a class without a pause, by $compiler, $fault, compiles" 0 $compiler -std=c++17 -O2 -fsanitize=thread "-I$top/include" \
            "-DFAULT=$fault" -c -o "$folder/memory.o" "$top/tests/c/bench_class.cpp"
        ends "a class without a pause, by $compiler, $fault, is linked" 0 $compiler -pthread -o "$folder/class" "$folder/memory.o" \
            "$waits" "$blocks" "${bench[@]}"
        ends "a class without a pause, by $compiler, $fault" "$([ $fault = NONE ] && echo 0 || echo 1)" "$folder/class" --schedule steps \
            --rounds 2000 --orders x86
    done
done
ends 'buffers of a memory that is not compiled for them' 4 "$folder/norec" --orders x86
has_told 'buffers of a memory that is not compiled for them: why' 'libtmwatch_steps.a$'

# An interrupt ends the run long before its time: a verdict, and a trace that is judged so. (What runs beside a shell ignores SIGINT.)
interrupted() {
    local signal=$1 schedule=$2 began status=0
    env --default-signal=INT "$folder/norec" --schedule "$schedule" --seconds 60 --trace "$folder/one" >"$folder/printed" 2>&1 &
    catches_signals $!
    sleep 1
    began=$EPOCHREALTIME
    kill "-$signal" $!
    wait $! || status=$?
    sed -n 1p "$folder/printed"
    since "$began" | awk '{ exit !($1 < 45) }' && return $status
}
for schedule in rounds permits steps all; do
    ends "an interrupt, $schedule" 0 interrupted INT $schedule
    has_told "an interrupt, $schedule: the verdict" '^{"events":[0-9]*,"verdict":"opaque so far"}$'
    ends "an interrupt, $schedule: its trace, judged" 0 sh -c '"$1" <"$2"' sh "$folder/replay" "$folder/one"
    ends "an end, $schedule" 0 interrupted TERM $schedule
done

# A memory that never returns is named, with the call and the register.
for fault in SPIN MUTEX READ ADD; do
    paused "stuck_$fault" tests/c/bench_stuck.c $fault "$waits"
    for schedule in rounds permits steps; do
        ends "a memory that never returns, $fault, $schedule" 4 "$folder/stuck_$fault" --schedule $schedule --timeout 1 \
            --trace "$folder/one"
        cp "$folder/output" "$folder/told"
        ends "a memory that never returns, $fault, $schedule: the fault" 0 grep -qx '{"fault":"hang"}' "$folder/told"
        case $fault in
        READ) line="thread 1: read(register 2) has not returned" ;;
        ADD) line="thread 1: add(register 2) has not returned" ;;
        *) line="thread [0-3]: begin has not returned" ;;
        esac
        ends "a memory that never returns, $fault, $schedule: where" 0 grep -qx "$line" "$folder/told"
        ends "a memory that never returns, $fault, $schedule: its trace" 0 sh -c 'test "$(wc -l <"$1")" -gt 20' sh "$folder/one"
        ends "a memory that never returns, $fault, $schedule: its trace, judged" 0 sh -c '"$1" <"$2"' sh "$folder/replay" "$folder/one"
        ends "a memory that never returns, $fault, $schedule: the run" 0 grep -q '"reproduce":' "$folder/one.report"
    done
done
repeats stuck_SPIN 4 true '--schedule steps --timeout 1'
paused stuck_BOTH tests/c/bench_stuck.c BOTH "$waits"
for seed in 1 2 3; do
    repeats stuck_BOTH 1 true "--schedule steps --adds 0 --seed $seed --timeout 1"
done
repeats stuck_READ 4 true '--timeout 1'
repeats stuck_SPIN 4 false '--schedule rounds --timeout 1'
# A second of patience is a second, and not the usual five, if the machine has time once in three runs.
is_patient() {
    local began _
    for _ in 1 2 3; do
        began=$EPOCHREALTIME
        "$folder/stuck_SPIN" --schedule steps --timeout 1 >"$folder/printed" || [ $? -eq 4 ]
        ! since "$began" | awk '{ exit !($1 >= 1 && $1 < 4) }' || return 0
    done
    return 1
}
ends 'a second of patience' 0 is_patient
ends 'a wrong memory that never returns' 1 "$folder/stuck_BOTH" --schedule rounds --timeout 3 --adds 0
has_told 'a wrong memory that never returns: where' '^thread 1: .* has not returned$'
ends 'a wrong memory that never returns: the verdict' 0 grep -q '"verdict":"violated"' "$folder/told"
# A processor that stands still for a tenth of a second is no wait; and naps of a thread that waits for a lock, or yields on a loaded machine,
# are not without an event for a second, though they take longer.
paused stuck_LONG tests/c/bench_stuck.c LONG "$waits"
ends 'a read of a tenth of a second' 0 no_stall "$folder/stuck_LONG" --schedule steps --rounds 4 --threads 2 --registers 1 --accesses 1
has_told 'a read of a tenth of a second: no stall' '"stalls":0,'
paused stuck_TIRED tests/c/bench_stuck.c TIRED
for seed in 2 3; do
    ends "a lock that is waited for in naps, seed $seed" 0 "$folder/stuck_TIRED" --schedule steps --rounds 6 --seed $seed --timeout 1
done
# Naps that are waited for in turns have an end.
paused stuck_NAPS tests/c/bench_stuck.c NAPS
ends 'a lock that is left held and waited for in naps' 4 timeout -s KILL 300 "$folder/stuck_NAPS" --schedule steps --threads 2 --timeout 1
# A memory that waits without a step, and a bench that doesn't see it, also where a busy loop leaves it little of a processor.
ends 'a lock without a mark compiles' 0 "$cc" "${strict[@]}" -DPERCENT=0 -o "$folder/spins" "$top/tests/c/bench_spurious.c" "${bench[@]}"
ends 'a lock without a mark' 0 "$folder/spins" --schedule steps --rounds 20 --timeout 60
has_told 'a lock without a mark: stalls' '"stalls":[1-9]'
beside_loop() {
    local loop status=0
    taskset -c "$few" sh -c 'while :; do :; done' &
    loop=$!
    nice taskset -c "$few" "$@" || status=$?
    kill "$loop"
    return $status
}
ends 'a lock without a mark, beside a busy loop' 0 beside_loop "$folder/spins" --schedule steps --rounds 3 --threads 2 --timeout 1
ends 'stalls are reported' 0 grep -q "times a thread blocked where the bench cannot see it" <("$folder/mutex_unseen" --schedule steps \
    --rounds 20 2>&1)

paused stuck_unseen tests/c/bench_stuck.c MUTEX
ends 'a memory that never returns, unseen' 4 "$folder/stuck_unseen" --schedule steps --timeout 1
has_told 'a memory that never returns, unseen: stalls' "^warning: [1-9][0-9]* times a thread blocked where the bench cannot see it, so"

# A first interrupt ends a memory that never returns soon, without a --timeout, and a second one the program. It comes so many seconds after the
# run's beginning.
interrupts_once() {
    local began status=0
    env --default-signal=INT "$folder/stuck_$1" --schedule "$2" --timeout 0 --trace "$folder/one" >"$folder/printed" 2>&1 &
    catches_signals $!
    sleep "$4"
    began=$EPOCHREALTIME
    kill -INT $!
    [ "$1" = SPIN ] || { sleep 0.3 && kill -INT $!; } || echo "it had ended before the second interrupt"
    wait $! || status=$?
    echo "status $status, $(since "$began") seconds after the interrupt"
    cat "$folder/printed"
    since "$began" | awk '{ exit !($1 < 3) }' && [ $status -eq "$3" ]
}
interrupts() {
    local seconds
    for seconds in 1 2 4; do
        ! interrupts_once "$@" $seconds || return "$3"
    done
    return 1
}
paused stuck_SLOW tests/c/bench_stuck.c SLOW "$waits"
for schedule in rounds permits steps; do
    ends "an interrupt of a memory that never returns, $schedule" 0 interrupts SPIN $schedule 0
    has_told "an interrupt of a memory that never returns, $schedule: where" 'has not returned$'
    ends "an interrupt of a memory that never returns, $schedule: the verdict" 0 grep -qx '{"events":[0-9]*,"verdict":"opaque so far"}' "$folder/told"
    ends "an interrupt of a memory that never returns, $schedule: its trace, judged" 0 sh -c '"$1" <"$2"' sh "$folder/replay" "$folder/one"
    ends "two interrupts, $schedule" 130 interrupts SLOW $schedule 130
done
for fault in 1 2; do
    paused "jumping_$fault" tests/c/bench_jumping.c NONE "-DWRONG=$fault"
    ends "a run that breaks its promise, $fault" 4 "$folder/jumping_$fault"
    reasons=('' "the memory's function \`run\` returned true, although tmwatch_run_body had not" "the memory's function \`run\` called tmwatch_run_body twice in one attempt")
    has_told "a run that breaks its promise, $fault: which" -xF "${reasons[fault]}"
done
paused apart tests/c/bench_apart.c NONE
ends 'two benches at once, and signals' 0 "$folder/apart"

# A memory that has lost progress is told so, by each schedule and within half a minute (of at most three runs), and repeats by steps; one that
# is rolled back by chance isn't.
lost() {
    local began=$EPOCHREALTIME status=0
    no_hang "$folder/$1" --schedule "$2" "${patience[@]}" --trace "$folder/one" || status=$?
    since "$began" | awk '{ exit !($1 < 90) }' && return $status
}
# The rows of a program: by each schedule it loses progress, or runs so many rounds.
loses_progress() {
    local schedule patience=(--timeout 1) tries=no_hang
    for schedule in rounds permits steps all; do
        ends "lost progress, $1, $schedule" 4 lost "$1" $schedule
        cp "$folder/output" "$folder/told"
        ends "lost progress, $1, $schedule: the fault" 0 grep -qx '{"fault":"no progress"}' "$folder/told"
        ends "lost progress, $1, $schedule: why" 0 grep -q '^no progress: thread [0-7] ran alone, but its .* was rolled back [0-9]* times\. ' "$folder/told"
        ends "lost progress, $1, $schedule: its trace" 0 sh -c 'test "$(grep -c "A$" "$1")" -ge 8' sh "$folder/one"
        ends "lost progress, $1, $schedule: its trace, judged" 0 sh -c '"$1" <"$2"' sh "$folder/replay" "$folder/one"
        ends "lost progress, $1, $schedule: what is untested" 0 grep -q '"untested":\[.*"progress"' "$folder/one.report"
    done
    repeats "$1" 4 true '--schedule steps --seed 2'
    repeats "$1" 4 true '--seed 2'
    repeats "$1" 4 false '--schedule rounds'
}
keeps_progress() {
    local schedule
    for schedule in rounds permits steps all; do
        ends "rolled back by chance, $1, $schedule" 0 "$folder/$1" --schedule $schedule --rounds "$2" --registers 8 --trace "$folder/one"
        has_told "rolled back by chance, $1, $schedule: all rounds" "\"rounds\":$2[,}]"
        ends "rolled back by chance, $1, $schedule: its trace, judged" 0 sh -c '"$1" <"$2"' sh "$folder/replay" "$folder/one"
    done
}
for file in tl2:LEAK tl2:WRAP readers:LEAK; do
    paused "${file/:/_}" "tests/c/bench_${file%:*}.c" "${file#*:}"
    loses_progress "${file/:/_}"
done
for each in 0 50; do
    paused "spurious_$each" tests/c/bench_spurious.c NONE -DPERCENT=50 -DEACH=$each
    keeps_progress "spurious_$each" $((each > 0 ? 300 : 3000))
done
if has "$cxx" 'a class that loses progress'; then
    for fault in NONE CHANCE LOCK MARK WRAP; do
        ends "a class, $fault, compiles" 0 "$cxx" -std=c++17 "${strict[@]:1}" -DTMWATCH_PAUSES "-DFAULT=$fault" -o "$folder/lost_$fault" \
            "$top/tests/c/bench_lost.cpp" "${bench[@]}"
        case $fault in
        NONE | CHANCE) keeps_progress "lost_$fault" 3000 ;;
        *) loses_progress "lost_$fault" ;;
        esac
    done
fi
ends 'lost progress, by the patience that is usual' 4 lost tl2_LEAK steps
# One that commits nothing for some seconds has as long as patience lasts.
paused leased tests/c/bench_spurious.c NONE -DPERCENT=0 -DLEASE=4
paused long_leased tests/c/bench_spurious.c NONE -DPERCENT=0 -DLEASE=30
for schedule in rounds permits steps; do
    ends "a lease of four seconds, $schedule" 0 "$folder/leased" --schedule $schedule --rounds 200 --timeout 60
    has_told "a lease of four seconds, $schedule: all rounds" '"rounds":200[,}]'
done
ends 'a lease of half a minute, and a second of patience' 4 "$folder/long_leased" --schedule steps --rounds 200 --timeout 1
paused spurious_99 tests/c/bench_spurious.c NONE -DPERCENT=99
ends 'nearly all are rolled back' 0 "$folder/spurious_99" --rounds 500
has_told 'nearly all are rolled back: it is told' '"untested":\[.*"progress"'

# A file that can't be written hides no verdict.
mkdir "$folder/three.report" "$folder/four.steps"
unwritten() {
    local name=$1 status=$2 words
    read -r -a words <<<"$4"
    ends "$name $4" 4 "$folder/$name" --trace "$3" "${words[@]}"
    cp "$folder/output" "$folder/told"
    ends "$name $4: the fault" 0 grep -qx '{"fault":"io"}' "$folder/told"
    ends "$name $4: the verdict" 0 grep -q "$status" "$folder/told"
}
unwritten norec 'opaque so far' /dev/full '--rounds 9'
unwritten norec 'opaque so far' /dev/full '--rounds 3000'
unwritten norec 'opaque so far' "$folder/three" '--rounds 9'
unwritten norec_READS violated "$folder/three" ''
unwritten norec_READS violated "$folder/four" ''
unwritten norec_READS violated "$folder/one" '--junit /dev/full'
unwritten stuck_SPIN hang "$folder/three" '--timeout 1'
# An error while a file is written counts, though it is closed well.
paused heals tests/c/bench_heals.c NONE -Wl,--wrap=fclose
unwritten heals 'opaque so far' /dev/full '--rounds 3000'

# On a terminal, and there alone, a line says twice a second how far all phases are. Each is cleared, also before other words.
on_terminal() {
    script -qec "'$folder/$1' ${*:2} >'$folder/printed'" /dev/null </dev/null | tr -d '\r\n' | sed 's/\x1b\[K/|\n/g'
}
shows_progress() {
    local began=$EPOCHREALTIME
    on_terminal norec "$@" >"$folder/shown"
    awk -v took="$(since "$began")" 'NR > 1 { is_wrong = is_wrong || !/^[0-9]+ rounds, [0-9]+ events, [0-9]+ forced aborts[|]$/ ||
                      $1 < rounds || $3 < events || ($3 > 0 && $1 > $3)
                  grown += $3 > events; rounds = $1; events = $3; shown++ }
         END { exit is_wrong || shown < 3 || grown < 3 || shown > 2 * took }' "$folder/shown" || { cat "$folder/shown" && return 1; }
}
if has script 'progress on a terminal'; then
    ends 'progress on a terminal' 0 shows_progress --seconds 4
    ends 'progress on a terminal, in rounds' 0 shows_progress --schedule rounds --seconds 4
    ends 'no progress by --quiet' 1 sh -c 'grep . "$1"' sh <(on_terminal norec --quiet --seconds 1)
    ends 'progress of a memory that never returns' 0 grep -qx 'hang: no event for 1 seconds.*' <(on_terminal stuck_SPIN --timeout 1)
fi
ends 'no progress on no terminal' 1 sh -c '"$1" --seconds 1 2>&1 >/dev/null | grep .' sh "$folder/norec"

# Runs that can't show much: the options, and what is untested.
untested() {
    local words
    read -r -a words <<<"$1"
    ends "a run with $1" 0 "$folder/$3" --rounds 50 "${words[@]}"
    has_told "a run with $1: what is untested" "\"untested\":\[.*\"$2\""
}
untested '--threads 1' threads norec
untested '--writes 0 --adds 0' stores norec
untested '--registers 8 --accesses 1 --schedule steps' aborts mutex
ends 'a run that only adds' 0 "$folder/norec" --rounds 50 --writes 0 --adds 100
cp "$folder/output" "$folder/told"
ends 'a run that only adds: it stores' 1 grep -q '"untested":\[.*"stores"' "$folder/told"
ends 'a run that shows much' 0 "$folder/norec" --rounds 3000
has_told 'a run that shows much: nothing is untested' '"max_interleaved_commits":[4-7],"rounds":3000,"stalls":0,"steps":[0-9]*}$'
end_rows
