#!/usr/bin/env bash
# Runs tests/c/bench_marks.c on the bench in C, and compares its whole output with the output that tests/runs.py computes from the same
# options.
#
#   tests/runs.sh
#
# Prints a line for each test case, and 'N passed, M failed' as the last line. The exit status is 1 if a test case failed. Without a C
# compiler or python3, nothing is tested: a line says so, and the status is 0.
# Environment: CC (cc), BUILT (tests/common.sh), FLAGS (additional flags of the compiler).
set -eu
# shellcheck source=tests/common.sh
. "$(dirname "${BASH_SOURCE[0]}")/common.sh"
cc=${CC:-cc} last=true
has "$cc" tests/runs.sh && has python3 tests/runs.sh && has addr2line tests/runs.sh || exit 0
use_library
read -r -a flags <<<"${FLAGS:-}"
strict=(-std=c11 -Wall -Wextra -pedantic -Werror -g -O1 -pthread "-I$top/include" "${flags[@]}")
# (a fence is no more than a fence to ThreadSanitizer)
[ "${FLAGS:-}" != -fsanitize=thread ] || strict+=(-Wno-tsan)
bench=("$folder/lib/libtmwatch_bench.a" "$built/lib/libtmwatch.a")
export PYTHONDONTWRITEBYTECODE=1
ends 'the bench compiles' 0 build_bench "$cc" "${strict[@]}"
ends 'a replay compiles' 0 "$cc" "${strict[@]}" -o "$folder/replay" "$top/tests/c/bench_replay.c" "${bench[@]}"
marks=("$cc" "${strict[@]}" -O0 -DTMWATCH_PAUSES "$top/tests/c/bench_marks.c")
ends 'the memory compiles' 0 "${marks[@]}" -o "$folder/marks" "${bench[@]}"

# A run by these options is as it has to be: the fault, the options, and the program, if it has another name.
made() {
    local options
    read -r -a options <<<"${2//$'\n'/ }"
    ends "$1 $2" 0 timeout 600 "$top/tests/runs.py" "${3:-$folder/marks}" "$folder/replay" "$1" "${options[@]}"
}
made READS ''
made NONE '--schedule steps --rounds 100'
made LEFT ''
made MARK '--timeout 1'
made NONE '--print-phases --schedule steps --rounds 70 --threads 8 --registers 8 --accesses 16 --writes 90 --adds 10 --aborts 40 --pause 7 --mixed-rounds 20
    --blind-writes 30 --attempts 1 --seconds 50 --timeout 9 --seed 5'
made LOST '--threads 1 --accesses 1'
made REFUSED '--schedule permits --threads 1 --rounds 500'
# (where a read is wrong in the round that never ends)
made BOTH '--timeout 1'
made BOTH '--timeout 1 --seed 2'
for seed in 3 4; do
    made READS "--seed $seed --schedule steps"
    made READS-RUNS "--seed $seed"
    made LEFT "--seed $seed --timeout 9 --seconds 90"
    made REFUSED "--schedule steps --rounds 200 --seed $seed"
done
made NONE-RUNS '--schedule steps --rounds 100'
made REFUSED-RUNS '--schedule permits --threads 1 --rounds 500 --writes 100'
made REFUSED '--schedule rounds --threads 1 --rounds 200 --attempts 2 --registers 8 --writes 100'
made REFUSED '--schedule permits --threads 1 --rounds 600 --attempts 2 --registers 8 --writes 100'
made START ''
made START '--schedule rounds --threads 1'
made LEFT '--schedule rounds --threads 1'
made LOST '--schedule permits --threads 1'
made LEFT '--schedule permits --threads 1'
made READS '--round 50 --event 3'
made NONE '--round 1'
# (a look before that round: a violation is found in it, or in another one)
made LOST '--seed 3 --round 410 --audit-first'
made LOST '--schedule steps --round 900 --audit-first'
made NONE '--round 1070 --audit-first --threads 2'
for fault in BEGIN COMMIT CANCEL RUN-RUNS CANCEL-RUNS COMMIT-RUNS; do
    made $fault '--timeout 1 --schedule steps'
done
LACKS=add made NONE '--schedule steps --rounds 50 --seed 7'
made NONE '--schedule steps --rounds 50 --adds 60 --values small --seed 8'
made REFUSED '--schedule rounds --threads 1 --rounds 200 --attempts 2 --registers 8 --writes 100 --values small'
# Runs that show little.
made NONE '--schedule steps --rounds 20 --writes 0 --adds 0 --blind-writes 0'
made NONE '--schedule steps --rounds 20 --threads 2 --registers 8 --accesses 1 --aborts 100 --mixed-rounds 0'
made LEFT '--schedule steps --rounds 20 --threads 2 --mixed-rounds 0'
# Several phases, by each schedule; and a run of which not all events are kept.
made NONE '--rounds 1100 --print-phases --seed 20'
made REFUSED '--rounds 1200 --threads 2 --registers 8 --accesses 1 --aborts 90 --writes 100'
# (of just as many events as are kept)
made NONE '--schedule rounds --rounds 20968 --threads 1 --registers 7 --accesses 1 --writes 100 --adds 0 --aborts 0 --mixed-rounds 0 --blind-writes 0'
# (of this copy of the bench a phase in rounds or by permits has any time, as else on a quiet machine)
cp -r "$top/bench-c" "$folder"
sed -i 's/LEG_MICROSECONDS = SECOND_US \/ 10/LEG_MICROSECONDS = 1000 * SECOND_US/' "$folder/bench-c/legs.c"
ends 'phases of any time: planted' 1 cmp -s "$top/bench-c/legs.c" "$folder/bench-c/legs.c"
ends 'phases of any time compile' 0 "${marks[@]}" -o "$folder/timeless" "$folder/bench-c/tmwatch_bench.c" "$folder/lib/libtmwatch_bench.a" "$built/lib/libtmwatch.a"
made NONE '--rounds 30050 --threads 1 --accesses 1 --registers 1 --print-phases' "$folder/timeless"
made NONE '--schedule rounds --threads 1 --accesses 16 --mixed-rounds 0 --rounds 3000'
# Threads that run as they may keep to their rounds, and to their permits, and the memory itself is right by any of them.
ends 'norec compiles' 0 "$cc" "${strict[@]}" -DTMWATCH_PAUSES -o "$folder/norec" "$top/examples/c/norec.c" "${bench[@]}"
for schedule in rounds permits; do
    ends "norec, $schedule" 0 "$folder/norec" --schedule $schedule --rounds 2000
    has_told "norec, $schedule: has met" '"concurrent":[1-9]'
    ends "the memory, $schedule" 0 "$folder/marks" --schedule $schedule --rounds 5000
done
# A program of any name; and a memory that is a library.
cp "$folder/marks" "$folder/\"it's\" <1 & 2>"
made READS '--seed 5' "$folder/\"it's\" <1 & 2>"
ends 'a memory in a library compiles' 0 "${marks[@]}" -fPIC -shared -o "$folder/libmarks.so"
echo 'int marks;' >"$folder/nothing.c"
ends 'a memory in a library is linked' 0 "$cc" "${strict[@]}" -rdynamic -Wl,-u,tmwatch_bench_main,-u,tmwatch_pause -o "$folder/linked" \
    "$folder/nothing.c" "${bench[@]}" -Wl,--no-as-needed "$folder/libmarks.so"
made READS '--seed 6' "$folder/linked"
# In one stream, the lines come before what is said of them.
in_order() {
    "$folder/marks" --threads 1 --rounds 9 >"$folder/printed" 2>"$folder/said"
    "$folder/marks" --threads 1 --rounds 9 >"$folder/both" 2>&1
    diff <(cat "$folder/printed" "$folder/said") "$folder/both"
}
ends 'in one stream' 0 in_order
# What --help says of the options is so.
ends 'the options' 0 "$top/tests/options.py" "$folder/marks"
# In a debugger a run by these words stops once, when so many events are recorded.
stops_after() {
    printf '%s\n' 'set pagination off' 'break tmwatch_breakpoint' "run ${*:2}" 'print this_thread->bench->steps.recorded' 'continue' >"$folder/stops"
    timeout 300 gdb -q -batch -x "$folder/stops" "$folder/marks" >"$folder/stopped" 2>&1
    [ "$(sed -n 's/^\$1 = //p' "$folder/stopped")" -eq "$1" ]
    [ "$(grep -c ' hit Breakpoint 1, ' "$folder/stopped")" -eq 1 ]
}
# It stops before the wrong event, or before its round.
stops() {
    local words at event
    export FAULT=READS
    "$folder/marks" --seed "$1" >"$folder/printed" 2>"$folder/words" || [ $? -eq 1 ]
    read -r -a words < <(sed -n 's/^{"deterministic":true,"reproduce":"\(.*\)"}$/\1/p' "$folder/printed")
    at=$(sed -n '1s/{"at":\([0-9]*\),.*/\1/p' "$folder/printed")
    event=$(sed -n 's/.*: add --event \([0-9]*\), then.*/\1/p' "$folder/words")
    stops_after $((at - 1)) "${words[@]}" --event "$event"
    stops_after $((at - event)) "${words[@]}"
}
if [ ${#flags[@]} -eq 0 ] && has_debugger 'a stop before the wrong event'; then
    for seed in 5 8; do
        ends "stops before the wrong event and its round, seed $seed" 0 stops $seed
    done
fi
end_rows
