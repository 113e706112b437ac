#!/usr/bin/env bash
# Runs transactional memories on the bench in C with each schedule, including `all`: correct ones, and ones with a known fault.
#
#   tests/long/memories.sh
#
# A test case for each memory and schedule says how many seeds were opaque so far, violated, undecided, malformed, stuck and other; the
# median number of rounds of the violated ones; the rounds a second; and the seconds of all. A run is stuck if the bench reports that within
# ten seconds. It is other if it ends without a verdict in another way, if it takes 300 seconds, or if it is opaque so far but shows little:
# not all rounds were run, no two transactions overlapped, or a thread that the bench should see waited unseen (a stall). A correct memory
# passes if all its seeds are opaque so far, and one that makes no progress if all are stuck. A broken one has 20 seconds. With `all`, it
# passes if all seeds are violated; with a single schedule, its line is only for information. Standard error has a line for each seed with
# another result. Memories that cannot be built here are skipped, and a line says so. The last line is 'N passed, M failed', and the exit
# status is 1 if one failed.
# Environment: BUILT (tests/common.sh), SEEDS (10), SECONDS_OF_BROKEN (20), RIGHT_ROUNDS (20000; libitm: a tenth), ONLY (a pattern: the test
# cases whose kind and name match it), SCHEDULES (all steps rounds permits), CC (cc), CXX (c++), CARGO (cargo).
set -eu
# shellcheck source=tests/common.sh
. "$(dirname "${BASH_SOURCE[0]}")/../common.sh"
only=${ONLY:-.} schedules=${SCHEDULES:-all steps rounds permits}
seeds=${SEEDS:-10} broken_seconds=${SECONDS_OF_BROKEN:-20} right_rounds=${RIGHT_ROUNDS:-20000}
cc=${CC:-cc} cxx=${CXX:-c++} cargo=${CARGO:-cargo} waits_unseen=
use_library
flags=(-O2 -Wall -Wextra -pthread -DTMWATCH_PAUSES "-I$top/include")

# The bench is compiled here, so that it is the one of this folder.
build_bench "$cc" -std=c11 "${flags[@]}"
cp "$built/lib/libtmwatch.a" "$folder/lib"
link=("$folder/lib/libtmwatch_steps.a" "$folder/lib/libtmwatch_bench.a" "$folder/lib/libtmwatch.a"
    "$waits" "$blocks")

# Compiles a memory in C: the program's name, the file, its fault, and further flags.
in_c() {
    "$cc" -std=c11 "${flags[@]}" "-DFAULT=$3" "${@:4}" -o "$folder/$1" "$top/$2" "${link[@]}"
}

# Compiles a memory in C without its pauses: each atomic access is a step.
without_pauses() {
    "$cc" -std=c11 -O2 -fsanitize=thread -Wno-tsan "-I$top/include" "-DFAULT=$3" "${@:4}" -c -o "$folder/memory.o" "$top/$2"
    "$cc" -pthread -o "$folder/$1" "$folder/memory.o" "${link[@]}"
}

# The same in C++.
in_cpp() {
    "$cxx" -std=c++17 "${flags[@]}" "-DFAULT=$3" -o "$folder/$1" "$top/$2" "${link[@]}"
}

# Each of these makes a run of $rounds with $seed by $schedule, for $seconds at most if there are any: of a program in C or C++, with
# further options of the bench; of libitm, by one of its methods; of the program in Rust.
bench() {
    timeout 300 "$folder/$1" --rounds "$rounds" ${seconds:+--seconds "$seconds"} --seed "$seed" --schedule "$schedule" "${@:2}"
}

libitm() {
    ITM_DEFAULT_METHOD=$1 bench libitm
}

rust() {
    bench target/release/examples/lock
}

# Prints the place of a run's outcome among the six that a row has, by its exit status, what it has printed, and its seconds.
outcome() {
    local line
    line=$(head -n 1 "$folder/output")
    case "$1 $line" in
    '0 {'*'"verdict":"opaque so far"}')
        [ -z "$seconds" ] || { echo 0 && return; }
        grep -q "\"rounds\":${rounds}[,}]" "$folder/output" && grep -q '"concurrent":[1-9]' "$folder/output" &&
            { [ -n "$waits_unseen" ] || ! grep -q '"stalls":[1-9]' "$folder/output"; } && echo 0 || echo 5
        ;;
    '1 {"at":'*'"verdict":"violated"}') echo 1 ;;
    '2 {"at":'*'"verdict":"undecided"'*) echo 2 ;;
    '3 {"at":'*'"verdict":"malformed"}') echo 3 ;;
    '4 {"fault":"hang"}') awk "BEGIN { print $2 < 10 ? 4 : 5 }" ;;
    *) echo 5 ;;
    esac
}

# Whether the row's counts are those that a right or a broken memory has to have.
is_wanted() {
    local opaque=$2 violated=$3
    case $1 in
    right) [ "$opaque" -eq "$seeds" ] ;;
    broken) [ "$violated" -eq "$seeds" ] ;;
    lost) [ "$6" -eq "$seeds" ] ;;
    told) [ $((opaque + violated)) -eq "$seeds" ] ;;
    esac
}

# The number that follows this key in what a run has printed.
number_of() {
    sed -n "s/.*\"$1\":\([0-9]*\).*/\1/p" "$folder/output" | head -n 1
}

# Runs each seed of a row: its name, whether the memory is right, broken, lost or only told of, the schedule, and how a run is made.
run_seeds() {
    local name=$1 kind=$2 schedule=$3 of_each=(0 0 0 0 0 0) passes=passed began=$EPOCHREALTIME seed status found run
    local rounds=100000000 usual=1 seconds=$broken_seconds all=0 took started
    [ "$kind" != right ] || rounds=$right_rounds usual=0 seconds=''
    [ "$kind" != lost ] || usual=4
    shift 3
    : >"$folder/found"
    for seed in $(seq "$seeds"); do
        status=0 started=$EPOCHREALTIME
        "$@" >"$folder/output" 2>"$folder/told" || status=$?
        found=$(outcome $status "$(since "$started")")
        of_each[found]=$((of_each[found] + 1))
        run=$(number_of rounds)
        all=$((all + ${run:-0}))
        [ "$found" -eq "$usual" ] || [ "$kind" = told ] ||
            echo "$name by $schedule, seed $seed: status $status, $(head -n 1 "$folder/output")" >&2
        [ "$found" -ne 1 ] || echo "$run" >>"$folder/found"
    done
    took=$(since "$began")
    is_wanted "$kind" "${of_each[@]}" || passes=FAILED
    row '%-36s %-8s %6d %8d %9d %9d %5d %5d %8s %8.0f %7s' "$name" "$schedule" "${of_each[@]}" \
        "$(sort -n "$folder/found" | awk '{ it[NR] = $1 } END { print NR ? it[int((NR + 1) / 2)] : "-" }')" \
        "$(echo "$all $took" | awk '{ print $1 / $2 }')" "$took" $passes
}

# The rows of a memory: its name, whether it is right, broken, or loses progress, and how a run is made.
rows() {
    local schedule kind
    [[ "$2 $1" =~ $only ]] || return 0
    for schedule in $schedules; do
        kind=$2
        # (only steps have orders)
        [[ " ${*:3} " != *' --orders '* || $schedule =~ ^(steps|all)$ ]] || continue
        [ "$schedule" = all ] || [ "$kind" != broken ] || kind=told
        run_seeds "$1" $kind "$schedule" "${@:3}"
    done
}

printf '%-36s %-8s %6s %8s %9s %9s %5s %5s %8s %8s %7s\n' memory schedule opaque violated undecided malformed stuck other median /second seconds

for fault in NONE READS COMMIT PLACE; do
    in_c norec_$fault examples/c/norec.c $fault
done
for fault in NONE BEFORE AFTER LOCKED HALF LEAK WRAP; do
    in_c tl2_$fault tests/c/bench_tl2.c $fault
done
for fault in NONE CLOCK DROPPED AGAIN RECYCLED; do
    in_c versions_$fault tests/c/bench_versions.c $fault
done
for fault in NONE UNLOCK VERSION CLOCK; do
    in_c undo_$fault tests/c/bench_undo.c $fault
done
for fault in NONE INCARNATION LATE EXTENSION SHORTCUT; do
    in_c tiny_$fault tests/c/bench_tiny.c $fault
done
for fault in NONE EARLY; do
    in_c locks_$fault tests/c/bench_locks.c $fault
done
for fault in NONE NEIGHBOUR EXTENSION; do
    in_c stripes_$fault tests/c/bench_stripes.c $fault
done
for fault in NONE WRAP; do
    in_c sequence_$fault tests/c/bench_sequence.c $fault
done
for lock in MUTEX SPIN READ_WRITE CONDITION; do
    without_pauses waits_$lock tests/c/bench_waits.c NONE -DLOCK=$lock
done
in_c spurious tests/c/bench_spurious.c NONE
for fault in NONE FENCE LEAK; do
    without_pauses readers_$fault tests/c/bench_readers.c $fault
done
in_c jumping tests/c/bench_jumping.c NONE

rows 'NOrec' right bench norec_NONE
rows 'TL2' right bench tl2_NONE
rows 'versions' right bench versions_NONE
rows 'undo log' right bench undo_NONE
rows 'a lock for each register' right bench locks_NONE
rows 'snapshots that are extended' right bench tiny_NONE
rows 'four stripes' right bench stripes_NONE --registers 8
rows 'a lock, half of commits rolled back' right bench spurious
for lock in MUTEX SPIN READ_WRITE CONDITION; do
    rows "one lock, $lock, delayed stores" right bench waits_$lock --orders x86
done
rows 'NOrec that restarts by longjmp' right bench jumping
rows 'one sequence' right bench sequence_NONE
rows 'visible readers, delayed stores' right bench readers_NONE --orders x86
if has "$cxx" 'memories in C++'; then
    in_cpp lock tests/c/bench_lock.cpp NONE
    in_cpp class tests/c/bench_class.cpp NONE
    for fault in NONE CHANCE LOCK MARK WRAP; do
        in_cpp lost_$fault tests/c/bench_lost.cpp $fault
    done
    rows 'C++, one lock' right bench lock
    rows 'C++, TL2 as a class' right bench class
    rows 'C++, locks and marks' right bench lost_NONE
    rows 'C++, half of commits rolled back' right bench lost_CHANCE
fi
if has_transactions "$cc" libitm; then
    in_c libitm tests/c/bench_libitm.c NONE -fgnu-tm
    # It spins, where the bench doesn't see it, while another thread has its lock. On a busy machine that takes long.
    all_rounds=$right_rounds waits_unseen=yes
    right_rounds=$((all_rounds / 10))
    for method in gl_wt ml_wt serial; do
        rows "libitm, $method" right libitm $method
    done
    right_rounds=$all_rounds waits_unseen=
fi
if has "$cargo" 'a memory in Rust'; then
    (cd "$top/bindings/rust" && CARGO_TARGET_DIR=$folder/target TMWATCH_LIB=$folder/lib "$cargo" build -q --offline --locked --release \
        --example lock)
    rows 'Rust, a lock for each register' right rust
fi

rows 'NOrec, reads not validated' broken bench norec_READS
rows 'NOrec, commits not validated' broken bench norec_COMMIT
rows 'NOrec, writes in place' broken bench norec_PLACE
rows 'TL2, one look, before the load' broken bench tl2_BEFORE
rows 'TL2, one look, after the load' broken bench tl2_AFTER
rows 'TL2, lock bit ignored in validation' broken bench tl2_LOCKED
rows 'TL2, upper half after the release' broken bench tl2_HALF --adds 0
rows 'versions, the clock first' broken bench versions_CLOCK
rows 'versions, a dropped one returned' broken bench versions_DROPPED
rows 'versions, overwritten, no second look' broken bench versions_AGAIN
rows 'versions, a place used again' broken bench versions_RECYCLED
rows 'snapshots, incarnations of a bit' broken bench tiny_INCARNATION
rows 'snapshots, unlocks before it undoes' broken bench tiny_LATE
rows 'snapshots, extended too far' broken bench tiny_EXTENSION
rows 'snapshots, shortcut of the clock' broken bench tiny_SHORTCUT
rows 'undo log, unlocks before it undoes' broken bench undo_UNLOCK
rows 'undo log, an abort keeps the version' broken bench undo_VERSION
rows 'undo log, clock by load and store' broken bench undo_CLOCK
rows 'a lock given back early' broken bench locks_EARLY
rows 'four stripes, a neighbour is not undone' broken bench stripes_NEIGHBOUR
rows 'four stripes, an extension is missed' broken bench stripes_EXTENSION
rows 'one sequence, wraps after 4 commits' broken bench sequence_WRAP
rows 'visible readers, no fence' broken bench readers_FENCE --orders x86
rows 'TL2, a lock that is left held' lost bench tl2_LEAK
rows 'TL2, a clock of eight bits' lost bench tl2_WRAP
rows 'visible readers, a flag that stays' lost bench readers_LEAK
if command -v "$cxx" >/dev/null; then
    rows 'C++, a lock that is left held' lost bench lost_LOCK
    rows "C++, a reader's mark that stays" lost bench lost_MARK
    rows 'C++, a clock of eight bits' lost bench lost_WRAP
fi
end_rows
