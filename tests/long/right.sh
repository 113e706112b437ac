#!/usr/bin/env bash
# Runs right memories on the bench in C with each schedule and memory model, with 100 seeds of 3,000 rounds each. Every run must be opaque
# so far, because otherwise the bench would report a false violation.
#
#   tests/long/right.sh
#
# The memories are those of tests/c and examples/c without a fault, and the right ones of tests/orders/memories/variants, all of them
# instrumented and without pauses. Each is a test case, which prints how many of its runs were not right with each schedule and memory
# model: `steps` under the models sequential, x86 and c++; `rounds`; `permits`; and `all`. A run is right if it is opaque so far, made all
# its rounds, and reported no data race, no delayed load, no stall and no untracked synchronization. Standard error has a line for each
# other run.
# The last line is 'N passed, M failed', after the number of memories and runs and the minutes. The exit status is 1 if a memory failed.
# Environment: BUILT (tests/common.sh), SEEDS (100), ROUNDS (3000), WAYS (sequential x86 c++ rounds permits all), ONLY (a pattern: the test
# cases that match), JOBS (runs at a time; the number of processors), CC (cc), CXX (c++).
set -eu
# shellcheck source=tests/common.sh
. "$(dirname "${BASH_SOURCE[0]}")/../common.sh"
seeds=${SEEDS:-100} only=${ONLY:-.} jobs=${JOBS:-$(nproc)} cc=${CC:-cc} cxx=${CXX:-c++}
export rounds=${ROUNDS:-3000}
read -r -a ways <<<"${WAYS:-sequential x86 c++ rounds permits all}"
use_library
build_bench "$cc" -std=c11 -O2 -pthread "-I$top/include"
link=("$waits" "$blocks" "$folder/lib/libtmwatch_steps.a" "$folder/lib/libtmwatch_bench.a" "$built/lib/libtmwatch.a")

# Runs a memory once: its program, options of the bench, a way and a seed. Prints a line if the run is not right.
# shellcheck disable=SC2317
run() {
    local by=(--schedule "${@: -2:1}") status=0 printed
    case ${by[1]} in
    sequential | x86 | c++) by=(--schedule steps --orders "${by[1]}") ;;
    esac
    printed=$("${@:1:$#-2}" "${by[@]}" --seed "${!#}" --rounds "$rounds" --seconds 300 2>&1) || status=$?
    [[ $status -eq 0 && $printed == *'"verdict":"opaque so far"'* && $printed == *"\"rounds\":$rounds"[,\}]* && ! $printed =~ $wrong ]] ||
        echo "${*: -2}: status $status, ${printed//$'\n'/ }"
}
export -f run
# What the report of a right run does not have.
export wrong='"stalls":[1-9]|"(race|untracked|delayed)"'

# The row of a memory: its name, its file, options of the bench, and after `--` those of the compiler.
right() {
    local name=$1 file=$2 options=() counts=() way passes=passed compiler=("$cc" -std=c11)
    shift 2
    [[ $name =~ $only ]] || return 0
    while [ $# -gt 0 ] && [ "$1" != -- ]; do
        options+=("$1")
        shift
    done
    [ "${file##*.}" = c ] || compiler=("$cxx" -std=c++17)
    "${compiler[@]}" -O2 -g -pthread -fsanitize=thread -Wno-tsan "-I$top/include" "${@:2}" -c -o "$folder/memory.o" "$top/$file"
    "${compiler[0]}" -pthread "${@:2}" -o "$folder/memory" "$folder/memory.o" "${link[@]}"
    for way in "${ways[@]}"; do
        seq -f "$way %.0f" "$seeds"
    done | xargs -P "$jobs" -L 1 bash -c 'run "$@"' run "$folder/memory" "${options[@]}" >"$folder/others"
    sed "s|^|$name by |" "$folder/others" >&2
    for way in "${ways[@]}"; do
        counts+=("$(printf '%10d' "$(grep -c "^$way " "$folder/others")")")
    done
    [ ! -s "$folder/others" ] || passes=FAILED
    memories=$((memories + 1)) runs=$((runs + ${#ways[@]} * seeds))
    row '%-76s %s' "$name" "${counts[*]}" $passes
}

# The row of a memory only with the steps of each memory model.
with_steps() {
    local ways=(sequential x86 c++)
    right "$@"
}

memories=0 runs=0
printf '%-76s' "not right, of $seeds"
printf ' %10s' "${ways[@]}"
echo
right 'NOrec' examples/c/norec.c
right 'a sequence lock' examples/c/sequence.c
right 'TL2' tests/c/bench_tl2.c
right 'versions' tests/c/bench_versions.c
right 'undo log' tests/c/bench_undo.c
right 'a lock for each register' tests/c/bench_locks.c
right 'snapshots that are extended' tests/c/bench_tiny.c
right 'four stripes' tests/c/bench_stripes.c --registers 8
right 'one sequence' tests/c/bench_sequence.c
right 'visible readers' tests/c/bench_readers.c
right 'a lock, half of commits rolled back' tests/c/bench_spurious.c
right 'NOrec that restarts by longjmp' tests/c/bench_jumping.c
for lock in MUTEX READ_WRITE BROADCAST; do
    right "one lock, $lock" tests/c/bench_waits.c -- -DLOCK=$lock
done
# (a signal of glibc before 2.41 may wake nobody, by its bug 25847; with steps, the bench wakes the thread)
with_steps 'one lock, CONDITION' tests/c/bench_waits.c -- -DLOCK=CONDITION
for backoff in YIELD PAUSE CPU NONE; do
    right "a lock that backs off, $backoff" tests/c/bench_backoff.c -- -DTMWATCH_PAUSES -DBACKOFF=$backoff
done
# (on a busy machine a client may wait longer for the server than the watchdog allows)
wrong='"(race|delayed)"' right 'a server' tests/c/bench_server.c -- -DBELL
# (threads that wait for OpenMP's locks would use up the processors)
export GOMP_SPINCOUNT=0
for lock in SET TEST CRITICAL; do
    right "a lock of OpenMP, $lock" tests/c/bench_other_locks.c -- -fopenmp -DLOCK=$lock
done
# (the bench does not observe these, and the report says so)
for lock in MARKED BEGIN; do
    wrong='"stalls":[1-9]|"(race|delayed)"' right "a lock in inline assembly, $lock" tests/c/bench_other_locks.c -- -DLOCK=$lock
done
if has "$cxx" 'memories in C++'; then
    right 'C++, one lock' tests/c/bench_lock.cpp
    right 'C++, locks and marks' tests/c/bench_lost.cpp
    right 'C++, half of commits rolled back' tests/c/bench_lost.cpp -- -DFAULT=CHANCE
fi
while IFS='|' read -r kind file words text; do
    if [ "$kind" = right ]; then
        read -r -a words <<<"$words"
        right "$file: $text" "tests/orders/memories/$file.c" -- "${words[@]}"
    fi
done <"$top/tests/orders/memories/variants"
echo "$memories memories, $runs runs of $rounds rounds, in $((SECONDS / 60)) minutes"
end_rows
