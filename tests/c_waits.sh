#!/usr/bin/env bash
# Runs memories on the bench in C that are correct with each lock, condition variable, once, barrier and wait of C11, pthread, C++20 and
# OpenMP, by default and under the memory models of x86 and C++20: they stay opaque so far, and the bench sees each wait. So do memories
# whose lock backs off, and one whose clients wait for a server thread. Then tests waits that the bench cannot see, and its messages about
# them; data races; lost wake-ups; and calls that take long.
#
#   tests/c_waits.sh
#
# Prints a line for each test case, and 'N passed, M failed' as the last line. The exit status is 1 if a test case failed. Without gcc,
# nothing is tested: a line says so, and the status is 0.
# Environment: COMPILERS (gcc), each with the C++ compiler that belongs to it, as g++ to gcc; ROUNDS (150) of each lock; BUILT
# (tests/common.sh).
set -eu
# shellcheck source=tests/common.sh
. "$(dirname "${BASH_SOURCE[0]}")/common.sh"
has gcc tests/c_waits.sh || exit 0
use_library
rounds=${ROUNDS:-150}
ends 'the bench compiles' 0 build_bench gcc -std=c11 -O2 -g -pthread "-I$top/include"
bench=("$folder/lib/libtmwatch_steps.a" "$folder/lib/libtmwatch_bench.a" "$built/lib/libtmwatch.a")
wraps=("$waits" "$blocks")

# Compiles a memory with marks: its program's name, its file, its compiler, and further words.
marked() {
    ends "$1 compiles" 0 "$3" -O2 -g -fsanitize=thread -Wno-tsan -Wno-unknown-warning-option "-I$top/include" "${@:4}" -c \
        -o "$folder/memory.o" "$top/$2"
    ends "$1 is linked" 0 "$3" -pthread -o "$folder/$1" "$folder/memory.o" "${wraps[@]}" "${bench[@]}"
}

# The locks that the bench sees. A program takes one by its name in LOCK.
stays_right() {
    local orders
    for orders in '' 'x86' 'c++'; do
        LOCK=$1 no_stall "$folder/$2" --rounds "$rounds" --seed 3 ${orders:+--schedule steps --orders "$orders"} >"$folder/printed"
        grep -q '"stalls":0,' "$folder/printed"
        if grep '"race"\|"untracked"' "$folder/printed"; then
            return 1
        fi
    done
}
read -r -a compilers <<<"${COMPILERS:-gcc}"
for compiler in "${compilers[@]}"; do
    has "$compiler" "locks, by $compiler" || continue
    marked "locks_$compiler" tests/c/bench_waits.c "$compiler"
    marked "plain_$compiler" tests/c/bench_waits.c "$compiler" -DPLAIN
    for lock in $("$folder/locks_$compiler" names); do
        # (what the memory's own thread stores is told of, as it isn't simulated)
        ends "$lock by $compiler" 0 stays_right "$lock" "locks_$compiler"
        ends "$lock by $compiler, plain data" 0 stays_right "$lock" "plain_$compiler"
    done
    cxx=${compiler/gcc/g++}
    cxx=${cxx/%clang/clang++}
    has "$cxx" "locks of C++20, by $cxx" || continue
    marked "locks_$cxx" tests/c/bench_waits.cpp "$cxx" -std=c++20
    marked "plain_$cxx" tests/c/bench_waits.cpp "$cxx" -std=c++20 -DPLAIN
    for lock in $("$folder/locks_$cxx" names); do
        ends "$lock by $cxx" 0 stays_right "$lock" "locks_$cxx"
        ends "$lock by $cxx, plain data" 0 stays_right "$lock" "plain_$cxx"
    done
done

# Right memories whose threads wait for each other by no lock: twenty seeds of each order make all rounds, with so many stalls. (A server may
# sleep for as long as a busy machine has it wait.)
most=$((rounds < 150 ? 20 * rounds : 3000))
export folder
export -f no_stall
twenty_seeds() {
    seq 20 | xargs -P 4 -I {} bash -c 'folder=$(mktemp -d -p "$folder") && no_stall "$@"' no_stall "$folder/$1" --schedule steps --orders "$2" \
        --threads 2 --rounds "$most" --seed {} >"$folder/printed" 2>&1 || true
    [ "$(grep -c "\"rounds\":${most},\"stalls\":$3," "$folder/printed")" -eq 20 ] || { cat "$folder/printed" && return 1; }
    [ "$(grep -c '"verdict":"opaque so far"' "$folder/printed")" -eq 20 ] || { cat "$folder/printed" && return 1; }
}
for backoff in YIELD PAUSE CPU NONE; do
    marked "backoff_$backoff" tests/c/bench_backoff.c gcc -DTMWATCH_PAUSES -DBACKOFF=$backoff
    for orders in sequential x86 c++; do
        ends "a lock that backs off, $backoff, $orders" 0 twenty_seeds "backoff_$backoff" $orders 0
    done
done
marked server tests/c/bench_server.c gcc -DBELL
for orders in sequential x86 c++; do
    ends "a server, $orders" 0 twenty_seeds server $orders '[0-9]*'
done
# Who sleeps in a call that isn't wrapped is stalled, and then what it has stored is seen, also if nobody else is to go.
wraps=("${waits//--wrap=read/--wrap=unread}" "$blocks")
marked server_unread tests/c/bench_server.c gcc
wraps=("$waits" "$blocks")
for threads in 1 4; do
    ends "a server, a call that is not wrapped, of $threads" 0 "$folder/server_unread" --schedule steps --orders x86 --threads $threads --rounds 300
    has_told "a server, a call that is not wrapped, of $threads: a stall" '"rounds":300,"stalls":[1-9].*"untracked":."waits"'
done

# Locks of OpenMP, and of inline assembly, which the bench doesn't see: a right memory is opaque so far by so many seeds, and no thread is
# stalled. Where orders are asked for, the report has what isn't seen, and no phase has them; so what is found without them is violated.
stays_opaque() {
    local program=$1 seeds=$2 unseen=$3 orders seed
    for orders in sequential x86 c++; do
        for ((seed = 1; seed <= seeds; seed++)); do
            no_stall "$folder/$program" --schedule steps --orders "$orders" --rounds 3000 --seed "$seed" >"$folder/printed"
            grep -q '"stalls":0,' "$folder/printed"
            [ "$orders" != sequential ] || unseen=
            [ "$(grep -o '"untracked".*' "$folder/printed")" = "$unseen" ]
            unseen=$3
        done
    done
}
by_assembly() {
    local compiler=$1 seeds lock level words orders
    for lock in MARKED:20 CALLED:3 BEGIN:3; do
        seeds=${lock#*:} lock=${lock%:*}
        marked assembly tests/c/bench_other_locks.c "$compiler" -std=c11 "-DLOCK=$lock"
        ends "a lock of assembly, $lock, by $compiler" 0 stays_opaque assembly "$seeds" '"untracked":["locks"]}'
        for level in 0 1 3; do
            marked assembly tests/c/bench_other_locks.c "$compiler" -std=c11 "-DLOCK=$lock" -O$level
            ends "a lock of assembly, $lock, by $compiler -O$level" 0 stays_opaque assembly 1 '"untracked":["locks"]}'
        done
    done
    # (the bench, the libraries and a sanitizer's runtime have such instructions too)
    for words in '' -no-pie -fsanitize=address -static-libgcc; do
        wraps=(${words:+$words} "$waits" "$blocks")
        marked free examples/c/norec.c "$compiler" -std=c11 -O0
        ends "no lock of assembly, by $compiler $words" 0 stays_opaque free 1 ''
    done
    wraps=("$waits" "$blocks")
    marked assembly tests/c/bench_other_locks.c "$compiler" -std=c11 -DLOCK=MARKED -DWRONG
    for orders in sequential x86 c++; do
        ends "a wrong memory with a lock of assembly, by $compiler, $orders" 1 "$folder/assembly" --schedule steps --orders $orders
    done
    has_told "a wrong memory with a lock of assembly, by $compiler: what is told" -E \
        '^warning: the x86 and C\+\+20 memory models were not tested, because unmarked code in (begin|take|compare) locks or is a fence$'
}
by_openmp() {
    local compiler=$1 seeds lock
    if ! echo 'int main(void) { return 0; }' | "$compiler" -fopenmp -x c -o "$folder/try" - 2>"$folder/told"; then
        echo "locks of OpenMP, by $compiler: skipped, since it has none: $(tail -n 1 "$folder/told")"
        return
    fi
    wraps=(-fopenmp "$waits" "$blocks")
    for lock in SET:20 TEST:20 CRITICAL:20 NEST:3 NAMED:3 ATOMIC:3; do
        seeds=${lock#*:} lock=${lock%:*}
        # (Clang has the library of large atomic objects lock, whose locks nothing wraps)
        [ "$lock $compiler" != 'ATOMIC clang' ] || continue
        marked openmp tests/c/bench_other_locks.c "$compiler" -std=c11 -fopenmp "-DLOCK=$lock"
        ends "a lock of OpenMP, $lock, by $compiler" 0 stays_opaque openmp "$seeds" ''
    done
    wraps=("$waits" "$blocks")
}
for compiler in "${compilers[@]}"; do
    command -v "$compiler" >/dev/null || continue
    by_openmp "$compiler"
    # (what shows the others is of binutils, as addr2line)
    ! has objdump "locks of inline assembly, by $compiler" || by_assembly "$compiler"
done

# A lock that the bench doesn't see: a right memory stays so, without a race, and the report says that threads have waited.
unseen() {
    ends "$1 by $2, unseen, $3" 0 env "LOCK=$1" "$folder/$2" --rounds 40 --seed 3 --schedule steps --orders "$3"
    cp "$folder/output" "$folder/told"
    ends "$1 by $2, unseen, $3: what is told" 0 grep -q '^{.*"stalls":[1-9].*"untracked":\['"${4:-}"'"waits"\]}$' "$folder/told"
    ends "$1 by $2, unseen, $3: on standard error" 0 grep -q '^warning: [1-9][0-9]* times a thread blocked where the bench cannot see it, so' "$folder/told"
    ends "$1 by $2, unseen, $3: no race" 1 grep -q race "$folder/told"
}
unseen EVENT locks_gcc x86
unseen EVENT locks_gcc c++
unseen EVENT plain_gcc c++
marked spins tests/c/bench_other_locks.c gcc -DLOCK=SPINS
locks=$(if command -v objdump >/dev/null; then echo '"locks",'; fi)
unseen SPINS spins x86 "$locks"
unseen SPINS spins c++ "$locks"
[ ! -x "$folder/plain_g++" ] || unseen PROMISE plain_g++ c++
# One that is seen only once loads may be stale leaves a violation open; without stale loads it is one.
ends 'a wrong memory that waits unseen, later' 2 env LOCK=LATE "$folder/locks_gcc" --schedule steps --orders c++
has_told 'a wrong memory that waits unseen, later: the verdict' '^{"at":.*"verdict":"undecided","why":"untracked"}$'
ends 'a wrong memory that waits unseen, later: what else' 0 grep -q '^undecided: the violation may be false, .*\. Rerun with --orders sequential$' "$folder/told"
ends 'a wrong memory that waits unseen, by sequential orders' 1 env LOCK=LATE "$folder/locks_gcc" --schedule steps
# Without the linker's words no phase has other orders, and none is to have them.
wraps=()
marked unwrapped tests/c/bench_waits.c gcc
ends 'locks that are not wrapped, by default' 0 "$folder/unwrapped" --rounds 30
cp "$folder/output" "$folder/told"
ends 'locks that are not wrapped, by default: the report' 0 grep -q '"untracked":\["locks","waits"\]}$' "$folder/told"
ends 'locks that are not wrapped, by default: which' 0 grep -q '^warning: the x86 and C++20 memory models were not tested, because pthread_.* is not wrapped\.' "$folder/told"
for orders in x86 c++; do
    ends "locks that are not wrapped, $orders" 4 "$folder/unwrapped" --orders $orders
    has_told "locks that are not wrapped, $orders: why" "^--orders: locks are not wrapped\. Link with 'pkg-config --libs tmwatch_steps'$"
done
for schedule in rounds permits; do
    ends "delayed stores by $schedule" 4 "$folder/locks_gcc" --schedule $schedule --orders x86
    has_told "delayed stores by $schedule: why" -x -- '--orders: only with --schedule steps or all'
done
ends 'locks that are not wrapped: the phases' 0 sh -c '"$@" --rounds 9000 --registers 1 --accesses 1 --threads 1 --print-phases 2>&1 >/dev/null | grep "^phase" >&2' \
    sh "$folder/unwrapped"
cp "$folder/output" "$folder/told"
ends 'locks that are not wrapped: no phase of other orders' 1 grep -q -- --orders "$folder/told"
# A lock that is not wrapped, by how the program names it, and which one is told; then one that is wrapped.
named() {
    ends "a lock that is named by $1 compiles" 0 gcc -O2 -pthread "-DNAMED=$1" -o "$folder/named" "$top/tests/c/bench_unwrapped.c" "${wraps[@]}" "${bench[@]}"
    count "a lock that is named by $1" "$2" "$("$folder/named")"
}
named 0 none
for names in 1 2 3; do
    named $names pthread_mutex_lock
done
wraps=("$waits" "$blocks")
named 7 none

# Whether the first rounds of a phase have stale loads or delayed stores: a fence that is missing is found by twenty seeds, but in none of these.
first_rounds() {
    local seed
    for seed in {1..20}; do
        "$folder/fenceless" --schedule steps --orders "$1" --seed "$seed" --rounds "$2" || return
    done
}
marked fenceless tests/c/bench_readers.c gcc -DFAULT=FENCE
for orders in x86 c++; do
    ends "the first rounds, $orders" 0 first_rounds $orders 16
    ends "rounds after those, $orders" 1 first_rounds $orders 60
done
ends 'the round after those' 1 first_rounds c++ 17

# By all, phases in rounds and by permits have no orders, also if the others are to have some.
ends 'the phases of given orders' 0 sh -c '"$@" --orders x86 --rounds 21001 --threads 2 --registers 1 --accesses 1 --mixed-rounds 0 --print-phases 2>&1 >/dev/null' sh \
    "$folder/locks_gcc"
cp "$folder/output" "$folder/told"
ends 'the phases of given orders: steps' 0 grep -q '^phase 20: --schedule steps .*--orders x86' "$folder/told"
ends 'the phases of given orders: rounds' 0 grep -qv -- --orders <(grep '^phase 21: --schedule rounds ' "$folder/told")

# A race is in the report and in JUnit's; by --races fail it is a failure, with options that reproduce it.
raced() {
    ends "$1" "$2" env LOCK=RELAXED "$folder/plain_gcc" --schedule steps --orders c++ --rounds 200 --junit "$folder/junit" "${@:3}"
    cp "$folder/output" "$folder/told"
    ends "$1: the report" 0 grep -Eq '"race":"thread [0-3] (reads|writes) at bench_waits.c:[0-9]+ \([a-z_]+\), thread [0-3] (reads|writes|loads|stores)' \
        "$folder/told"
    ends "$1: on standard error" 0 grep -q '^data race (undefined behaviour in C++20): thread [0-3] ' "$folder/told"
    ends "$1: for CI systems" 0 python3 -c 'import sys, xml.etree.ElementTree as t; it = t.parse(sys.argv[1]).getroot()
sys.exit([it.get("failures"), it.find("*/failure").get("message")] != ["1", "race"])' "$folder/junit"
}
if has addr2line 'races'; then
    raced 'a race' 0
    ends 'a race: no words' 1 grep -q '"reproduce"' "$folder/told"
    raced 'a race that fails' 1 --races fail
    read -r -a words < <(sed -n 's/^{"deterministic":true,"reproduce":"\(.*\)"}$/\1/p' "$folder/told") || true
    ends 'a race that fails, again' 1 env LOCK=RELAXED "$folder/plain_gcc" "${words[@]}"
    has_told 'a race that fails, again: the same' -F "$(grep -o '"race":"[^"]*"' "$folder/told")"
    ends 'a race that fails, by default' 1 env LOCK=RELAXED "$folder/plain_gcc" --races fail
    has_told 'a race that fails, by default: it ends the run' '"rounds":[0-9]\{3,5\},'
fi
ends 'races that neither are reported nor fail' 4 "$folder/locks_gcc" --races none
ends 'no race, which would fail' 0 "$folder/plain_gcc" --schedule steps --orders c++ --rounds 200 --races fail
# Plain accesses are steps by --plain alone.
steps_of() {
    LOCK=MUTEX "$folder/plain_gcc" --schedule steps --rounds 20 "$@" 2>/dev/null | sed -n 's/.*"steps":\([0-9]*\),.*/\1/p'
}
more_steps() {
    [ "$(steps_of --plain)" -gt "$(steps_of)" ]
}
ends 'plain accesses as steps' 0 more_steps

# A signal that is lost: by steps the memory never returns, and that comes again. With a thread of its own, somebody else may signal.
ends 'a lost signal' 4 env LOCK=LOST "$folder/locks_gcc" --schedule steps --timeout 1
cp "$folder/output" "$folder/told"
ends 'a lost signal: where' 0 grep -qx "thread [0-3]: begin has not returned" "$folder/told"
read -r -a words < <(sed -n 's/^{"deterministic":true,"reproduce":"\(.*\)"}$/\1/p' "$folder/told") || true
ends 'a lost signal, again' 4 env LOCK=LOST "$folder/locks_gcc" "${words[@]}" --timeout 1
end_rows
