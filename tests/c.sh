#!/usr/bin/env bash
# Compiles the programs of tests/c and examples/c with the library for C, without warnings, and runs them. Then runs tests/c_steps.sh,
# tests/c_waits.sh, tests/runs.sh, tests/jobs.sh, tests/orders.sh and tests/bindings.sh with the same library.
#
#   tests/c.sh [--alone]
#
# With --alone, it runs no other script. Prints a line for each test case, and 'N passed, M failed' as the last line. The exit status is 1
# if a test case failed. Without a C compiler, nothing is tested: a line says so, and the status is 0.
# Environment: CC (cc), CXX (c++), BUILT (tests/common.sh), FLAGS (additional flags of the compiler), RUN (a command that runs each
# program), ROUNDS (2000, of the examples).
set -eu
# shellcheck source=tests/common.sh
. "$(dirname "${BASH_SOURCE[0]}")/common.sh"
cc=${CC:-cc} cxx=${CXX:-c++} last=true
has "$cc" tests/c.sh || exit 0
use_library
read -r -a flags <<<"${FLAGS:-}"
read -r -a run <<<"${RUN:-}"
strict=(-Wall -Wextra -pedantic -Werror -g -O2 -pthread "-I$built/include" "${flags[@]}")
wrapped=('-Wl,--wrap=malloc' '-Wl,--wrap=calloc' '-Wl,--wrap=realloc' '-Wl,--wrap=free')
static=("$built/lib/libtmwatch.a")
shared=("-L$built/lib" -ltmwatch "-Wl,-rpath,$(cd "$built/lib" && pwd)")

# A program of C, compiled without a warning and then run: its name, its file, its exit status, its words, and how it is linked.
program() {
    local name=$1 file=$2 wanted=$3 words
    read -r -a words <<<"$4"
    shift 4
    ends "$name compiles" 0 "$cc" -std=c11 "${strict[@]}" -o "$folder/$name" "$file" "$@"
    [ ! -x "$folder/$name" ] || ends "$name" "$wanted" "${run[@]}" "$folder/$name" "${words[@]}"
}

ends 'the header as C11' 0 "$cc" -std=c11 "${strict[@]}" -c -o "$folder/layout.o" "$top/tests/c/layout.c"
if has "$cxx" 'programs in C++'; then
    ends 'the header as C++17' 0 "$cxx" -std=c++17 "${strict[@]}" -o "$folder/layout" "$top/tests/c/layout.cpp" "${static[@]}"
    ends 'a program in C++' 0 "${run[@]}" "$folder/layout"
fi
program misuse "$top/tests/c/misuse.c" 0 '' "${static[@]}"
program misuse_shared "$top/tests/c/misuse.c" 0 '' "${shared[@]}"
readelf -W -d "$folder/misuse_shared" >"$folder/dynamic"
ends 'a program loads the shared library by its number' 0 grep -q '(NEEDED).*\[libtmwatch\.so\.[0-9]*\]' "$folder/dynamic"
program threads "$top/tests/c/threads.c" 0 '' "${static[@]}"
program scripted "$top/tests/c/scripted.c" 0 '' "${static[@]}"
program permits "$top/tests/c/permits.c" 0 '' "${static[@]}"
# Permits that are wrong: what is wrong, and the change of their header.
wrong_permits() {
    sed "$2" "$built/include/tmwatch_permits.h" >"$folder/tmwatch_permits.h"
    ends "permits that $1, compiled" 0 "$cc" -std=c11 "${strict[@]}" -iquote "$folder" -o "$folder/wrong" \
        "$top/tests/c/permits.c" "${static[@]}"
    ends "permits that $1" 1 "${run[@]}" "$folder/wrong"
}

wrong_permits 'are taken all while others are active' 's/% (UINT64_C(1) << 32) != 1/== 0/'
program kept "$top/tests/c/kept.c" 0 '' "${static[@]}"
[ ! -x "$folder/kept" ] || "$folder/kept" >"$folder/traces" || true
ends 'what was kept' 0 diff "$folder/traces" "$top/tests/c/kept.traces"
if command -v "$cxx" >/dev/null; then
    ends 'kept compiles, in C++17' 0 "$cxx" -std=c++17 "${strict[@]}" -o "$folder/kept_cxx" -x c++ "$top/tests/c/kept.c" -x none \
        "${static[@]}"
    [ ! -x "$folder/kept_cxx" ] || "$folder/kept_cxx" >"$folder/traces" || true
    ends 'what was kept, in C++17' 0 diff "$folder/traces" "$top/tests/c/kept.traces"
fi
program counted "$top/tests/c/counted.c" 0 '' "${static[@]}"
if [ ! -x "$program" ]; then
    echo 'what judge counts: skipped, since the program is not built'
elif [ -x "$folder/counted" ]; then
    for number in 0 1 2 3 4 5 6; do
        "$folder/counted" "$number" >"$folder/run" || true
        head -n -1 "$folder/run" | "$program" judge --summary >"$folder/lines" || true
        ends "what judge counts of run $number" 0 diff <(grep '^{"aborted"' "$folder/lines") <(tail -n 1 "$folder/run")
    done
fi
program memory "$top/tests/c/memory.c" 0 '' "${static[@]}" "${wrapped[@]}"
program audit "$top/examples/c/audit.c" 0 "${ROUNDS:-2000}" "${static[@]}"
program audit_broken "$top/examples/c/audit.c" 1 "${ROUNDS:-2000} broken" "${static[@]}"

rounds=${ROUNDS:-2000}
# The little memory of examples/recorders under the recorder of examples/c, which closes nothing at its end, so that RUN doesn't run it: a
# flag or none, the words, and the status that its verdict has to be.
watched() {
    local words name="watched${1:+ $1} $2"
    read -r -a words <<<"$2"
    ends "$name compiles" 0 "$cc" -std=gnu11 "${strict[@]}" ${1:+"$1"} -include tmwatch/watched.h -o "$folder/watched" \
        "$top/examples/recorders/little.c" "${static[@]}"
    ends "$name" "$3" "$folder/watched" "${words[@]}" "$rounds" 1
}

watched '' 'none right' 0
ends 'watched, output that can not be written' 4 sh -c '"$@" >/dev/full' sh "$folder/watched" none right 9 1
watched '' 'reads right' 1
watched -DWAIT_EVERY=4 'none right' 2
watched '' 'none no-abort' 3
# The recorder that writes a trace, with room for a round's events, and for fewer.
for room in 112 16; do
    ends "room for $room events compiles" 0 "$cc" -std=gnu11 "${strict[@]}" "-DROOM=$room" -o "$folder/room" \
        "$top/examples/recorders/little.c"
    ends "room for $room events" "$([ "$room" = 112 ] && echo 0 || echo 134)" "$folder/room" none right 99 1
done
# Each kind of event is written as it was recorded, and nothing once there is no room for one.
ends 'a full recorder compiles' 0 "$cc" -std=gnu11 "${strict[@]}" -o "$folder/recorded" "$top/tests/c/recorded.c"
"$folder/recorded" >"$folder/lines"
ends 'a full recorder' 0 diff "$top/tests/c/recorded.lines" "$folder/lines"
ends 'one event too many' 134 "$folder/recorded" more
has_told 'one event too many: what is told' -x 'recorder: no room for the event'
# What it makes of its words, with one thread: traces, which are the same each time, and what it says of wrong ones.
said_of_words() {
    local words
    for words in 'none right 10 10' 'reads late-call 2 1' 'commit late-request 2 1' 'place early-commit 2 1' 'none at-end 2 1' 'none late-abort 2 1' \
        'none no-abort 2 1' 'none right 10' 'none left 10 10' 'no right 10 10'; do
        read -r -a words <<<"$words"
        "$folder/alone" "${words[@]}" >"$folder/trace" 2>"$folder/said" || echo $?
        cat "$folder/said"
        cksum <"$folder/trace"
    done
    "$folder/alone" none right 9 1 >/dev/full || echo $?
}
ends 'one thread compiles' 0 "$cc" -std=gnu11 "${strict[@]}" -DTHREADS=1 -o "$folder/alone" "$top/examples/recorders/little.c"
ends 'one thread: what it makes of its words' 0 diff "$top/tests/c/little.lines" <(said_of_words)
# In each placing, right and wrong, an event is recorded before or after what the memory does, as it was.
ends 'placings compile' 0 "$cc" -std=gnu11 "${strict[@]}" -o "$folder/placed" "$top/tests/c/placed.c"
"$folder/placed" >"$folder/lines"
ends 'where each placing records' 0 diff "$top/tests/c/placed.lines" "$folder/lines"
# The bench is compiled here, so that the flags reach it too.
bench=(-DTMWATCH_PAUSES "$folder/lib/libtmwatch_bench.a" "${static[@]}" "$waits")

# Whether a judge's report on the bench's trace, in a file, is that of the bench, which is in another: the same verdict, with as many events
# less as precede the trace.
is_same_report() {
    local from first
    from=$(sed -n 's/.*"skipped":\([0-9]*\)[,}].*/\1/p' "$1")
    first=$(grep -m1 '^{' "$1" | sed 's/^{"[a-z]*":\([0-9]*\),.*/\1/')
    diff <(grep -m1 '^{' "$1" | sed "s/:[0-9][0-9]*/:$((first - ${from:-0}))/g") <(head -n 1 "$2")
}

# A memory that was compiled for the bench: its name, its exit status, and the seeds. A right one runs $rounds, and a broken one until it is
# violated, or 100000. Its transactions overlap, and its trace has the same verdict by the library, and by the program where that is built.
# Its threads run by $schedule, and else in rounds; there may be further $options.
on_bench() {
    local name=$1 wanted=$2 most=$rounds seed row words
    read -r -a words <<<"${options:-}"
    shift 2
    [ "$wanted" -eq 0 ] || most=100000
    [ -x "$folder/$name" ] || return 0
    for seed; do
        row="$name${schedule:+ by $schedule}, seed $seed"
        ends "$row" "$wanted" "${run[@]}" "$folder/$name" --rounds "$most" --seed "$seed" --trace "$folder/trace" \
            --schedule "${schedule:-rounds}" "${words[@]}"
        has_told "$row, has met" '"concurrent":[1-9]'
        "$folder/bench_replay" <"$folder/trace" >"$folder/replayed" 2>/dev/null || true
        ends "$row, by the library" 0 is_same_report "$folder/told" "$folder/replayed"
        if [ -x "$program" ]; then
            "$program" judge --summary <"$folder/trace" >"$folder/judged" || true
            ends "$row, by the program" 0 diff <(sed '2d; 4d' "$folder/replayed") <(sed '/^{"untested"/d' "$folder/judged")
        fi
    done
}

for compiler in gcc clang; do
    has $compiler "the bench by $compiler" || continue
    ends "the bench by $compiler: no conversion changes a value, no cast drops const" 0 build_bench $compiler -std=c11 "${strict[@]}" -Wconversion -Wcast-qual
done
ends 'the bench compiles, and looks for undefined behaviour' 0 build_bench "$cc" -std=c11 "${strict[@]}" -fsanitize=undefined
ends 'the bench compiles' 0 build_bench "$cc" -std=c11 "${strict[@]}"
ends 'a replay compiles' 0 "$cc" -std=c11 "${strict[@]}" -o "$folder/bench_replay" "$top/tests/c/bench_replay.c" "${bench[@]}"
program bench_plans "$top/tests/c/bench_plans.c" 0 '' "${bench[@]}"
[ ! -x "$folder/bench_plans" ] || "$folder/bench_plans" print >"$folder/lines" 2>&1 || true
ends 'what a bench prints' 0 diff "$folder/lines" "$top/tests/c/bench_plans.lines"
program bank "$top/examples/c/bank.c" 0 "$rounds" "${bench[@]}"
has_told 'bank: has met' '"concurrent":[1-9]'
program bank_broken "$top/examples/c/bank.c" 1 "$rounds broken" "${bench[@]}"
ends 'bank: output that can not be written' 4 sh -c '"$@" >/dev/full' sh "${run[@]}" "$folder/bank" 9
program bench_memory "$top/tests/c/bench_memory.c" 0 '' "${bench[@]}" "${wrapped[@]}" -Wl,--wrap=pthread_create,--wrap=tmwatch_room
# The same in rounds, by permits and by steps.
on_each() {
    on_bench "$@"
    schedule=permits on_bench "$@"
    schedule=steps on_bench "$@"
}

# Compiles a memory: its name, its file and its fault, or NONE.
compile_memory() {
    ends "$1_$3 compiles" 0 "$cc" -std=c11 "${strict[@]}" "-DFAULT=$3" -o "$folder/$1_$3" "$top/$2" "${bench[@]}"
}

for fault in NONE READS COMMIT PLACE; do
    compile_memory norec examples/c/norec.c "$fault"
    on_each "norec_$fault" "$([ "$fault" = NONE ] && echo 0 || echo 1)" 1 2 3
done
for fault in NONE READS; do
    compile_memory jumping tests/c/bench_jumping.c "$fault"
    on_each "jumping_$fault" "$([ "$fault" = NONE ] && echo 0 || echo 1)" 1 2 3
done
# A memory of tests/c: its name, its fault or NONE, and its exit status. A broken one is run in rounds alone.
on_memory() {
    compile_memory "$1" "tests/c/bench_$1.c" "$2"
    if [ "$3" -eq 0 ]; then on_each "$1_$2" 0 1 2 3; else on_bench "$1_$2" "$3" 1 2 3; fi
}
on_memory tl2 NONE 0
on_memory tl2 BEFORE 1
on_memory tl2 AFTER 1
on_memory versions NONE 0
on_memory versions CLOCK 1
on_memory undo NONE 0
on_memory undo UNLOCK 1
options='--threads 8 --registers 1 --accesses 2 --aborts 80' on_memory undo VERSION 1
on_memory locks NONE 0
on_memory locks EARLY 1
if command -v "$cxx" >/dev/null; then
    ends 'a lock compiles, in C++17' 0 "$cxx" -std=c++17 "${strict[@]}" -o "$folder/lock" "$top/tests/c/bench_lock.cpp" "${bench[@]}"
    on_each lock 0 1 2 3
    # Of this run not all events are kept for the trace.
    rounds=$((3 * rounds)) on_bench lock 0 4
fi
# While the result of a stuck run is written, a thread comes back: ThreadSanitizer, whatever the flags are, finds no race.
if has_thread_sanitizer "$cc" 'a thread that comes back'; then
    ends 'a thread that comes back compiles' 0 "$cc" -std=c11 -g -O1 -pthread -fsanitize=thread -Wno-tsan -DTMWATCH_PAUSES "-I$top/include" \
        -o "$folder/late" "$top/tests/c/bench_late.c" "$top/bench-c/tmwatch_bench.c" "$top/bench-c/instrumented/waits.c" "${static[@]}"
    for words in 0 1 2 '0 wrong' '1 wrong' '2 wrong'; do
        read -r -a given <<<"$words"
        ends "a thread that comes back, $words" 0 env TSAN_OPTIONS=halt_on_error=1 "$folder/late" "${given[@]}"
    done
fi
# A memory that is a class: the faults that it may have, and its exit status. A member that throws ends the program.
on_class() {
    ends "class_$1 compiles, in C++17" 0 "$cxx" -std=c++17 "${strict[@]}" "-DFAULT=$1" -o "$folder/class_$1" \
        "$top/tests/c/bench_class.cpp" "${bench[@]}"
    if [ "$2" -lt 128 ]; then
        on_bench "class_$1" "$2" 1 2 3
    else
        ends "class_$1" "$2" "${run[@]}" "$folder/class_$1"
        has_told "class_$1: what is told" "the memory's \`read\` has thrown: no"
    fi
}
if command -v "$cxx" >/dev/null; then
    on_class NONE 0
    on_class LOOP 0
    on_class ABORTS 0
    on_class READS 1
    on_class THROW 134
    on_class THROW_INT 134
fi
# Runs this again while it finds nothing wrong, since its threads have not met as they must for that: a hundred times at most.
until_met() {
    for _ in {1..100}; do
        "$@" || return
    done
}

# A bench that is wrong, over a memory that is right: what is wrong, the change of its source, and the exit status.
wrong_bench() {
    rm -rf "$folder/bench-c"
    cp -r "$top/bench-c" "$folder/bench-c"
    sed -i "$2" "$folder"/bench-c/*.c
    ends "a bench that $1 compiles" 0 "$cc" -std=c11 "${strict[@]}" -o "$folder/wrong" \
        "$top/examples/c/norec.c" "$folder/bench-c/tmwatch_bench.c" "$folder/lib/libtmwatch_bench.a" "${static[@]}"
    ends "a bench that $1" "$3" until_met "${run[@]}" "$folder/wrong" --rounds "$rounds" --mixed-rounds 0 --schedule "${schedule:-rounds}"
}

wrong_bench 'records that a transaction has committed before it commits' \
    's/return m->commit(m->memory, a->tx);/return end_attempt(a, true), m->commit(m->memory, a->tx);/' 1
# The library takes no answer to a call that is not recorded.
wrong_bench 'records no call to commit' '/has_asked = a->now.calls/{n;s/note_call(a);/if (a->has_asked) note_call(a);/}' 4
wrong_bench 'records no abort' 's/    record(a, &(tmwatch_call){has_committed ? .*/    if (has_committed)\n    &/' 3
# Without its permits, threads that run freely are undecided. Nothing then keeps room for their events, so that the ring has cells for all.
rounds=20 schedule=permits wrong_bench 'takes no permit and gives none' 's/tmwatch_permits_[a-z_]*(&[^;]*);/(void)0;/' 2
for words in --rounds '--rounds x' '--rounds 0' '--mixed-rounds 101' '--schedule rounds --round 3' '--threads 9' '--registers 0' '--accesses 17' \
    '--writes 101' '--seed 18446744073709551616' '--none 1' '--schedule x' 3; do
    read -r -a given <<<"$words"
    ends "wrong words, $words" 4 "${run[@]}" "$folder/norec_NONE" "${given[@]}"
    has_told "wrong words, $words: what is told" -x '{"fault":"usage"}'
    case $words in
    --rounds | 3) reason=": \(the value is missing\|no such option\)" ;;
    '--rounds 0') reason='--rounds: 0 is not 1 or more' ;;
    *--round\ 3) reason='--round: only with --schedule steps, or with all up to 20000' ;;
    --none*) reason='--none: no such option' ;;
    --schedule*) reason="--schedule: 'x' is not one of steps, rounds, permits, all" ;;
    --rounds* | --seed*) reason="${given[0]}: '${given[1]}' is not a number" ;;
    *) reason="${given[0]}: ${given[1]} is not in [01] to [0-9]*" ;;
    esac
    ends "wrong words, $words: why" 0 grep -q -- "$reason\$" "$folder/told"
done
ends 'an empty word' 4 "${run[@]}" "$folder/norec_NONE" --rounds 9 --adds ''
ends 'the words there are' 0 "${run[@]}" "$folder/norec_NONE" --help
sed 's/ norec_commit, / NULL, /; /^static bool norec_commit/,/^}/d' "$top/examples/c/norec.c" >"$folder/lacking.c"
ends 'a memory without a function compiles' 0 "$cc" -std=c11 -O2 -pthread "-I$built/include" "-I$top/examples/c" "${flags[@]}" \
    -o "$folder/lacking" "$folder/lacking.c" "${bench[@]}"
ends 'a memory without a function' 4 "${run[@]}" "$folder/lacking"
has_told 'a memory without a function: which' -x "tmwatch_memory: the function \`commit\` is null"
ends 'all words' 0 "${run[@]}" "$folder/norec_NONE" --rounds 9 --seed 3 --threads 2 --registers 2 --accesses 2 \
    --writes 90 --adds 0 --aborts 0 --mixed-rounds 9 --pause 9 --seconds 9 --schedule permits --timeout 9 --quiet --plain
ends 'a trace that can not be opened' 4 "${run[@]}" "$folder/norec_NONE" --rounds 9 --trace "$folder/none/trace"
has_told 'a trace that can not be opened: which' "none/trace\$"
ends 'a trace that can not be written' 4 "${run[@]}" "$folder/norec_NONE" --rounds 9 --trace /dev/full
ends 'output that can not be written' 4 sh -c '"$@" >/dev/full' sh "${run[@]}" "$folder/norec_NONE" --rounds 9
# Descriptors 0 to 2 that are closed: the trace receives nothing that is written to them, and is the same.
sed 's/memory_begin(tx);/static int file;\n    for (; file < 3; file++)\n        dprintf(file, "begun\\n");\n    &/' "$top/examples/c/norec.c" >"$folder/writes.c"
ends 'a memory that writes to each descriptor compiles' 0 "$cc" -std=gnu11 "${strict[@]}" "-I$top/examples/c" -DFAULT=READS \
    -o "$folder/writes" "$folder/writes.c" "${bench[@]}"
ends 'a trace' 1 "$folder/writes" --schedule steps --trace "$folder/trace"
for closed in '<&-' '>&-' '2>&-' '<&- >&-' '<&- 2>&-' '>&- 2>&-' '<&- >&- 2>&-'; do
    # (a verdict that can't be printed is a fault)
    case $closed in '>'* | *' >'*) wanted=4 ;; *) wanted=1 ;; esac
    ends "a trace, $closed" $wanted sh -c "exec \"\$@\" $closed" sh "$folder/writes" --schedule steps --print-phases --trace "$folder/closed"
    ends "a trace, $closed: the same" 0 cmp "$folder/trace" "$folder/closed"
done
ends 'no pause compiles' 0 "$cc" -std=c11 "${strict[@]}" -c -o "$folder/plain.o" "$top/examples/c/norec.c"
ends 'a pause is nothing unless it is under test' 1 grep -q tmwatch_pause "$folder/plain.o"

# (a folder that isn't installed: its programs start as they are)
if command -v pkg-config >/dev/null; then
    ends 'the package of the bench' 0 env PKG_CONFIG_PATH="$built/lib/pkgconfig" sh -c "$cc -std=c11 ${FLAGS:-} -o '$folder/package' \
        '$top/examples/c/norec.c' \$(pkg-config --cflags --libs tmwatch_bench)"
    ends 'a memory by the package' 0 "${run[@]}" "$folder/package" --rounds 100
    ends 'the package' 0 env PKG_CONFIG_PATH="$built/lib/pkgconfig" sh -c "$cc -std=c11 ${FLAGS:-} -o '$folder/package' '$top/tests/c/misuse.c' \$(pkg-config --cflags --libs tmwatch)"
    ends 'a program by the package' 0 "${run[@]}" "$folder/package"
fi
[ "${1:-}" != --alone ] || { end_rows && exit; exit; }
ends 'the bench by steps' 0 "$top/tests/c_steps.sh"
ends 'what threads wait for' 0 "$top/tests/c_waits.sh"
ends 'what the bench writes' 0 "$top/tests/runs.sh"
ends 'jobs and shrunk runs' 0 "$top/tests/jobs.sh"
ends 'the orders of C++20' 0 "$top/tests/orders.sh"
ends 'the bindings' 0 "$top/tests/bindings.sh"
end_rows
