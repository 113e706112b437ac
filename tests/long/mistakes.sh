#!/usr/bin/env bash
# Mutates the bench for memories in C, and runs correct memories on it, in order to test the bench itself.
#
#   tests/long/mistakes.sh
#
# A test case for each mutant and memory says how many of its seeds were opaque so far, violated, undecided or malformed, or were refused by
# the library, or not done within 120 seconds; and whether the mutant is killed, which means that at most one seed in ten is opaque so far.
# Without a mutation, each seed must be opaque so far. Each mutant must be killed with at least one memory. The last line is 'N passed, M
# failed'. The exit status is 1 if one failed.
# Environment: BUILT (tests/common.sh), SEEDS (10), ROUNDS (20000), CC (cc), CXX (c++).
set -eu
# shellcheck source=tests/common.sh
. "$(dirname "${BASH_SOURCE[0]}")/../common.sh"
seeds=${SEEDS:-10} rounds=${ROUNDS:-20000}
use_library
flags=(-O2 -Wall -Wextra -pthread -DTMWATCH_PAUSES "-I$top/include")
"${CC:-cc}" -std=c11 "${flags[@]}" -c -o "$folder/norec.o" "$top/examples/c/norec.c"
"${CC:-cc}" -std=c11 "${flags[@]}" -c -o "$folder/versions.o" "$top/tests/c/bench_versions.c"
"${CXX:-c++}" -std=c++17 "${flags[@]}" -c -o "$folder/lock.o" "$top/tests/c/bench_lock.cpp"

# Runs each seed of a mistake and a memory, whose program is compiled. It sets opaque, how many seeds were so.
run_seeds() {
    local seed status of_each=(0 0 0 0 0)
    for seed in $(seq "$seeds"); do
        status=0
        timeout 120 "$folder/$2" --rounds "$rounds" --seed "$seed" --schedule rounds --pause 1000 >"$folder/output" 2>"$folder/told" || status=$?
        [ $status -lt 4 ] || status=4
        of_each[status]=$((of_each[status] + 1))
    done
    opaque=${of_each[0]}
    row '%-36s %-9s %6d %8d %9d %9d %7d' "$1" "$2" "${of_each[@]}" "$(shows && echo shows || echo 'does not show')"
}

shows() {
    [ $((10 * opaque)) -le "$seeds" ]
}

# A mistake: its name, and the change of the bench's source. It is none without a change.
mistake() {
    local memory is_shown=no is_hidden=yes
    rm -rf "$folder/bench-c"
    cp -r "$top/bench-c" "$folder/bench-c"
    sed -i "$2" "$folder"/bench-c/*.c
    "${CC:-cc}" -std=c11 "${flags[@]}" -c -o "$folder/bench.o" "$folder/bench-c/tmwatch_bench.c"
    for memory in lock norec versions; do
        "${CXX:-c++}" -pthread -o "$folder/$memory" "$folder/$memory.o" "$folder/bench.o" "$built"/lib/libtmwatch{_bench,}.a
        run_seeds "$1" "$memory"
        ! shows || is_shown=yes
        [ "$opaque" -eq "$seeds" ] || is_hidden=no
    done
    if diff -r "$folder/bench-c" "$top/bench-c" >"$folder/told"; then is_shown=$is_hidden; fi
    check [ $is_shown = yes ] || true
}

printf '%-36s %-9s %6s %8s %9s %9s %7s\n' mistake memory opaque violated undecided malformed refused
mistake 'none' ''
mistake 'C is recorded before the commit' \
    's/return m->commit(m->memory, a->tx);/return end_attempt(a, true), pause_sometimes(a, 0), m->commit(m->memory, a->tx);/'
mistake 'T is left out' '/has_asked = a->now.calls/{n;s/note_call(a);/if (a->has_asked) note_call(a);/}'
mistake 'no barrier' 's/b->round == round; turns++/turns == 0; turns++/'
mistake 'begins before the first call' \
    's/if (!tmwatch_begin_attempt(a))$/if (!m->begin(m->memory, a->tx) || (pause_sometimes(a, 0), !tmwatch_begin_attempt(a)))/
    s/if (!m->begin(m->memory, a->tx))$/if (false)/'
end_rows
