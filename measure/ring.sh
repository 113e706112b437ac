#!/usr/bin/env bash
# Times the running ring: M writers in threads of their own record events, and one thread receives them all.
#
#   measure/ring.sh [EVENTS]
#
# A line for each number of cells N and of writers M has the seconds of the whole program (the best and the slowest of RUNS runs), and
# events a second in the best. If PEER is set, `PEER ring N M EVENTS` prints the events a second of four plain Rust programs, which come
# next to ours: the same ring with every step sequentially consistent, the same with acquire and release, a channel of std, and a queue with
# a lock. The ratio is that of the first of them to ours.
# Environment: PEER, RUNS (3), CELLS (16 256 4096), WRITERS (1 3 7).
set -eu
# shellcheck source=tests/common.sh
. "$(dirname "${BASH_SOURCE[0]}")/../tests/common.sh"
events=${1:-2000000} input=/dev/null
crate=$top/crates/time_ring
program=$crate/out/time_ring

# rt has no command that builds a program and doesn't run it, so it runs on few events.
is_stale() {
    [ ! -x "$program" ] ||
        [ -n "$(find "$top"/crates.txt "$top"/crates/{tmw_events,tmw_ring_defs,tmw_ring,time_ring}/{src,specs,proofs} -newer "$program" -print -quit)" ]
}
if is_stale; then
    echo "ring.sh: proving and building the program" >&2
    rm -f "$program"
    (cd "$crate" && rt run --jobs "$(nproc)" -- 16 3 3000) >"$folder/build" 2>&1 || { tail -n 40 "$folder/build" >&2 && exit 1; }
fi

# The events a second of the plain Rust programs.
others() {
    [ -n "${PEER:-}" ] || return 0
    "$PEER" ring "$1" "$2" "$events" | awk '{ for (i = 1; i < NF; i++) if ($i == "events/s") printf "%s ", $(i + 1) }'
}

printf '%5s %3s %8s %8s %10s %10s %10s %10s %10s %6s\n' N M seconds slowest events/s plain acq/rel channel lock ratio
for cells in ${CELLS:-16 256 4096}; do
    for writers in ${WRITERS:-1 3 7}; do
        read -r seconds most _ status <<<"$(measure "$program" "$cells" "$writers" "$events")"
        [ "$status $(cat "$folder/output")" = "0 taken $((events / writers * writers))" ] ||
            { echo "ring.sh: status $status, wrong line: $(cat "$folder/output")" >&2 && exit 1; }
        read -r plain acquire channel lock <<<"$(others "$cells" "$writers")" || true
        awk -v cells="$cells" -v writers="$writers" -v seconds="$seconds" -v most="$most" -v events="$events" -v plain="${plain:-0}" \
            -v acquire="${acquire:-0}" -v channel="${channel:-0}" -v lock="${lock:-0}" 'BEGIN {
                seconds = seconds > 0 ? seconds : 0.01; rate = events / seconds
                printf "%5d %3d %8.2f %8.2f %10d %10d %10d %10d %10d %6.2f\n", cells, writers, seconds, most, rate, plain, acquire, channel, lock, plain / rate
            }'
    done
done
