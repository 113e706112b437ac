#!/usr/bin/env bash
# Compares `tmwatch judge` with another program that has the same options and output: instructions for each event, and processor time.
#
#   measure/peer.sh PEER [EVENTS]
#
# A line for each criterion and each kind of run of measure/traces.c, and of those that `PEER gen PROFILE SEED EVENTS` makes (gen:PROFILE),
# has, for the program, for the peer, and as the ratio of both:
# - instructions for each event, counted by valgrind's callgrind, of the first 120,000 events minus the first 20,000;
# - nanoseconds for each event of user and system time, of EVENTS (5,000,000) events: each the best of RUNS runs, which alternate.
# The load of the machine comes first and last, because times count only on an idle one. The exit status is 1 if a run is not opaque so far,
# or a line of the peer differs from ours; 2 without the peer.
# Environment: RUNS (9), KINDS, CRITERIA (opacity strict both), SEED (1), PROGRAM (the built one), CC (cc).
set -eu
# shellcheck source=tests/common.sh
. "$(dirname "${BASH_SOURCE[0]}")/../tests/common.sh"
peer=${1:-} events=${2:-5000000} seed=${SEED:-1}
[ -x "$peer" ] || { sed -n '4p' "${BASH_SOURCE[0]}" >&2 && exit 2; }
program=${PROGRAM:-$program}
[ -x "$program" ] || "$top/build"
"${CC:-cc}" -O2 -o "$folder/traces" "$top/measure/traces.c"

# The trace of a kind, of so many events.
make_trace() {
    case $1 in
    gen:*) "$peer" gen "${1#gen:}" "$seed" "$2" ;;
    *) "$folder/traces" "$1" "$seed" "$2" ;;
    esac
}

# Has a program judge the trace in a file, by a command that runs it. It has to be opaque so far, with the lines that the last one wrote.
judge() {
    local trace=$1 criterion=$2
    shift 2
    "$@" judge --criterion "$criterion" <"$trace" >"$folder/output" || tell_wrong "$* judge, status $?"
    [ ! -e "$folder/lines" ] || cmp -s "$folder/lines" "$folder/output" || tell_wrong "$* judge, $(cat "$folder/output")"
    mv "$folder/output" "$folder/lines"
}

tell_wrong() {
    touch "$folder/wrong"
    echo "peer.sh: $kind, $criterion: $1" >&2
}

# The instructions of a program on the trace in a file.
instructions() {
    judge "$1" "$2" valgrind --log-file="$folder/told" --tool=callgrind --callgrind-out-file=/dev/null "$3"
    sed -n 's/.*Collected : //p' "$folder/told"
}

# The microseconds of processor time of a program on the longest trace.
microseconds() {
    local TIMEFORMAT='%3U %3S'
    { time judge "$folder/longest" "$1" "$2" 2>&3; } 3>&2 2>"$folder/time"
    awk '{ print 1e6 * ($1 + $2) }' "$folder/time"
}

# Keeps in ours and theirs the instructions an event by a criterion.
count_instructions() {
    local few many
    for one in "$program" "$peer"; do
        rm -f "$folder/lines"
        few=$(instructions "$folder/few" "$1" "$one")
        rm -f "$folder/lines"
        many=$(instructions "$folder/many" "$1" "$one")
        awk -v few="$few" -v many="$many" -v more=$(($(wc -l <"$folder/many") - $(wc -l <"$folder/few"))) \
            'BEGIN { printf "%.1f ", (many - few) / more }'
    done
}

# Prints the best nanoseconds an event of both, whose runs take turns.
count_time() {
    local run ours theirs
    rm -f "$folder/lines"
    for ((run = 0; run < ${RUNS:-9}; run++)); do
        ours=$(microseconds "$1" "$program")
        theirs=$(microseconds "$1" "$peer")
        echo "$ours $theirs"
    done | awk -v events="$count" '{ ours = NR == 1 || $1 < ours ? $1 : ours; theirs = NR == 1 || $2 < theirs ? $2 : theirs }
        END { printf "%.2f %.2f", 1000 * ours / events, 1000 * theirs / events }'
}

echo "load $(cut -d' ' -f1-3 /proc/loadavg), $(nproc) processors"
printf '%-10s %-9s %12s %8s %6s %10s %8s %6s\n' kind criterion instructions peer ratio ns peer ratio
for kind in ${KINDS:-serial calm wide long blind bench outcomes gen:serial gen:calm gen:wide gen:long gen:blind}; do
    make_trace "$kind" 20000 >"$folder/few"
    make_trace "$kind" 120000 >"$folder/many"
    make_trace "$kind" "$events" >"$folder/longest"
    count=$(($(wc -l <"$folder/longest") - 1))
    for criterion in ${CRITERIA:-opacity strict both}; do
        counted=$(count_instructions "$criterion") took=$(count_time "$criterion")
        echo "$counted $took" | awk -v kind="$kind" -v criterion="$criterion" \
            '{ printf "%-10s %-9s %12.1f %8.1f %6.2f %10.2f %8.2f %6.2f\n", kind, criterion, $1, $2, $1 / $2, $3, $4, $3 / $4 }'
    done
done
echo "load $(cut -d' ' -f1-3 /proc/loadavg)"
[ ! -e "$folder/wrong" ]
