#!/usr/bin/env bash
# Times `tmwatch bench` on NOrec, and measure/rounds.c for comparison, whose threads run the same rounds with barriers and without a judge:
# first on the machine as it is, then next to busy loops.
#
#   measure/bench.sh
#
# Three workers run examples/hunt.json. One, two and four run scripts of the same kind, with two transactions over two registers; eight run
# the eight transactions of those four, one each, so that a round has at most eight transactions. For each number of workers there is a line
# for each program, `barriers` and `tmwatch`. It has
# - the rounds and the seconds of one run, the fastest of RUNS. The rounds are doubled, from 100 on, until a run takes LEAST seconds;
# - its rounds, events, forced aborts and changes of thread a second. A forced abort is an `A` that answers another call than `X`, and a
#   change of thread is an event whose thread differs from that of the event before;
# - forced aborts a round, and changes of thread an event. For `tmwatch`, these are counted in the traces of RUNS other runs. Its figures a
#   second are these numbers times the figures of the fastest run, which writes no trace;
# - for `tmwatch`, its rounds a second divided by those of `barriers`.
#
# The exit status is 0 if each run of `tmwatch` was opaque so far with all workers done, and `judge` always finds TRACED rounds of
# measure/rounds.c on each workload opaque so far; otherwise 1.
# Environment: RUNS (3), LEAST (1), ROUNDS (1000000, the most rounds of a run), TRACED (20000, the most of one with a trace), BUSY (4, the
# number of busy loops), WORKERS (1 2 3 4 8), CC (cc).
set -eu
# shellcheck source=tests/common.sh
. "$(dirname "${BASH_SOURCE[0]}")/../tests/common.sh"
loops=() failed=0
trap 'end_loops; rm -rf "$folder"' EXIT
runs=${RUNS:-3} most=${ROUNDS:-1000000} most_traced=${TRACED:-20000}

# Begins so many loops that are always ready to run.
begin_loops() {
    for _ in $(seq "$1"); do
        while :; do :; done &
        loops+=($!)
        disown
    done
}

end_loops() {
    [ "${#loops[@]}" -eq 0 ] || kill "${loops[@]}"
    loops=()
}

# The workload of so many workers.
workload() {
    if [ "$1" -eq 3 ]; then
        cat "$top/examples/hunt.json"
        return
    fi
    printf '%s\n' '"W 0 1","W 1 1"' '"W 0 2","W 1 2"' '"R 0","R 1"' '"R 1","R 0"' '"N 0 1","N 1 1"' '"R 0","R 1"' '"W 0 3","W 1 3"' \
        '"N 0 1","N 1 1"' | awk -v workers="$1" '
        BEGIN { each = workers < 8 ? 2 : 1; printf "{\"registers\":2,\"scripts\":" }
        NR <= workers * each { printf "%s[%s,\"T\"]", NR == 1 ? "[[" : (NR - 1) % each ? "," : "],[", $0 }
        END { print "]],\"order\":[]}" }'
}

# Tells what a run came to that should have been opaque so far.
fail() {
    failed=1
    echo "bench.sh: $workers workers, $1: $(tail -n 2 "$folder/output")" >&2
}

# Runs `tmwatch bench` for so many rounds, with further words. Its output is kept.
bench() {
    "$program" bench --patience 1000000000 --rounds "$@" <"$folder/workload" >"$folder/output" || true
    tail -n 2 "$folder/output" | tr -d '\n' | grep -q '"opaque so far"}{"ends":\["done"\(,"done"\)*\]}$' || fail tmwatch
}

# A run of a program for so many rounds: its rounds, events and seconds, and of barriers its forced aborts and changes of thread.
run() {
    local began
    began=$(date +%s.%N)
    case $1 in
    barriers) "$folder/rounds" "$2" <"$folder/workload" ;;
    tmwatch)
        bench "$2"
        echo "$began $(date +%s.%N) $(head -n 1 "$folder/output")" | awk -v rounds="$2" '
            { seconds = $2 - $1; sub(/.*"events":/, ""); printf "%d %d %.6f\n", rounds, $0, seconds }'
        ;;
    esac >"$folder/run"
}

# Runs tmwatch with a trace, for so many rounds at most, and counts what its traces have.
trace_runs() {
    local rounds=$(($1 < most_traced ? $1 : most_traced))
    for _ in $(seq "$runs"); do
        bench "$rounds" --trace
        cat "$folder/output"
    done >"$folder/traces"
    awk -v rounds=$((rounds * runs)) '
        /^opacity-trace/ { last = "" }
        !/^[0-7] / { next }
        { events++; changes += last != "" && $1 != last; last = $1 }
        $2 ~ /^[RWNTX]$/ { asked[$1] = $2 }
        $2 == "A" { aborts += asked[$1] != "X" }
        END { print rounds, events, aborts + 0, changes + 0 }' "$folder/traces"
}

# The rounds, events, forced aborts and changes of thread that tell of a program, whose runs have so many rounds.
count_events() {
    case $1 in
    barriers) awk '{ print $1, $2, $4, $5 }' "$folder/fastest" ;;
    tmwatch) trace_runs "$2" ;;
    esac >"$folder/counts"
}

# Prints the line of a program, beside another's rounds a second. Its own are then in `rate`.
print_line() {
    local name=$1 beside=$2 rounds=100
    run "$name" $rounds
    while [ $((2 * rounds)) -le "$most" ] && awk -v least="${LEAST:-1}" '{ exit !($3 < least) }' "$folder/run"; do
        rounds=$((2 * rounds))
        run "$name" $rounds
    done
    for _ in $(seq "$runs"); do
        run "$name" $rounds
        cat "$folder/run"
    done >"$folder/runs"
    sort -n -k 3 "$folder/runs" | head -n 1 >"$folder/fastest"
    count_events "$name" $rounds
    rate=$(awk '{ print $1 / $3 }' "$folder/fastest")
    awk -v load="$load" -v workers="$workers" -v name="$name" -v rate="$rate" -v beside="$beside" '
        NR == 1 { rounds = $1; seconds = $3; events = $2 / $3; next }
        {
            printf "%-5s %7d %-8s %8d %7.3f %9d %9d %9d %9d %12.4f %13.4f %6s\n", load, workers, name, rounds, seconds, rate, events,
                $3 / $2 * events, $4 / $2 * events, $3 / $1, $4 / $2, beside ? sprintf("%.3f", rate / beside) : "-"
        }' "$folder/fastest" "$folder/counts"
}

"$top/build"
"${CC:-cc}" -std=c11 -O2 -Wall -Wextra -Wpedantic -pthread -o "$folder/rounds" "$top/measure/rounds.c"
printf '%-5s %7s %-8s %8s %7s %9s %9s %9s %9s %12s %13s %6s\n' load workers program rounds seconds rounds/s events/s aborts/s changes/s \
    aborts/round changes/event ratio
for load in quiet busy; do
    [ $load = quiet ] || begin_loops "${BUSY:-4}"
    for workers in ${WORKERS:-1 2 3 4 8}; do
        workload "$workers" >"$folder/workload"
        "$folder/rounds" "$most_traced" trace <"$folder/workload" | sed '$d' | "$program" judge >"$folder/output" || fail measure/rounds.c
        print_line barriers ''
        print_line tmwatch "$rate"
    done
done
end_loops
exit $failed
