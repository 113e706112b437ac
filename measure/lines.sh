#!/usr/bin/env bash
# Measures how many calls a second tmwatch-bench makes with a program in C that answers at once (measure/lines.c), and how many a bare
# ping-pong of such lines over two pipes makes.
#
#   measure/lines.sh
#
# Each line has the median of RUNS runs, which alternate, and its ratio to the ping-pong. The exit status is 1 if the ratio is below half
# for the default number of threads, or a run is not opaque so far.
# Environment: RUNS (9), ROUNDS (10000, of a run), CC (cc), BUILT (tests/common.sh), TMWATCH_BENCH, the bench (built/bin/tmwatch-bench).
set -eu
# shellcheck source=tests/common.sh
. "$(dirname "${BASH_SOURCE[0]}")/../tests/common.sh"
if [ -z "${TMWATCH_BENCH:-}" ]; then
    use_library
    TMWATCH_BENCH=$built/bin/tmwatch-bench
fi
runs=${RUNS:-9} rounds=${ROUNDS:-10000}
"${CC:-cc}" -O2 -Wall -Wextra -o "$folder/lines" "$top/measure/lines.c"

# The calls a second of a run by these words, which reads alone: a call is two events.
calls() {
    local began=$EPOCHREALTIME
    "$TMWATCH_BENCH" --writes 0 --blind-writes 0 --rounds "$rounds" "$@" -- "$folder/lines" echo >"$folder/printed" 2>/dev/null || touch "$folder/failed"
    sed -n 's/.*"events":\([0-9]*\),"verdict.*/\1/p' "$folder/printed" >"$folder/events"
    awk -v seconds="$(since "$began")" '{ printf "%.0f\n", $1 / 2 / seconds }' "$folder/events"
}

median() {
    sort -n "$1" | awk '{ number[NR] = $1 } END { print number[int((NR + 1) / 2)] }'
}

ways=('--schedule steps' '--schedule rounds' '--schedule steps --single-process' '--schedule rounds --single-process' '--schedule steps --threads 1' '--schedule rounds --threads 1')
for _ in $(seq "$runs"); do
    "$folder/lines" ask 50000 "$folder/lines" echo >>"$folder/bare"
    for ((way = 0; way < ${#ways[@]}; way++)); do
        # shellcheck disable=SC2086
        calls ${ways[way]} >>"$folder/$way"
    done
done
bare=$(median "$folder/bare")
nproc | sed 's/$/ processors/'
printf '%-30s %8d calls a second\n' 'ping-pong over two pipes' "$bare"
for ((way = 0; way < ${#ways[@]}; way++)); do
    printf '%-30s %8d  %.2f\n' "${ways[way]}" "$(median "$folder/$way")" "$(echo "$(median "$folder/$way") $bare" | awk '{ print $1 / $2 }')"
done | tee "$folder/told"
awk 'NR <= 2 && $NF < 0.5 { exit 1 }' "$folder/told" && [ ! -e "$folder/failed" ]
