#!/usr/bin/env bash
# Soaks `tmwatch bench`: many runs of short workloads in small rings, of as many cells as there are scripts, up to 8.
#
#   tests/long/soak.sh [RUNS]
#
# Each of RUNS (10000) must end within LIMIT seconds, without a fault and not malformed. Its trace must be judged as its report says. If a
# thread's end is "done", the trace must contain its whole script: as many calls that begin a transaction as the script has transactions,
# and as many answers as calls. The last line is 'N passed, M failed'. The exit status is 1 if a run failed.
# Environment: LIMIT (20).
set -eu
# shellcheck source=tests/common.sh
. "$(dirname "${BASH_SOURCE[0]}")/../common.sh"
runs=${1:-10000}
"$top/build"

# A workload of so many scripts, from a seed: one to three transactions each, of one to three operations and a request.
workload() {
    awk -v scripts="$1" -v seed="$2" 'BEGIN {
        srand(seed)
        printf "{\"registers\":2,\"scripts\":["
        for (thread = 0; thread < scripts; thread++) {
            printf "%s[", thread ? "," : ""
            count = 1 + int(rand() * 3)
            for (transaction = 0; transaction < count; transaction++) {
                printf "%s[", transaction ? "," : ""
                calls = 1 + int(rand() * 3)
                for (call = 0; call < calls; call++) {
                    which = int(rand() * 3); register = int(rand() * 2)
                    if (which == 0) printf "\"R %d\",", register
                    else if (which == 1) printf "\"W %d %d\",", register, 1 + int(rand() * 100)
                    else printf "\"N %d %d\",", register, 1 + int(rand() * 3)
                }
                printf "\"%s\"]", rand() < 0.9 ? "T" : "X"
            }
            printf "]"
        }
        print "],\"order\":[]}"
    }'
}

# Whether a run's trace has all that its ends say, with which transactions' numbers by thread.
is_whole() {
    awk -v ends="$1" -v counts="$2" '
        NR == 1 { next }
        $2 ~ /^[RWNTX]$/ { calls[$1]++; next }
        { answers[$1]++; if ($2 == "C" || $2 == "A") over[$1]++ }
        END {
            threads = split(counts, count, " "); split(ends, end, " ")
            for (i = 1; i <= threads; i++)
                if (end[i] == "done" && (calls[i - 1] != answers[i - 1] || over[i - 1] != count[i])) exit 1
        }' "$folder/trace"
}

fail() {
    failed=$((failed + 1))
    echo "soak.sh: run $run: $1 (memory $memory, $scripts scripts, $cells cells)" >&2
    cp "$folder/workload" "/tmp/soak.$run.json"
}
for run in $(seq "$runs"); do
    scripts=$((1 + run % 8))
    cells=$((scripts + run / 8 % (9 - scripts)))
    memory=$(echo norec lock torn | cut -d ' ' -f $((1 + run % 3)))
    [ $((run % 20)) -ne 1 ] && [ -s "$folder/workload.$scripts" ] || workload "$scripts" "$run" >"$folder/workload.$scripts"
    cp "$folder/workload.$scripts" "$folder/workload"
    status=0
    timeout "${LIMIT:-20}" "$program" bench --memory "$memory" --ring "$cells" --trace <"$folder/workload" >"$folder/output" || status=$?
    if [ "$status" -gt 2 ]; then fail "exit status $status: $(tail -n 1 "$folder/output")" && continue; fi
    tail -n 1 "$folder/output" >"$folder/ends"
    tail -n 2 "$folder/output" | head -n 1 >"$folder/report"
    head -n -2 "$folder/output" >"$folder/trace"
    judged=0
    "$program" judge <"$folder/trace" >"$folder/judged" || judged=$?
    if [ "$judged" -ne "$status" ] || ! cmp -s "$folder/judged" "$folder/report"; then fail "the trace is judged otherwise" && continue; fi
    ends=$(tr -d '{}[]"' <"$folder/ends" | sed 's/^ends://; s/,/ /g')
    counts=$(awk '{ sub(/.*"scripts":\[/, ""); sub(/\],"order".*/, ""); n = split($0, s, /\]\],?/); for (i = 1; i < n; i++) printf "%d ", gsub(/\[\[?"/, "", s[i]) }' "$folder/workload")
    if ! is_whole "$ends" "$counts"; then fail "events are missing: ends $ends, transactions $counts" && continue; fi
    passed=$((passed + 1))
done
end_rows
