#!/usr/bin/env bash
# Times `tmwatch drive` on a workload of eight scripts, with the trace and without it.
#
#   measure/drive.sh
#
# Each script has 1,000 transactions of 13 calls: reads, writes and a commit. The order has 100,000 entries. In it, two threads at a time
# run a transaction each, call by call in turn, over registers of their own, so none aborts, and no window has more than two transactions. A
# line for each of the two runs has: whether the trace was requested, the seconds (the best of RUNS runs), calls a second, the peak memory
# in KiB, and the report. A last line has the seconds for reading the workload, measured with one whose order is empty. If PEER is set to
# another program with the same output, its seconds come next to ours. The exit status is 1 if its output differs, or a run is not opaque so
# far.
# Environment: PEER, RUNS (5), MEMORY (norec).
set -eu
# shellcheck source=tests/common.sh
. "$(dirname "${BASH_SOURCE[0]}")/../tests/common.sh"
memory=${MEMORY:-norec} RUNS=${RUNS:-5}
"$top/build"

# A workload whose order has this many entries.
workload() {
    awk -v entries="$1" 'BEGIN {
        printf "{\"registers\":8,\"scripts\":["
        for (thread = 0; thread < 8; thread++) {
            printf "%s[", thread ? "," : ""
            for (transaction = 0; transaction < 1000; transaction++) {
                printf "%s[", transaction ? "," : ""
                for (call = 0; call < 12; call++) {
                    register = (thread % 2) * 4 + (thread + transaction + call) % 4
                    if (call % 3 == 2) printf "\"W %d %d\",", register, transaction * 16 + call
                    else printf "\"R %d\",", register
                }
                printf "\"T\"]"
            }
            printf "]"
        }
        printf "],\"order\":["
        for (entry = 0; entry < entries; entry++)
            printf "%s%d", entry ? "," : "", int(entry / 26) % 4 * 2 + entry % 2
        print "]}"
    }'
}

workload 100000 >"$folder/whole"
workload 0 >"$folder/read"
wrong=0
printf '%-10s %9s %9s %10s %8s  %s\n' run seconds peer calls/s KiB report
for words in '' '--trace'; do
    input=$folder/whole
    read -r ours _ kib status <<<"$(measure "$program" drive --memory "$memory" $words)"
    [ "$status" = 0 ] || wrong=1
    mv "$folder/output" "$folder/ours"
    theirs=0
    if [ -n "${PEER:-}" ]; then
        read -r theirs _ <<<"$(measure "$PEER" drive --memory "$memory" $words)"
        cmp -s "$folder/ours" "$folder/output" || wrong=1
    fi
    awk -v run="${words:---}" -v ours="$ours" -v theirs="$theirs" -v kib="$kib" -v report="$(tail -n 1 "$folder/ours")" \
        'BEGIN { printf "%-10s %9.4f %9.4f %10d %8d  %s\n", run, ours, theirs, 100000 / ours, kib, report }'
done
input=$folder/read
read -r seconds _ kib status <<<"$(measure "$program" drive --memory "$memory")"
[ "$status" = 0 ] || wrong=1
printf '%-10s %9.4f %9s %10s %8d  %s\n' reading "$seconds" - - "$kib" "$(tail -n 1 "$folder/output")"
exit $wrong
