#!/usr/bin/env bash
# Counts with valgrind how many instructions `tmwatch` executes for an event: `judge` for each kind of run of measure/traces.c and each set of
# options below, and `show` for `values`, a window of one transaction that writes another value of 64 bits each time.
#
#   tests/speed.sh [PROGRAM]
#   tests/speed.sh write [PROGRAM]
#
# A test case has the count and its limit, and fails above the limit. `write` rewrites the table of limits in this script: the present
# counts, plus 3 %. The count of a run is that of its first 60,000 events minus that of its first 20,000, divided by the number of events in
# between, so that start-up does not count. Nothing may be wrong with a run. PROGRAM is the built program, or another one with the options
# of `judge`.
#
# A count is reproducible, except for some ten instructions in all, because load, address layout and environment affect only start-up. It
# depends on the variants of memcpy and memset that the C library chooses for the processor, so this script selects those for any x86-64.
# Another version of the C library may change it. The last line is 'N passed, M failed', and the exit status is 1 if a test case failed.
# Without valgrind or a C compiler, no test case runs: a line says how many there are, and the status is 0.
# Environment: CC (cc), KINDS (all of the table), JOBS (2, the number of runs at once).
set -eu
# shellcheck source=tests/common.sh
. "$(dirname "${BASH_SOURCE[0]}")/common.sh"
export GLIBC_TUNABLES=glibc.cpu.hwcaps=-AVX2,-AVX_Fast_Unaligned_Load,-ERMS,-AVX512VL,-AVX512BW

# The most instructions an event, for each kind of run, by each of these command lines. A run of `doomed` is strictly serializable alone.
words=('judge' 'judge --criterion strict' 'judge --criterion both' 'judge --first' 'judge --summary' 'show')
limits='
serial    82.3 82.4 86.5 90.4 106.1 -
calm      147.3 147.8 165.3 155.4 171.2 -
wide      137.5 136.5 156.0 145.5 160.4 -
long      79.6 79.6 83.7 87.8 93.6 -
blind     298.2 298.4 323.8 306.2 325.9 -
bench     87.4 87.4 91.4 95.4 108.4 -
outcomes  246.7 246.7 250.4 254.7 267.7 -
doomed    - 130.6 - - - -
values    - - - - - 3382.2
'

mode=check
[ "${1:-}" != write ] || { mode='write' && shift; }
program=${1:-$program}
rows=$(grep -o ' [0-9.]\+' <<<"$limits" | wc -l)
for tool in valgrind "${CC:-cc}"; do
    if ! has "$tool" "tests/speed.sh, instructions an event, $rows rows not run"; then
        end_rows
        exit
    fi
done
[ -x "$program" ] || "$top/build"
"${CC:-cc}" -O2 -o "$folder/traces" "$top/measure/traces.c"

# Counts the instructions of a run on so many events of a kind, by the words' number. Nothing may be wrong with it.
instructions() {
    local name=$folder/$1.$2.$3 given
    read -r -a given <<<"${words[$3]}"
    if valgrind --tool=callgrind --callgrind-out-file=/dev/null "$program" "${given[@]}" <"$folder/$1.$2" >"$name" 2>"$name.told"; then
        sed -n 's/.*Collected : //p' "$name.told" >"$name.count"
    fi
}

# Counts those of an event, of a kind by the words' number, into a file of their names. There is none if something is wrong with a run.
count_events() {
    local few many
    instructions "$1" few "$2"
    instructions "$1" many "$2"
    few=$(cat "$folder/$1.few.$2.count" || true) many=$(cat "$folder/$1.many.$2.count" || true)
    [ -z "$few" ] || [ -z "$many" ] ||
        awk -v few="$few" -v many="$many" -v events=$(($(wc -l <"$folder/$1.many") - $(wc -l <"$folder/$1.few"))) \
            'BEGIN { printf "%.2f\n", (many - few) / events }' >"$folder/$1.$2.counted"
}

# Writes a trace of a kind, of so many events.
write_trace() {
    if [ "$1" != values ]; then
        "$folder/traces" "$1" 1 "$2"
        return
    fi
    awk -v events="$2" 'BEGIN {
        print "opacity-trace 1 8"
        for (n = 0; n < events; n += 2) printf "0 W %d %d%09d\n0 K\n", n % 8, 1000000000 + n * 48271 % 2147483647, n
    }'
}

# The limit of a kind by the words' number: `-` if that run isn't one.
limit_of() {
    awk -v kind="$1" -v column=$(($2 + 2)) '$1 == kind { print $column }' <<<"$limits"
}

kinds=${KINDS:-$(awk 'NF { print $1 }' <<<"$limits")}
for kind in $kinds; do
    write_trace "$kind" 20000 >"$folder/$kind.few"
    write_trace "$kind" 60000 >"$folder/$kind.many"
    for number in "${!words[@]}"; do
        [ "$(limit_of "$kind" "$number")" != - ] || continue
        while [ "$(jobs -pr | wc -l)" -ge "${JOBS:-2}" ]; do wait -n || true; done
        count_events "$kind" "$number" &
    done
done
wait

printf '%-8s %-26s %12s %8s  %s\n' kind words instructions limit row
for kind in $kinds; do
    written=$(printf '%-9s' "$kind")
    for number in "${!words[@]}"; do
        limit=$(limit_of "$kind" "$number")
        if [ "$limit" = - ]; then
            written+=' -' && continue
        fi
        counted=$(cat "$folder/$kind.$number.counted" 2>/dev/null || echo 'no verdict')
        [ $mode = check ] || limit=$(awk -v counted="$counted" 'BEGIN { printf "%.1f", 1.03 * counted }')
        written+=" $limit"
        row '%-8s %-26s %12s %8s' "$kind" "${words[number]}" "$counted" "$limit" \
            "$(awk -v counted="${counted%no verdict}" -v limit="$limit" 'BEGIN { print (counted > 0 && counted <= limit + 0 ? "passed" : "FAILED") }')"
    done
    [ $mode = check ] || sed -i "s/^$kind  .*/$written/" "${BASH_SOURCE[0]}"
done
end_rows
