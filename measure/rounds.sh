#!/usr/bin/env bash
# Measures the bench in C with 1, 2 and 4 jobs: how many rounds a second correct memories make, and how many seconds it takes to find each
# of ten faults.
#
#   measure/rounds.sh
#
# A line for each memory has a column for each number of jobs: the rounds a second of a run of EACH seconds, or the seconds until the fault
# is found, over SEEDS seeds. `all` has the sums, and the ratio of each number of jobs to one job. The load of the machine comes first. The
# exit status is 1 if a correct memory is not opaque so far, or a fault is not found within LIMIT seconds; otherwise 0.
# Environment: EACH (5), SEEDS (3), LIMIT (300), JOBS (1 2 4), FAULTS, CC (cc), BUILT (tests/common.sh).
set -eu
# shellcheck source=tests/common.sh
. "$(dirname "${BASH_SOURCE[0]}")/../tests/common.sh"
use_library
flags=(-std=c11 -O2 -pthread -DTMWATCH_PAUSES "-I$top/include")
build_bench "${CC:-cc}" "${flags[@]}"
read -r -a numbers <<<"${JOBS:-1 2 4}"
read -r -a faults <<<"${FAULTS:-stripes:EXTENSION stripes:NEIGHBOUR tiny:INCARNATION tiny:LATE tiny:EXTENSION tiny:SHORTCUT versions:RECYCLED \
versions:AGAIN undo:CLOCK sequence:WRAP}"
each=${EACH:-5}

compiled() {
    "${CC:-cc}" "${flags[@]}" "-DFAULT=$2" -o "$folder/$1" "$top/tests/c/bench_$1.c" "$folder/lib/libtmwatch_bench.a" "$built/lib/libtmwatch.a"
}

# The rounds a second of a right memory by so many jobs.
# shellcheck disable=SC2317 # (`line` calls it)
rate() {
    local began=$EPOCHREALTIME
    "$folder/$1" --jobs "$2" --seconds "$each" >"$folder/printed" 2>"$folder/told" || touch "$folder/failed"
    awk -v seconds="$(since "$began")" '{ printf "%.0f\n", $1 / seconds }' < <(sed -n 's/.*"rounds":\([0-9]*\).*/\1/p' "$folder/printed")
}

# The seconds until a fault is found by so many jobs, by all seeds.
# shellcheck disable=SC2317
seconds() {
    local began=$EPOCHREALTIME seed
    for seed in $(seq "${SEEDS:-3}"); do
        ! "$folder/$1" --jobs "$2" --seconds "${LIMIT:-300}" --seed "$seed" >"$folder/printed" 2>"$folder/told" || touch "$folder/failed"
    done
    since "$began"
}

# A line of a kind: its name, and what it has by each number of jobs.
line() {
    local number values=()
    for number in "${numbers[@]}"; do
        values+=("$("$2" "$3" "$number")")
    done
    printf '%-20s' "$1"
    printf ' %10s' "${values[@]}"
    echo
    echo "${values[*]}" >>"$folder/$2"
}
all() {
    awk -v name="$2" '{ for (i = 1; i <= NF; i++) sum[i] += $i }
        END { printf "%-20s", name; for (i = 1; i <= NF; i++) printf " %10.2f", sum[i]; for (i = 2; i <= NF; i++) printf "  x%.2f", sum[i] / sum[1]; print "" }' \
        "$folder/$1"
}

echo "load $(cut -d' ' -f1-3 /proc/loadavg), $(nproc) processors"
printf '%-20s' jobs
printf ' %10s' "${numbers[@]}"
echo
for name in tl2 versions undo stripes; do
    compiled "$name" NONE
    line "$name" rate "$name"
done
all rate 'rounds a second'
for fault in "${faults[@]}"; do
    compiled "${fault%:*}" "${fault#*:}"
    line "$fault" seconds "${fault%:*}"
done
all seconds seconds
[ ! -e "$folder/failed" ]
