#!/usr/bin/env bash
# Runs each memory of tests/c repeatedly with --schedule steps and one seed: on one, two and four processors, and next to busy loops. All
# runs must have the same trace, and no stall. A memory whose mutex the bench does not see must have stalls.
#
#   tests/long/repeats.sh
#
# A test case for each memory and each number of processors says how many runs, traces and stalls there were. The last line is 'N passed, M
# failed', and the exit status is 1 if a test case failed.
# Environment: BUILT (tests/common.sh), RUNS (20), ROUNDS (2000), CC (cc), CXX (c++).
set -eu
# shellcheck source=tests/common.sh
. "$(dirname "${BASH_SOURCE[0]}")/../common.sh"
runs=${RUNS:-20} rounds=${ROUNDS:-2000}
use_library
flags=(-O2 -Wall -Wextra -pthread -DTMWATCH_PAUSES "-I$top/include")
build_bench "${CC:-cc}" -std=c11 "${flags[@]}"
link=("$folder/lib/libtmwatch_bench.a" "$built/lib/libtmwatch.a")

# Runs a memory again and again: its name, the processors, and further words.
repeat() {
    local traces stalls=0 passes=passed
    : >"$folder/sums"
    for _ in $(seq "$runs"); do
        taskset -c "$2" timeout 120 "$folder/$1" --schedule steps --rounds "$rounds" --trace "$folder/trace" "${@:3}" \
            >"$folder/output" 2>"$folder/told" || [ $? -eq 1 ]
        sha256sum <"$folder/trace" >>"$folder/sums"
        stalls=$((stalls + $(sed -n 's/.*"stalls":\([0-9]*\),.*/\1/p' "$folder/output")))
    done
    traces=$(sort -u "$folder/sums" | wc -l)
    [ "$traces $stalls" = '1 0' ] || passes=FAILED
    row '%-14s %-10s %5d %7d %8d' "$1" "$beside$2" "$runs" "$traces" "$stalls" $passes
}

"${CXX:-c++}" -std=c++17 "${flags[@]}" -DFAULT=NONE -o "$folder/class" "$top/tests/c/bench_class.cpp" "${link[@]}" "$waits"
"${CXX:-c++}" -std=c++17 "${flags[@]}" -o "$folder/lock" "$top/tests/c/bench_lock.cpp" "${link[@]}" "$waits"
names=(class lock norec norec_READS)
"${CC:-cc}" -std=c11 "${flags[@]}" -o "$folder/norec" "$top/examples/c/norec.c" "${link[@]}" "$waits"
"${CC:-cc}" -std=c11 "${flags[@]}" -DFAULT=READS -o "$folder/norec_READS" "$top/examples/c/norec.c" "${link[@]}" "$waits"
for name in tl2 versions undo locks readers sequence jumping stuck; do
    "${CC:-cc}" -std=c11 "${flags[@]}" -DFAULT=NONE -o "$folder/$name" "$top/tests/c/bench_$name.c" "${link[@]}" "$waits"
    names+=("$name")
done
printf '%-14s %-10s %5s %7s %8s\n' memory processors runs traces stalls
beside=''
for name in "${names[@]}"; do
    for processors in 0 0,1 0-3; do
        repeat "$name" $processors
    done
done
beside='busy '
loops=()
for _ in 1 2 3 4; do
    (while :; do :; done) &
    loops+=($!)
done
trap 'kill "${loops[@]}"; rm -rf "$folder"' EXIT
for name in "${names[@]}"; do
    repeat "$name" 0-3
done
kill "${loops[@]}"
trap 'rm -rf "$folder"' EXIT
"${CC:-cc}" -std=c11 "${flags[@]}" -DFAULT=NONE -o "$folder/unseen" "$top/tests/c/bench_stuck.c" "${link[@]}"
ends 'a mutex that is not seen' 0 "$folder/unseen" --schedule steps --rounds 50
has_told 'a mutex that is not seen: stalls' '"stalls":[1-9]'
end_rows
