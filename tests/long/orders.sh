#!/usr/bin/env bash
# Runs the memories of tests/orders/memories with --orders c++, each with its weakest correct orders and with each one that is too weak; and
# the model by itself, for longer than tests/orders.sh does.
#
#   tests/long/orders.sh
#
# A test case for each line of tests/orders/memories/variants prints its required result, the memory and its options for the compiler; in
# how many seeds it was violated or had a delayed load, and was stuck; after how many rounds it was violated (the least, the median and the
# greatest number); and which order is weaker. A correct one passes if no seed is violated or stuck, or has a delayed load or a stall; a
# wrong one if nine in ten are violated, a stuck one if nine in ten are stuck, a delayed one if nine in ten have a delayed load. Those of
# rare ones are only for information. The last line is 'N passed, M failed', and the exit status is 1 if one failed.
# Environment: BUILT (tests/common.sh), SEEDS (20), ROUNDS (20000), ORDERS (c++; sequential and x86 are only for information), ONLY (a
# pattern: the test cases that match it), CC (cc), RUNS (1000000 random runs of the model, and a fiftieth of that in small programs; 0:
# none).
set -eu
# shellcheck source=tests/common.sh
. "$(dirname "${BASH_SOURCE[0]}")/../common.sh"
seeds=${SEEDS:-20} rounds=${ROUNDS:-20000} orders=${ORDERS:-c++} only=${ONLY:-.} cc=${CC:-cc} runs=${RUNS:-1000000}
use_library
build_bench "$cc" -std=c11 -O2 -pthread "-I$top/include"
link=("$waits" "$blocks" "$folder/lib/libtmwatch_steps.a" "$folder/lib/libtmwatch_bench.a" "$built/lib/libtmwatch.a")

# The least, the median and the most of what stands in $folder/found.
spread() {
    sort -n "$folder/found" | awk '{ it[NR] = $1 } END { print NR ? it[1] "/" it[int((NR + 1) / 2)] "/" it[NR] : "-" }'
}

# Whether the seeds came out as such a memory's have to.
is_wanted() {
    case $1 in
    right) [ $((violated + delayed + stuck + stalled)) -eq 0 ] ;;
    delayed) [ $((10 * delayed)) -ge $((9 * seeds)) ] ;;
    wrong) [ $((10 * violated)) -ge $((9 * seeds)) ] ;;
    stuck) [ $((10 * (violated + stuck))) -ge $((9 * seeds)) ] ;;
    esac
}

# Runs each seed of a row of the variants, by its fields.
run_seeds() {
    local kind=$1 words seed status violated=0 delayed=0 stuck=0 stalled=0
    read -r -a words <<<"$3"
    "$cc" -std=c11 -O2 -g -fsanitize=thread -Wno-tsan "-I$top/include" "${words[@]}" -c -o "$folder/memory.o" \
        "$top/tests/orders/memories/$2.c"
    "$cc" -pthread -o "$folder/memory" "$folder/memory.o" "${link[@]}"
    : >"$folder/found"
    for seed in $(seq "$seeds"); do
        status=0
        "$folder/memory" --schedule steps --orders "$orders" --rounds "$rounds" --seed "$seed" --timeout 3 >"$folder/output" 2>&1 ||
            status=$?
        violated=$((violated + (status == 1))) stuck=$((stuck + (status == 4)))
        ! grep -q '"stalls":[1-9]' "$folder/output" || stalled=$((stalled + 1))
        ! grep -q '"delayed":' "$folder/output" || delayed=$((delayed + 1))
        [ "$status" -ne 1 ] || sed -n 's/.*"rounds":\([0-9]*\).*/\1/p' "$folder/output" >>"$folder/found"
    done
    local passes=told
    [ "$orders" != c++ ] || case $kind in
        right | wrong | stuck | delayed) passes=passed && is_wanted "$kind" || passes=FAILED ;;
    esac
    row '%-7s %-9s %-24s %3d %3d %18s  %-44s' "$kind" "$2" "$3" $((violated + delayed)) "$stuck" "$(spread)" "$4" $passes
}

printf '%-7s %-9s %-24s %3s %3s %18s\n' kind memory words of$seeds stk rounds
while IFS='|' read -r kind file words text; do
    case $kind in
    right | wrong | stuck | rare | delayed)
        if [[ "$kind|$file|$words|$text" =~ $only ]]; then run_seeds "$kind" "$file" "$words" "$text"; fi
        ;;
    esac
done <"$top/tests/orders/memories/variants"
if [ "$runs" -gt 0 ]; then
    for test in random exact; do
        "$cc" -std=c11 -O2 "-I$top/include" -o "$folder/$test" "$top/tests/orders/$test.c"
    done
    last=true
    ends 'random runs' 0 "$folder/random" "$runs" 11
    ends 'all executions of small programs' 0 "$folder/exact" $((runs / 50)) 8 5
fi
end_rows
