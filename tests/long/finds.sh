#!/usr/bin/env bash
# Lets four jobs of the bench in C find violations, and shrinks these. The options of each deterministic reproducer must reproduce it byte
# for byte in one process: the trace, its steps and its event.
#
#   tests/long/finds.sh
#
# A test case for each way says how many violations there were, how many of them were deterministic, and how many of these were not
# reproduced; and the median length of their traces. The last line is 'N passed, M failed', and the exit status is 1 if a test case failed.
# Environment: SEEDS (10, of each fault in each way), LIMIT (60, the seconds of a search), FAULTS, CC (cc), BUILT (tests/common.sh).
set -eu
# shellcheck source=tests/common.sh
. "$(dirname "${BASH_SOURCE[0]}")/../common.sh"
use_library
flags=(-std=c11 -O2 -pthread -DTMWATCH_PAUSES "-I$top/include")
build_bench "${CC:-cc}" "${flags[@]}"
read -r -a faults <<<"${FAULTS:-versions:AGAIN versions:CLOCK versions:DROPPED tl2:LOCKED tl2:BEFORE tl2:AFTER undo:UNLOCK undo:VERSION \
locks:EARLY stripes:NEIGHBOUR}"
for fault in "${faults[@]}"; do
    "${CC:-cc}" "${flags[@]}" "-DFAULT=${fault#*:}" -o "$folder/$fault" "$top/tests/c/bench_${fault%:*}.c" "$folder/lib/libtmwatch_bench.a" \
        "$built/lib/libtmwatch.a"
done

event() {
    sed -n 's/.*: add --event \([0-9]*\), then.*/\1/p' "$1"
}
# Whether the violation of $folder/one is reproduced, in $folder/two.
repeats() {
    local words
    read -r -a words < <(sed -n 's/^{"deterministic":true,"reproduce":"\(.*\)"}$/\1/p' "$folder/one.told")
    rm -f "$folder/two.steps"
    ! "$folder/$1" "${words[@]}" --trace "$folder/two" >"$folder/two.told" 2>&1 || return 1
    cmp -s "$folder/one" "$folder/two" && cmp -s "$folder/one.steps" "$folder/two.steps" && [ "$(event "$folder/one.told")" = "$(event "$folder/two.told")" ]
}
median() {
    sort -n "$1" | awk '{ number[NR] = $1 } END { print number[int((NR + 1) / 2)] }'
}
# A way: its name, and its words.
finds() {
    local seed fault found=0 certain=0 others=0 wrong=0
    : >"$folder/events"
    for fault in "${faults[@]}"; do
        for seed in $(seq "${SEEDS:-10}"); do
            rm -f "$folder/one.steps"
            ! "$folder/$fault" --seed "$seed" --seconds "${LIMIT:-60}" --trace "$folder/one" "${@:2}" >"$folder/one.told" 2>&1 || continue
            found=$((found + 1))
            grep -q '"deterministic":true' "$folder/one.told" || continue
            certain=$((certain + 1))
            ! grep -q -- '--seed [1-9]0000' "$folder/one.told" || others=$((others + 1))
            wc -l <"$folder/one" >>"$folder/events"
            repeats "$fault" || { wrong=$((wrong + 1)) && echo "$fault, seed $seed: another run by $(grep '"reproduce"' "$folder/one.told")"; }
        done
    done
    local passes=passed
    [ $wrong -eq 0 ] && [ $certain -gt 0 ] || passes=FAILED
    row '%-8s %d finds, %d certain, %d of another job, %d differ, %s lines of a trace' "$1" $found $certain $others $wrong \
        "$(median "$folder/events")" $passes
}
finds jobs --jobs 4
finds smaller --jobs 4 --shrink
end_rows
