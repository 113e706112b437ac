#!/usr/bin/env bash
# Measures the memory of a watch. It must not depend on the number of judged events, because the watch does not store them.
#
#   measure/forgets.sh [EVENTS..]
#
# measure/forgets.c judges EVENTS events of a running ring, by default 1,000,000 and then 100,000,000. A line has the number of events, the
# seconds in which they were recorded and judged, and the peak memory in KiB. The exit status is 1 if the peak for the last number is more
# than 64 KiB above that for the first.
# Environment: CC (cc), BUILT (tests/common.sh).
set -eu
# shellcheck source=tests/common.sh
. "$(dirname "${BASH_SOURCE[0]}")/../tests/common.sh"
[ $# -gt 0 ] || set -- 1000000 100000000
use_library
"${CC:-cc}" -std=c11 -O2 -Wall -Wextra "-I$built/include" -o "$folder/forgets" "$top/measure/forgets.c" "$built/lib/libtmwatch.a" -pthread
first=0 last=0
printf '%12s %8s %8s\n' events seconds KiB
for events in "$@"; do
    /usr/bin/time -q -o "$folder/time" -f '%e %M' "$folder/forgets" "$events"
    read -r seconds last <"$folder/time"
    [ "$first" -gt 0 ] || first=$last
    printf '%12d %8s %8d\n' $((events / 8 * 8)) "$seconds" "$last"
done
[ "$last" -le $((first + 64)) ]
