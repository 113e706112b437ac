#!/usr/bin/env bash
# Runs writers that stop at any point, within a transaction, at a full ring, and when its places are used up, while a watch judges their
# events: 10,000 runs in which all allocations succeed, and 10,000 each in which some fail at random.
#
#   tests/long/stops.sh
#
# The head of tests/long/stops.c describes how each run must end. tests/long/chance.c is loaded with it, and makes one allocation in 50, in
# 20, in 10 and in 5 fail; calls that failed are repeated. A line for each 10,000 runs has their results. The last line is 'N passed, M
# failed', for these lines. The exit status is 1 if one failed.
# Environment: CC (cc), BUILT (tests/common.sh), LIMIT (300, the seconds that 10,000 runs may take), SEED (1).
set -eu
ulimit -c 0
# shellcheck source=tests/common.sh
. "$(dirname "${BASH_SOURCE[0]}")/../common.sh"
use_library
"${CC:-cc}" -O2 -shared -fPIC -o "$folder/chance.so" "$top/tests/long/chance.c"
"${CC:-cc}" -std=c11 -Wall -Wextra -pedantic -Werror -O2 -pthread "-I$built/include" -o "$folder/stops" "$top/tests/long/stops.c" \
    "$built/lib/libtmwatch.a"
for one_in in 0 50 20 10 5; do
    status=0
    timeout "${LIMIT:-300}" env LD_PRELOAD="$folder/chance.so" ONE_IN="$one_in" SEED="${SEED:-1}" \
        "$folder/stops" 10000 >"$folder/output" 2>&1 </dev/null || status=$?
    check [ "$status" -eq 0 ] || true
    echo "one in $one_in: status $status, $(tr '\n' ' ' <"$folder/output")"
done
end_rows
