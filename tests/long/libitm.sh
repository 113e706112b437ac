#!/usr/bin/env bash
# Builds examples/libitm and judges its runs: transactions of GCC's libitm with each of its methods, and the same transactions on a small
# memory instead, complete and with a part left out.
#
#   tests/long/libitm.sh
#
# The test cases are like those of tests/long/recorders.sh; after each method they say how many attempts were rolled back. The last line is
# 'N passed, M failed'. The exit status is 1 if a test case failed, and 2 if gcc cannot compile transactions.
# Environment: RUNS (5), ROUNDS (1000), CC (gcc). The small memory needs x86-64.
set -eu
# shellcheck source=tests/common.sh
. "$(dirname "${BASH_SOURCE[0]}")/../common.sh"
runs=${RUNS:-5} rounds=${ROUNDS:-1000}
has_transactions "${CC:-gcc}" libitm.sh || exit 2
. "$top/tests/long/recorded.sh"
compile=("${CC:-gcc}" -std=gnu11 -O2 -Wall -Wextra -pthread "-I$top/include")
build_libitm
"${compile[@]}" -DATTEMPTS=1000 -c -o "$folder/unbounded.o" "$top/examples/libitm/run.c"
"${compile[@]}" -o "$folder/unbounded" "$folder/unbounded.o" "$folder/transaction.o" -litm

# A row of one of libitm's methods: the method, the program, and where it records.
method_row() {
    local name=$1 wanted=$2 method=$3 program=$4 placing=$5
    : >"$folder/told"
    record "$name" "$wanted" any env ITM_DEFAULT_METHOD="$method" timeout 120 "$folder/$program" "$placing"
    awk '{ n += $1 } END { printf "    %d attempts were rolled back\n", n }' "$folder/told"
}

"${CC:-gcc}" --version | head -n 1
write_head
for method in serialirr serialirr_onwrite serial gl_wt ml_wt; do
    method_row "$method" opaque "$method" libitm right
done
for method in serialirr serial gl_wt ml_wt; do
    method_row "$method, T behind the block" violated "$method" libitm late-request
done
method_row 'ml_wt, C inside the block' violated ml_wt libitm early-commit
method_row 'gl_wt, no A at a restart' malformed gl_wt libitm no-abort
method_row 'ml_wt, no A at a restart' malformed ml_wt libitm no-abort
method_row 'ml_wt, restarts unbounded' undecided ml_wt unbounded right
record 'little memory' opaque opaque "$folder/NONE" right
record 'no validation of reads' violated opaque "$folder/READS" right
record 'no validation at commit' violated violated "$folder/COMMIT" right
record 'writes in place' violated violated "$folder/PLACE" right
end_rows
