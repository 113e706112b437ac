#!/usr/bin/env bash
# Watches transactions of GCC's libitm in their own process, with include/tmwatch/watched.h: its methods, and a small memory instead,
# complete and with a part left out.
#
#   tests/long/libitm_watched.sh
#
# A test case says how often each verdict and exit status occurred in RUNS runs. The last line is 'N passed, M failed'. The exit status is 1
# if a test case had others than it must have, and 2 if gcc cannot compile transactions.
# Environment: RUNS (5), ROUNDS (1000), CC (gcc), BUILT (tests/common.sh). The small memory needs x86-64.
set -eu
# shellcheck source=tests/common.sh
. "$(dirname "${BASH_SOURCE[0]}")/../common.sh"
runs=${RUNS:-5} rounds=${ROUNDS:-1000}
has_transactions "${CC:-gcc}" libitm_watched.sh || exit 2
use_library
compile=("${CC:-gcc}" -std=gnu11 -O2 -Wall -Wextra -pthread "-I$built/include" -include tmwatch/watched.h)
build_libitm "$built/lib/libtmwatch.a"

declare -A statuses=(['opaque so far']=0 [violated]=1 [undecided]=2 [malformed]=3)

# Watches the runs of a row: its name, the verdict that each run has to have, the method of libitm, the program, and where it records.
watch() {
    local name=$1 wanted=$2 method=$3 program=$4 placing=$5 passes=passed seed status
    : >"$folder/verdicts"
    for seed in $(seq "$runs"); do
        status=0
        ITM_DEFAULT_METHOD=$method timeout 120 "$folder/$program" "$placing" "$rounds" "$seed" >"$folder/output" 2>/dev/null || status=$?
        echo "$(tail -n 1 "$folder/output"), status $status" >>"$folder/verdicts"
    done
    [ "$(grep -c "^$wanted at .*, status ${statuses[$wanted]}\$" "$folder/verdicts")" -eq "$runs" ] || passes=FAILED
    row '%-32s %s' "$name" "$(sed 's/ at .*,/,/' "$folder/verdicts" | sort | uniq -c | tr -s ' \n' ' ')" $passes
}

for method in serialirr serial gl_wt ml_wt; do
    watch "$method" 'opaque so far' $method libitm right
done
watch 'gl_wt, T behind the block' violated gl_wt libitm late-request
watch 'ml_wt, C inside the block' violated ml_wt libitm early-commit
watch 'ml_wt, no A at a restart' malformed ml_wt libitm no-abort
watch 'little memory' 'opaque so far' '' NONE right
watch 'no validation of reads' violated '' READS right
watch 'no validation at commit' violated '' COMMIT right
watch 'writes in place' violated '' PLACE right
end_rows
