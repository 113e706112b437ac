#!/usr/bin/env bash
# Shows that a test notices a single lock around ring and monitor: in a copy of the bench, each worker holds such a lock while it works, and
# the leader while it judges. No clause says that threads work concurrently, so the copy is proved; but its tests of two concurrent workers
# must fail, the first one with an answer. Run it when the workers, the leader or these tests change.
#
#   tests/long/locked.sh
#
# It proves the crates below test_memories, which takes some half an hour of processor time. The last line is 'N passed, M failed', and the
# exit status is 1 if a test case failed.
set -eu
# shellcheck source=tests/common.sh
. "$(dirname "${BASH_SOURCE[0]}")/../common.sh"
cp "$top/crates.txt" "$top/HANDLES" "$folder/"
tar c -C "$top" --exclude=must-fail crates | tar x -C "$folder"

# Replaces a line of a file, which has to stand there once.
replace() {
    local file=$folder/crates/$1
    [ "$(grep -cFx "$2" "$file")" -eq 1 ]
    awk -v old="$2" -v new="$3" '$0 == old { $0 = new } { print }' "$file" >"$folder/replaced"
    cp "$folder/replaced" "$file"
}

replace tmw_workers/src/orders.rt 'use std::sync::atomic::{AtomicBool, Ordering};' 'use std::sync::Mutex; use std::sync::atomic::{AtomicBool, Ordering};'
replace tmw_workers/src/orders.rt '    over: AtomicBool,' '    over: AtomicBool, pub lock: Mutex<()>,'
replace tmw_workers/src/orders.rt '            over: AtomicBool::new(false),' '            over: AtomicBool::new(false), lock: Mutex::new(()),'
replace tmw_workers/src/worker.rt '        let stop = work::<DirectCalls>(' '        let held = stage.orders.lock.lock(rt); let stop = work::<DirectCalls>('
replace tmw_workers/src/worker.rt '        if let Some(_) = stop {' '        drop(held); if let Some(_) = stop {'
replace tmw_bench/src/hear_all.rt '        let pumped = pump.pump(ring, TURN)?;' \
    '        let held = orders.lock.lock(rt); let pumped = pump.pump(ring, TURN)?; drop(held);'

# The one test fails by what it asserts. The other waits in vain, and may pass the kit's limit of a minute.
fails() {
    ! (cd "$folder/crates/test_memories" && rt test) >"$folder/tested" 2>&1
    cat "$folder/tested"
    grep -A 1 '::threads_work_at_once \.\.\. FAILED$' "$folder/tested" | grep -q 'assertion failed'
    grep -q '::the_log_has_the_order_of_calls_and_answers \.\.\. FAILED$' "$folder/tested"
}
ends 'one lock round ring and monitor' 0 fails
end_rows
