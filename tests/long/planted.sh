#!/usr/bin/env bash
# Mutates the unproved code with measure/plant.py. The quickest test of a file must kill its mutants, so this tests the tests.
#
#   tests/long/planted.sh [GROUP]..
#
# The GROUPs are bench, jobs, steps, model, rust, ci, import, recorder, recorders, lines and stores; by default all. A test case fails if
# more than one mutant in ten of a file survives; the survivors and tables precede it. The last line is 'N passed, M failed', and the exit
# status is 1 if a test case failed.
# Environment: BUILT (tests/common.sh), NUMBER (20, mutants of each file), SEED (1), JOBS (2), THEN (a command for mutants of the bench in C
# that would survive otherwise, for example tests/c_steps.sh).
set -eu
# shellcheck source=tests/common.sh
. "$(dirname "${BASH_SOURCE[0]}")/../common.sh"
use_library
BUILT=$(cd "$built" && pwd)
export BUILT TMWATCH_LIB=$BUILT/lib
unset CARGO_TARGET_DIR

# (a compiler refuses words of another type, as the tests compile)
compile='cc -std=c11 -O2 -Werror=incompatible-pointer-types -Werror=int-conversion -Iinclude'
# What c.sh runs of a bench that gets no memory, thread or place, and c_steps.sh of parts of the bench by themselves.
# shellcheck disable=SC2016
refused='linked="bench-c/tmwatch_bench.c bench-c/instrumented/waits.c $BUILT/lib/libtmwatch.a" &&
    cc -std=c11 -pthread -Iinclude -o refused tests/c/bench_memory.c $linked \
        -Wl,--wrap=malloc,--wrap=calloc,--wrap=realloc,--wrap=free,--wrap=pthread_create,--wrap=tmwatch_room && ./refused &&
    cc -std=c11 -pthread -Iinclude -o parts tests/c/bench_parts.c bench-c/instrumented/waits.c "$BUILT/lib/libtmwatch.a" && ./parts'
# The tests of a group notice its mistakes: its name, further words of plant.py and the files, `--` and the command.
planted() {
    local status=0
    "$top/measure/plant.py" --seed "${SEED:-1}" --number "${NUMBER:-20}" --jobs "${JOBS:-2}" "${@:2}" || status=$?
    row '%-10s %s' "$1" "$([ $status -eq 0 ] && echo passed || echo FAILED)"
}

plant_bench() {
    local files=(attempts draws legs main options plan quiet_look report run_leg schedule_permits schedule_rounds schedule_steps trace)
    files=("${files[@]/#/bench-c/}")
    # shellcheck disable=SC2016
    local then=$refused' && cc -std=c11 -pthread -Iinclude -o plans tests/c/bench_plans.c $linked && ./plans &&
        ./plans print 2>&1 | diff - tests/c/bench_plans.lines'
    # shellcheck disable=SC2016
    planted bench --build "$compile"' -c -o "$OBJECT" bench-c/tmwatch_bench.c' --then "$then${THEN:+ && $THEN}" \
        "${files[@]/%/.c}" -- tests/runs.sh
}
plant_jobs() {
    # shellcheck disable=SC2016
    planted jobs --build "$compile"' -c -o "$OBJECT" bench-c/tmwatch_bench.c' bench-c/{jobs,smaller}.c -- tests/jobs.sh
}
# (one object of all, so that a mistake that changes nothing is known by it)
plant_steps() {
    local files=(judge threads watchdog second_runs time instrumented_step instrumented/{accesses,accesses_16,block_frees,waits})
    files=("${files[@]/#/bench-c/}")
    # shellcheck disable=SC2016
    planted steps --build 'for it in bench-c/tmwatch_bench.c bench-c/instrumented/*.c; do
            '"$compile"' -c -o "$OBJECT.o" "$it" && cat "$OBJECT.o" || exit
        done >"$OBJECT"' --then "$refused && tests/c_waits.sh && tests/orders.sh" "${files[@]/%/.c}" -- tests/c_steps.sh
}
plant_model() {
    local files=(clocks delayed findings lines model places races sequence simulation)
    files=("${files[@]/#/bench-c/instrumented/orders/}")
    # shellcheck disable=SC2016
    planted model --build "$compile"' -c -o "$OBJECT" bench-c/instrumented/orders.c' --then 'tests/orders.sh --model' "${files[@]/%/.c}" -- sh -c '
        for test in told plain delayed litmus "exact 2000" "random 50000"; do
            cc -std=c11 -g -O1 -w -Iinclude -o model "tests/orders/${test%% *}.c" && ./model "${test#* }" || exit
        done
        mkdir -p few/bench-c few/tests && cp -r bench-c/instrumented few/bench-c && cp -r tests/orders tests/c few/tests &&
            sed -i "s/MOST_SEQUENTIAL = [0-9]*/MOST_SEQUENTIAL = 2/" few/bench-c/instrumented/orders/simulation.c &&
            cc -std=c11 -g -O1 -w -Iinclude -o model few/tests/orders/random.c && ./model 50000 || exit
        for test in told plain delayed; do
            cc -std=c11 -g -O1 -w -fsanitize=address,undefined -fno-sanitize-recover -Iinclude -o model "tests/orders/$test.c" && ./model || exit
        done'
}
plant_rust() {
    local files=(sync/atomic sync/mutex bench ffi retrying told watch) build='cd bindings/rust && cargo test --offline --locked'
    files=("${files[@]/#/bindings/rust/src/}")
    planted rust --build "$build --no-run && cargo test --offline --locked --release --features steps --no-run" \
        --then tests/bindings.sh "${files[@]/%/.rs}" -- \
        sh -c "$build --release --features steps && cargo test --offline --locked"
}
plant_ci() {
    # shellcheck disable=SC2016
    planted ci examples/ci/bench.sh -- sh -c 'top=$PWD && cd "$(mktemp -d)" && "$top/tests/ci.py" "$top/examples/ci/bench.sh"'
}
plant_import() {
    local files=(edn history intervals jepsen whole)
    files=("${files[@]/#/examples/import/}")
    planted import "${files[@]/%/.py}" -- sh -c "mkdir -p crates/tmwatch/out &&
        ln -sf '$program' crates/tmwatch/out && HISTORIES=60 tests/import.sh"
}
plant_recorder() {
    # shellcheck disable=SC2016
    planted recorder --build 'cc -std=gnu11 -O2 -Iinclude -o "$OBJECT" tests/c/recorded.c' include/tmwatch/recorder.h -- sh -c '
        "$OBJECT" | diff tests/c/recorded.lines - && ! "$OBJECT" more 2>said && grep -qx "recorder: no room for the event" said'
}

plant_recorders() {
    # shellcheck disable=SC2016
    planted recorders --build "${compile/c11/gnu11}"' -pthread -o "$OBJECT" examples/recorders/little.c &&
        rustc --edition 2021 -O -o "$OBJECT.rs" examples/recorders/little.rs && cat "$OBJECT.rs" >>"$OBJECT"' \
        --then 'cc -std=gnu11 -pthread -Iinclude -o placed tests/c/placed.c && ./placed | diff tests/c/placed.lines -' \
        examples/recorders/{little.c,little.rs,recorder.rs} -- env PROGRAM="$program" RUNS=1 ROUNDS=500 tests/long/recorders.sh
}
plant_lines() {
    local files=(conversation crash failures main memory programs record supervisor waits)
    files=("${files[@]/#/bench-lines/}")
    # shellcheck disable=SC2016
    planted lines --build "${compile/c11/gnu11}"' -pthread -o "$OBJECT" bench-lines/*.c "$BUILT/lib/libtmwatch_bench.a" "$BUILT/lib/libtmwatch.a"' \
        "${files[@]/%/.c}" -- env KILLS=3 tests/lines.sh
}
plant_stores() {
    planted stores examples/python/{dbapi,memory,sqlite,tmwatch_store}.py -- env KILLS=1 tests/lines.sh
}

[ $# -gt 0 ] || set -- bench jobs steps model rust ci import recorder recorders lines stores
for group; do
    "plant_$group"
done
end_rows
