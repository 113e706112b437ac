#!/usr/bin/env bash
# Runs the tests of the library for C and of both benches under AddressSanitizer with UndefinedBehaviorSanitizer and under ThreadSanitizer,
# and tests/c.sh under valgrind.
#
#   tests/long/sanitizers.sh
#
# The sanitizers check the programs, the benches, and the library's blocks of the heap. They do not check the accesses within the library,
# because it was not compiled with them; valgrind checks everything.
# If a tool is not installed, a line says that it is skipped. The exit status is 1 if a run failed, or if a script skipped itself under a
# sanitizer.
# Environment: CC (cc), BUILT (tests/common.sh).
set -eu
# shellcheck source=tests/common.sh
. "$(dirname "${BASH_SOURCE[0]}")/../common.sh"
use_library
status=0

compiles() {
    local words
    read -r -a words <<<"$1"
    echo 'int main(void) { return 0; }' | "${CC:-cc}" "${words[@]}" -x c -o "$folder/try" - 2>/dev/null && "$folder/try"
}

# Runs a script of tests by its name and words. One that skips itself has no last line of rows.
runs() {
    echo "== tests/$1.sh ${FLAGS:-}${RUN:-}"
    "$top/tests/$1.sh" "${@:2}" >"$folder/ran" 2>&1 || true
    cat "$folder/ran"
    tail -n 1 "$folder/ran" | grep -q '^[1-9][0-9]* passed, 0 failed$' && return
    echo "== tests/$1.sh ${FLAGS:-}${RUN:-}: FAILED, or skipped"
    status=1
}

# Runs these scripts by flags of the compiler.
sanitized() {
    local script
    if ! compiles "$1"; then
        echo "$1: skipped, since the compiler has it not, or its programs do not run here"
        return
    fi
    FLAGS=$1 runs c --alone
    for script in "${@:2}"; do
        FLAGS=$1 KILLS=6 runs "$script"
    done
}

sanitized '-fsanitize=address,undefined -fno-sanitize-recover=all' c_steps runs jobs orders lines
# (jobs.sh and orders.sh skip themselves: jobs have one thread where they are split off, and the model goes by one)
sanitized -fsanitize=thread c_steps runs lines
for tool in 'memcheck --leak-check=full --errors-for-leak-kinds=all' 'helgrind'; do
    if has valgrind "$tool"; then
        RUN="valgrind -q --tool=$tool --error-exitcode=99" ROUNDS=300 runs c --alone
    fi
done
exit $status
