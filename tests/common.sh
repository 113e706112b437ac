# shellcheck shell=bash disable=SC2034,SC2154
# Functions that the scripts of tests/, tests/long/ and measure/ share. They source this file first.
#
# It sets these variables: top, the repository's folder; folder, a temporary folder of the script, which is removed when the script ends;
# program, the built program; version, the program's version; passed and failed, the numbers of test cases of the script that passed and
# failed. `end_rows` prints both numbers as the last line. Its exit status is 1 if a test case failed.
# Environment: BUILT, a folder that ./tmwatch-c has filled, for scripts that need the library for C. Without it, they fill one.
top=$(cd "$(dirname "${BASH_SOURCE[0]}")/.." && pwd)
folder=$(mktemp -d)
trap 'rm -rf "$folder"' EXIT
program=${PROGRAM:-$top/crates/tmwatch/out/tmwatch}
version=$(sed -n 's/.*"tmwatch \([0-9.]*\), .*/\1/p' "$top/crates/tmw_command/specs/Version.antt")
passed=0 failed=0

end_rows() {
    echo "$passed passed, $failed failed"
    [ "$failed" -eq 0 ]
}

# Counts a row, which passes if these words are true, and returns whether they are.
check() {
    if "$@"; then
        passed=$((passed + 1))
    else
        failed=$((failed + 1))
        return 1
    fi
}

# Runs a program of the bench, at most five times until no thread was stalled: a busy machine may stop a thread for longer than the bench waits.
no_stall() {
    local status _
    for _ in 1 2 3 4 5; do
        status=0
        "$@" >"$folder/unstalled" 2>&1 || status=$?
        grep -q '"stalls":[1-9]' "$folder/unstalled" || break
    done
    cat "$folder/unstalled"
    return $status
}

# The same, until no second has passed without an event, which --timeout 1 reports as a hang.
no_hang() {
    local status _
    for _ in 1 2 3; do
        status=0
        "$@" >"$folder/unhung" 2>&1 || status=$?
        grep -q '^hang: no event for 1 seconds' "$folder/unhung" || break
    done
    cat "$folder/unhung"
    return $status
}

# Counts a row by its name, what is wanted and what came, which it prints if they differ.
count() {
    check [ "$2" = "$3" ] || printf '%s: %s, and not %s\n' "$1" "$3" "$2"
}

# Prints a row by a format of printf and its words, and counts it if the last of them is `passed` or `FAILED`.
row() {
    case ${!#} in
    passed) passed=$((passed + 1)) ;;
    FAILED) failed=$((failed + 1)) ;;
    esac
    # shellcheck disable=SC2059
    printf "$1  %s\n" "${@:2}"
}

# Runs a row: its name, the exit status that it has to have, and its words. If they are a function, that ends where a step fails. What
# they write stays in $folder/output; if `last` is set, the last line is printed.
ends() {
    local name=$1 wanted=$2 status
    shift 2
    set +e
    (set -e && "$@") >"$folder/output" 2>&1
    status=$?
    set -e
    if check [ "$status" -eq "$wanted" ]; then
        echo "$name: $({ [ -z "${last:-}" ] || tail -n 1 "$folder/output"; } | grep . || echo passed)"
    else
        echo "$name: FAILED, status $status"
        # (which rows of a script, if its end doesn't show them)
        head -n -40 "$folder/output" | grep -A 4 ': FAILED, status' || true
        tail -n 40 "$folder/output"
    fi
}

# Whether grep finds a line by these words in $folder/told, which is printed otherwise.
is_told() {
    grep -q "$@" "$folder/told" || { cat "$folder/told" && return 1; }
}

# Runs a row on what the row before it has written: its name, and the words by which grep has to find a line there.
has_told() {
    local name=$1
    shift
    mv "$folder/output" "$folder/told"
    ends "$name" 0 is_told "$@"
}

# Whether a tool is there. If not, a line says what is skipped.
has() {
    command -v "$1" >/dev/null && return
    echo "$2: skipped, since there is no $1"
    return 1
}

# Whether gdb is there, and the system lets it run a program, as it may not in a container. If not, a line says what is skipped, and why.
has_debugger() {
    has gdb "$1" || return
    gdb -q -batch -ex run /bin/true </dev/null >"$folder/told" 2>&1 && grep -q 'exited normally' "$folder/told" && return
    echo "$1: skipped, since gdb runs nothing: $(tail -n 1 "$folder/told")"
    return 1
}

# Whether a compiler of C builds transactions. If not, a line says what is skipped, and why.
has_transactions() {
    echo 'int main(void) { __transaction_atomic { } }' | "$1" -fgnu-tm -x c -o "$folder/try" - 2>"$folder/told" && return
    echo "$2: skipped, since $1 builds no transactions: $(tail -n 1 "$folder/told")"
    return 1
}

# Whether a compiler of C has ThreadSanitizer, and its programs run here. If not, a line says what is skipped, and why.
has_thread_sanitizer() {
    echo 'int main(void) { return 0; }' | "$1" -fsanitize=thread -x c -o "$folder/try" - 2>"$folder/told" && "$folder/try" 2>"$folder/told" && return
    echo "$2: skipped, since $1 has no ThreadSanitizer: $(tail -n 1 "$folder/told")"
    return 1
}

# Compiles examples/libitm by the words in `compile`: $folder/libitm, and for each fault the little memory in its place. These words link
# them.
build_libitm() {
    local source=$top/examples/libitm fault
    "${compile[@]}" -fgnu-tm -c -o "$folder/transaction.o" "$source/transaction.c"
    "${compile[@]}" -c -o "$folder/run.o" "$source/run.c"
    "${compile[@]}" -o "$folder/libitm" "$folder/run.o" "$folder/transaction.o" -litm "$@"
    for fault in NONE READS COMMIT PLACE; do
        "${compile[@]}" -DFAULT=$fault -c -o "$folder/memory.o" "$source/memory.c"
        "${compile[@]}" -o "$folder/$fault" "$folder/run.o" "$folder/transaction.o" "$folder/memory.o" "$@"
    done
}

# Of a man page's section: each entry with its text.
entries() {
    awk -v section="$2" '/^\.S[SH] / { on = $0 == section } on && /^\.TP/ { getline; name = $0; getline; print name " " $0 }' "$1" |
        sed 's/^\.[A-Z]* //; s/\\-/-/g; s/"//g; s/  */ /g'
}

# The processors that this script may use, as taskset lists them.
processors() {
    taskset -cp $$ | sed 's/.*: //'
}

# Waits until a process catches SIGINT and SIGTERM, as a bench does that runs: half a minute at most.
catches_signals() {
    local _ caught
    for _ in {1..600}; do
        caught=$(sed -n 's/^SigCgt:[[:space:]]*/0x/p' "/proc/$1/status")
        [ $((caught & 0x4002)) -ne $((0x4002)) ] || return 0
        sleep 0.05
    done
    return 1
}

# The seconds since a time of $EPOCHREALTIME.
since() {
    echo "$1 $EPOCHREALTIME" | tr , . | awk '{ printf "%.2f", $2 - $1 }'
}

# Runs these words on $input, RUNS times or three. Prints the least and the most seconds, the peak memory in KiB and the exit status. What a
# run has written is then in $folder/output; if two have written other bytes, the status is `differs`.
measure() {
    local least=999999999999 most=0 memory=0 status='' began took ended kib run
    for ((run = 0; run < ${RUNS:-3}; run++)); do
        [ "$run" -eq 0 ] || mv "$folder/output" "$folder/before"
        ended=0 began=${EPOCHREALTIME/[.,]/}
        /usr/bin/time -q -o "$folder/time" -f %M "$@" <"$input" >"$folder/output" 2>/dev/null || ended=$?
        took=$((${EPOCHREALTIME/[.,]/} - began))
        least=$((took < least ? took : least)) most=$((took > most ? took : most))
        read -r kib <"$folder/time"
        memory=$((kib > memory ? kib : memory))
        [ "$run" -eq 0 ] || cmp -s "$folder/before" "$folder/output" || ended=differs
        [ "$status" = differs ] || status=$ended
    done
    echo "$least $most $memory $status" | awk '{ printf "%.4f %.4f %d %s\n", $1 / 1000000, $2 / 1000000, $3, $4 }'
}

# Compiles the bench of this repository, by these words, into $folder/lib/libtmwatch_bench.a and libtmwatch_steps.a.
build_bench() {
    "$top/packaging/layout.py" --bench "$folder/lib" "$@"
}

# The words by which the linker wraps the names of this kind.
wrapping() {
    sed -n "s/^$1 //p" "$top/packaging/wrapped.txt" | tr ' ' '\n' | sed 's/^/,--wrap=/' | tr -d '\n'
}

# Sets built, the folder with the library for C: BUILT, or one that is filled now and becomes BUILT for what the script calls. It also sets
# waits and blocks, by which the linker shows the bench that a thread waits, and that a block is given back.
use_library() {
    built=${BUILT:-$folder/built}
    [ -n "${BUILT:-}" ] || "$top/tmwatch-c" "$built"
    export BUILT=$built
    waits=-Wl$(wrapping waits) blocks=-Wl,-u,tmwatch_step_sees_free$(wrapping blocks)
}
