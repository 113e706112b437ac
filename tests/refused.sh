#!/usr/bin/env bash
# Lets each allocation, each read, each write and each start of a thread of the built program fail, one in each run. Lets each allocation
# fail in the tests that allow this.
#
#   tests/refused.sh
#
# tests/refused.c is loaded with the program, and makes the call with a given number fail: the first one, then the second, until a run has
# no such call. Reads and writes move only a few bytes each, so that there are many. (`rt try --fail-alloc` makes the same allocations fail,
# but builds the program again for each run.) A command line must do the following:
# - If an allocation fails, or all from some allocation on, it writes only the line of the fault `memory`, with status 4. The fault is
#   `spawn` if the allocation was for the start of a thread, or if the start failed. If only one allocation fails, `show` may request as
#   much as it needs again, and then writes the same as the plain run.
# - If a read fails, it writes only the line of the fault `io`, with status 4.
# - If a write fails, its output is a beginning of the plain run's, but not all of it, with status 4.
# - If a read or write is interrupted, or no call fails, it writes the same as the plain run, with the same status.
# - It reads nothing after a call that failed.
# For long texts, long windows and long logs, not every call is made to fail, but only those after the first million bytes of a text. Of the
# allocations there, and of those for a log of 2,400 events, only large ones fail. The output of their plain runs is known, and compared. A
# test whose name contains `refused_growth` must pass, or report that it lacks the memory to begin with, and must pass with at least one
# failing allocation. A test that allows no failure must fail at each.
#
# A test case says how many calls of each kind failed; a kind without any counts as failed. The last line is 'N passed, M failed', over all
# runs. The exit status is 1 if a run failed.
# Environment: CC (cc), LIMIT (20), the time limit of a run in seconds.
set -eu
ulimit -c 0
# shellcheck source=tests/common.sh
. "$(dirname "${BASH_SOURCE[0]}")/common.sh"
"${CC:-cc}" -O2 -shared -fPIC -o "$folder/refused.so" "$top/tests/refused.c" -ldl
for fault in memory io spawn; do echo "{\"fault\":\"$fault\"}" >"$folder/$fault"; done
# Calls are counted behind so many bytes that were read, and growths of so many bytes.
after=0 least=0

# Counts a run by whether it did what it has to do. If not, it prints what the run did.
count_run() {
    local found=right
    [ "$1" -eq 0 ] || found="status $status, told '${told[*]}', wrote '$(head -qc 150 "$folder/output" "$folder/errors" | tr '\n' ' ')'"
    count "$name: $2" right "$found"
}

# Runs these words with the call of this kind and number refused.
run() {
    : >"$folder/told"
    status=0
    timeout "${LIMIT:-20}" env LD_PRELOAD="$folder/refused.so" TOLD="$folder/told" REFUSE="$1" AT="$2" BYTES="$bytes" \
        AFTER="$after" LEAST="$least" "${@:3}" <"$input" >"$folder/output" 2>"$folder/errors" || status=$?
    mapfile -t told <"$folder/told"
}

was_told() {
    case " ${told[*]} " in *" $1 "*) true ;; *) false ;; esac
}

# Whether the run has left these bytes and ended with this status, and has read nothing after what was refused.
has_left() {
    [ "$status" -eq "$2" ] && ! was_told read && cmp -s "$folder/output" "$1"
}

# The same, of a beginning of what the plain run writes.
has_left_beginning() {
    local size
    size=$(stat -c %s "$folder/output")
    head -c "$size" "$folder/plain" >"$folder/beginning"
    [ "$size" -lt "$(stat -c %s "$folder/plain")" ] && has_left "$folder/beginning" 4
}

# Whether the run did what it has to where the call of this kind and number was refused.
is_right() {
    case $1 in
    growth | growths)
        case " $starts " in
        *" $2 "*) has_left "$folder/spawn" 4 ;;
        *) has_left "$folder/memory" 4 || { [ "$1 ${name%%,*}" = "growth show" ] && has_left "$folder/plain" "$plain_status"; } ;;
        esac
        ;;
    thread) has_left "$folder/spawn" 4 ;;
    read) has_left "$folder/io" 4 ;;
    write) has_left_beginning ;;
    interrupted_*) has_left "$folder/plain" "$plain_status" ;;
    esac
}

# Refuses each call of this kind in turn, up to a run that has no such call: their number is then in `refused`.
sweep() {
    local wrong
    refused=0
    run "$1" 1 "${words[@]}"
    while was_told refused; do
        refused=$((refused + 1)) wrong=0
        is_right "$1" "$refused" || wrong=1
        count_run $wrong "$1 $refused"
        run "$1" $((refused + 1)) "${words[@]}"
    done
    wrong=0
    [ "$refused" -gt 0 ] && has_left "$folder/plain" "$plain_status" || wrong=1
    count_run $wrong "no $1 after $refused"
}

# Refuses each call of a command: its name, its plain run's status, the bytes that a read or a write moves, its input, and its words.
refuse_each() {
    name=$1 plain_status=$2 bytes=$3 input=$4 words=("$program" "${@:5}")
    local kind line='' wrong=0
    run '' 0 "${words[@]}"
    # (where few growths are counted, none of them is for the start of a thread)
    starts=$([ "$least" -gt 0 ] || sed -n 's/^start //p' "$folder/told" | tr '\n' ' ')
    "${words[@]}" <"$input" >"$folder/plain" 2>/dev/null || true
    has_left "$folder/plain" "$plain_status" || wrong=1
    count_run $wrong 'nothing refused'
    for kind in $kinds; do
        sweep "$kind"
        line="$line, $refused $kind"
    done
    echo "$name: ${line#, }"
}

# The same of one whose plain run is known to write what `wanted` has.
known_row() {
    local wrong=0
    refuse_each "$@"
    cmp -s "$folder/wanted" "$folder/plain" || wrong=1
    count_run $wrong 'the plain run, which wrote something else'
}

# Windows of two writers that overlap, so that there are two outcomes, each followed by a reader that tells which it is.
many_windows() {
    echo 'opacity-trace 2 2 7 0'
    for value in $(seq "$1"); do
        printf '%s\n' "0 W 0 $value" '0 K' '1 W 0 0' '1 K' '0 T' '1 T' '0 C' '1 C'
        printf '%s\n' '2 N 1 1' "2 V $((value - 1))" '2 R 0' "2 V $value" '2 T' '2 C'
    done
}

# The calls of seven writers, each of which writes one register with the thread before it and one with the thread behind it: by
# their orders there are 64 outcomes.
many_writes() {
    echo 'opacity-trace 1 7'
    for thread in {0..6}; do
        [ "$thread" -eq 0 ] || printf '%s\n' "$thread W $((thread - 1)) $((thread + 1))" "$thread K"
        [ "$thread" -eq 6 ] || printf '%s\n' "$thread W $thread $((thread + 1))" "$thread K"
    done
}

# A transaction that reads these values in the registers 0 and 5. After the writers the first of them holds 1 or 2, the other 6 or 7.
reader() {
    printf '%s\n' '7 R 0' "7 V $1" '7 R 5' "7 V $2" '7 T' '7 C'
}

# Steps of a ring of one cell, whose writer records so many events, each of which is taken before the next.
many_steps() {
    echo 'ring-steps 1 1 1 100000'
    seq "$1" | awk '{ printf "front 0 W 0 %d\ntail 0\nclaim 0\nfill 0\npublish 0\npeek\nread\nfree\n", $1 }'
}

# What they are answered.
many_replies() {
    seq "$1" | awk '
        { printf "saw %d\ncleared\nplace %d\nfilled\npublished %d\nready\nword %d\nevent 0 W 0 %d\n", $1 - 1, $1 - 1, $1 - 1, $1, $1 }
        END { printf "log %d taken %d\n", NR, NR }'
}

# Steps of two writers of a ring of two cells. The second publishes first, and finds the ring full.
full_steps() {
    printf '%s\n' 'ring-steps 1 2 2 100' 'front 0 W 0 5' 'front 1 T' 'tail 0' 'tail 1' 'claim 0' 'claim 1' 'fill 1' 'publish 1' peek
    printf '%s\n' 'front 1 X' 'tail 1' 'fill 0' 'publish 0' peek read free peek read free
}

# What they are answered.
full_replies() {
    printf '%s\n' 'saw 0' 'saw 0' cleared cleared 'place 0' 'place 1' filled 'published 1' 'not ready' 'saw 0' 'full 0 2' filled
    printf '%s\n' 'published 0' ready 'word 5' 'event 0 W 0 5' ready 'word 0' 'event 1 T' 'log 2 taken 2'
}

# A transaction that makes so many writes, and then reads a value that it has not written last.
long_window() {
    echo 'opacity-trace 1 1'
    seq "$1" | awk '{ printf "0 W 0 %d\n0 K\n", $1 } END { print "0 R 0\n0 V 0" }'
}

# What is shown of it, drawn and as a trace of its own.
drawn_window() {
    echo "{\"at\":$((2 * $1 + 2)),\"events\":$((2 * $1 + 2)),\"verdict\":\"violated\"}"
    printf '%s\n' '    state  0' '    event  thread 0'
    seq "$1" | awk '
        { printf "%9d  %s W 0 %d\n%9d     K\n", 2 * $1 - 1, NR == 1 ? "T1" : "  ", $1, 2 * $1 }
        END { printf "%9d     R 0\n%9d     V 0    violates opacity\n", 2 * NR + 1, 2 * NR + 2 }'
}

traced_window() {
    long_window "$1" | sed '1s/.*/opacity-trace 2 1 0/'
}

# The log of so many transactions that write, and its report.
long_log() {
    echo 'opacity-trace 1 1'
    yes $'0 W 0 5\n0 K\n0 T\n0 C' | head -n $((4 * $1))
    opaque $((4 * $1))
}

opaque() {
    echo "{\"events\":$1,\"verdict\":\"opaque so far\"}"
}

# So many times a text.
times() {
    yes "$2" | head -n "$1" | tr -d '\n'
}

# The tests of this crate, as the gate or `rt test` built them: anew where a source is newer.
tests_of() {
    tests=$top/crates/$1/out/$1_tests
    if [ ! -x "$tests" ] || [ -n "$(find "$top"/crates.txt "$top"/crates/*/{src,specs,proofs} -newer "$tests" -print -quit)" ]; then
        echo "refused.sh: proving and building the tests of $1" >&2
        (cd "$top/crates/$1" && rt test) >"$folder/build" 2>&1 || { tail -n 40 "$folder/build" >&2 && exit 125; }
    fi
}

# Whether a test has failed because there was no memory for what it begins with, and not by an assertion.
has_not_begun() {
    [ "$status" -eq 101 ] && grep -Eqx 'error: (Memory|AllocError|AllocFailed \{ \.\. \})' "$folder/errors"
}

# A test, by its crate and its name, each growth of which is refused: it `allows` that and passes, or is `strict` and fails.
test_row() {
    name="$1, $2" bytes=1 input=/dev/null
    local refused=0 allowed=0 wrong
    run growth 1 "$tests" "$2" 2>/dev/null
    while was_told refused; do
        refused=$((refused + 1)) wrong=0
        [ "$status" -ne 0 ] || allowed=$((allowed + 1))
        case $3 in
        allows) [ "$status" -eq 0 ] || has_not_begun || wrong=1 ;;
        strict) [ "$status" -eq 101 ] || [ "$status" -eq 134 ] || wrong=1 ;;
        esac
        count_run $wrong "growth $refused"
        run growth $((refused + 1)) "$tests" "$2" 2>/dev/null
    done
    wrong=0
    [ "$refused" -gt 0 ] && [ "$status" -eq 0 ] || wrong=1
    [ "$3" != allows ] || [ "$allowed" -gt 0 ] || wrong=1
    count_run $wrong "no growth after $refused, with $allowed of which it passed"
    echo "$name: $refused growth, with $allowed of which it passed"
}

[ -x "$program" ] || "$top/build"
many_windows 20 >"$folder/windows"
{ many_writes && printf '%s\n' {0..6}' T' {0..6}' C'; } >"$folder/outcomes"
{ cat "$folder/outcomes" && reader 1 6; } >"$folder/narrowed"
{ many_writes && reader 0 0 && printf '%s\n' {0..6}' T' {0..6}' C'; } >"$folder/layers"
{ cat "$folder/outcomes" && reader 3 6; } >"$folder/impossible"
printf '%s\n' 'opacity-trace 1 1' '0 V 1' '0 T' >"$folder/malformed"
printf '%s\n' 'opacity-trace 1 1' '0 R 01' '0 V 0' >"$folder/bad_line"
many_steps 20 >"$folder/steps"
echo '{"registers":1,"scripts":[[["W 0 5","R 0","T"],["N 0 1","X"]]],"order":[]}' >"$folder/worker"
echo '{"registers":1,"scripts":[[],[]],"order":[0,1]}' >"$folder/empty"
echo '{"registers":3,"scripts":[[["R 0","W 0 1","T"]],[["R 1","W 1 1","T"]],[["R 2","W 2 1","T"]]],"order":[]}' >"$folder/workers"

kinds='growth growths read interrupted_read write interrupted_write'
refuse_each 'judge, one window' 0 1 "$top/examples/own_write.trace" judge
refuse_each 'judge, many windows' 0 16 "$folder/windows" judge
refuse_each 'judge, many windows, with counts' 0 16 "$folder/windows" judge --summary
refuse_each 'judge, violated' 1 4 "$top/examples/dirty_read.trace" judge
refuse_each 'judge, too many transactions' 2 4 "$top/examples/left_open.trace" judge
refuse_each 'judge, malformed' 3 4 "$folder/malformed" judge
refuse_each 'judge, a bad line' 4 1 "$folder/bad_line" judge
refuse_each 'judge, 64 outcomes' 0 4 "$folder/outcomes" judge --states 64
refuse_each 'judge, 64 outcomes and 63 allowed' 2 4 "$folder/outcomes" judge --states 63
refuse_each 'judge, 64 outcomes and a reader of one' 0 4 "$folder/narrowed" judge
refuse_each 'judge, 64 outcomes and a reader of none' 1 4 "$folder/impossible" judge
refuse_each 'judge, 64 outcomes by layers' 0 4 "$folder/layers" judge
refuse_each 'show, one window' 0 1 "$top/examples/own_write.trace" show
refuse_each 'show, violated' 1 4 "$top/examples/dirty_read.trace" show
refuse_each 'show, violated, why' 1 4 "$top/examples/dirty_read.trace" show --why
refuse_each 'show, 64 outcomes and a reader of none' 1 4 "$folder/impossible" show
refuse_each 'show, 64 outcomes and a reader of none, as traces' 1 4 "$folder/impossible" show --trace
refuse_each 'show, 64 outcomes and a reader of none, as a page' 1 1024 "$folder/impossible" show --page
refuse_each 'steps, a late claim' 0 4 "$top/examples/late_claim.steps" steps
refuse_each 'steps, many' 0 16 "$folder/steps" steps
for memory in norec lock torn; do
    wanted=0
    [ "$memory" != torn ] || wanted=1
    refuse_each "drive, $memory" $wanted 8 "$top/examples/reader_among_writers.json" drive --memory $memory
    refuse_each "drive, $memory, with the trace" $wanted 8 "$top/examples/reader_among_writers.json" drive --memory $memory --trace
done
kinds="$kinds thread"
refuse_each 'bench' 0 4 "$folder/worker" bench
refuse_each 'bench, with the trace' 0 4 "$folder/worker" bench --trace
refuse_each 'bench, three rounds over one cell' 0 4 "$folder/worker" bench --memory lock --ring 1 --patience 1000000000 --rounds 3
refuse_each 'bench, three workers' 0 4 "$folder/workers" bench --memory torn
refuse_each 'bench, three workers and three rounds' 0 4 "$folder/workers" bench --memory torn --rounds 3
kinds='growth growths read interrupted_read write interrupted_write'
refuse_each 'bench, fewer cells than scripts' 4 4 "$folder/empty" bench --ring 1
kinds='growth growths write interrupted_write'
refuse_each 'help' 0 16 /dev/null help judge
refuse_each 'the version' 0 16 /dev/null --version
refuse_each 'a wrong word' 4 4 /dev/null judge --window 9
# To find a word like this one, a list asks for room at once, and where that is refused, for less: the run is then the plain one.
kinds='growths write interrupted_write'
refuse_each 'a word that is like a command' 4 4 /dev/null jugde

# Two writers at once, whom two readers see in opposite orders; a ring of two cells that is full between two places which are
# published in the other order; and a reader that a writer overtakes.
kinds='growth growths read interrupted_read write interrupted_write'
head -n 15 "$top/examples/opposite_readers.trace" >"$folder/opposite"
echo '{"at":14,"events":14,"verdict":"violated"}' >"$folder/wanted"
known_row 'judge, readers in opposite orders' 1 4 "$folder/opposite" judge
full_steps >"$folder/full"
full_replies >"$folder/wanted"
known_row 'steps, a ring that is full' 0 4 "$folder/full" steps
echo '{"registers":2,"scripts":[[["R 0","R 1","T"]],[["W 0 1","W 1 1","T"]]],"order":[0,1,1,1,0,0]}' >"$folder/overtaken"
opaque 10 >"$folder/wanted"
known_row 'drive, norec, an overtaken reader' 0 8 "$folder/overtaken" drive --memory norec

# A write that moves a part of more than 4,096 bytes, and is interrupted before the rest.
kinds='write interrupted_write'
long_window 1000 >"$folder/window"
drawn_window 1000 >"$folder/wanted"
known_row 'show, a window of 2,002 events' 1 5000 "$folder/window" show
traced_window 1000 >"$folder/wanted"
known_row 'show, a window of 2,002 events, as a trace' 1 5000 "$folder/window" show --trace

# Behind a million bytes. Windows take no memory then: growth is refused as often without them.
kinds=growth after=1000000
{ echo 'opacity-trace 2 2 7 0' && yes $'3 T\n3 C' | head -n 250000; } >"$folder/quiet"
opaque 250000 >"$folder/wanted"
known_row 'judge, 1,000,000 bytes' 0 1000 "$folder/quiet" judge
often=$refused
kinds='growths read interrupted_read growth'
{ cat "$folder/quiet" && many_windows 3 | sed 1d; } >"$folder/long"
opaque 250042 >"$folder/wanted"
known_row 'judge, 1,000,000 bytes and three windows' 0 1000 "$folder/long" judge
count_run $((refused != often)) 'growth, as often as without windows'
kinds='growth growths read interrupted_read'
least=1000000
long_window 66000 >"$folder/long"
drawn_window 66000 >"$folder/wanted"
known_row 'show, a window of 132,002 events' 1 5000 "$folder/long" show
many_steps 16000 >"$folder/long"
many_replies 16000 >"$folder/wanted"
known_row 'steps, 128,000 of them' 0 5000 "$folder/long" steps
{ times 1050000 ' ' && echo '{"registers":1,"scripts":[[["W 0 5","R 0","T"],["N 0 1","X"]]],"order":[0,0,0,0,0]}'; } >"$folder/long"
opaque 10 >"$folder/wanted"
known_row 'drive, a workload behind 1,050,000 blanks' 0 5000 "$folder/long" drive
echo '{"ends":["done"]}' >>"$folder/wanted"
known_row 'bench, the same' 0 5000 "$folder/long" bench

# Behind 2,000 events of a log.
kinds='growth growths write interrupted_write' after=0 least=60000
echo "{\"registers\":1,\"scripts\":[[$(times 599 '["W 0 5","T"],')[\"W 0 5\",\"T\"]]],\"order\":[$(times 1199 0,)0]}" >"$folder/transactions"
long_log 600 >"$folder/wanted"
known_row 'drive, a log of 2,400 events, with the trace' 0 5000 "$folder/transactions" drive --trace
echo '{"ends":["done"]}' >>"$folder/wanted"
known_row 'bench, a log of 2,400 events, with the trace' 0 5000 "$folder/transactions" bench --trace --patience 1000000000
kinds='write interrupted_write' least=0
{ opaque 2400 && echo '{"ends":["done"]}'; } >"$folder/wanted"
known_row 'bench, a log of 2,400 events' 0 16 "$folder/transactions" bench --patience 1000000000

mapfile -t crates < <(grep -rl 'fn .*refused_growth' "$top"/crates/*/src | sed "s|^$top/crates/||; s|/.*||" | sort -u)
for crate in "${crates[@]}"; do
    tests_of "$crate"
    for test in $("$tests" --list | sed -n 's/^\(.*refused_growth.*\): test$/\1/p'); do test_row "$crate" "$test" allows; done
done
tests_of test_ring
test_row test_ring pump::a_dirty_read_is_judged_as_it_comes strict

end_rows
