#!/usr/bin/env bash
# Runs the built program on extreme input: long lines, traces and transactions, many outcomes, slow windows, little memory, closed streams,
# hostile workloads. A test case has the required output and exit status, and a limit of the memory.
#
#   tests/long/extremes.sh [lines] [length] [reads] [cuts] [aborts] [slow] [limits] [streams] [workloads]
#
# Without arguments all groups run. A test case prints its seconds, its peak memory in KiB and its output. The last line is 'N passed, M
# failed'. The exit status is 1 if a test case failed.
# Environment: BYTES of a line (1000000000), EVENTS of a trace (2^24; 2147483648 takes minutes), READS of a transaction (10000000), CUTS
# (10000; 1000000 takes minutes), SLOW reads and windows that are slow (5), LIMIT in seconds of a run (3600; of a slow one 20).
set -eu
# shellcheck source=tests/common.sh
. "$(dirname "${BASH_SOURCE[0]}")/../common.sh"
"$top/build"
# More than the program takes where nothing grows; one that does nothing takes some 1,000 KiB.
little=4000

# The row of a run, by what came out, which is its status and output, and by its memory.
end_run() {
    local name=$1 most=$2 wanted=$3 answer=$4 passes=passed
    read -r seconds kib <"$folder/time"
    [ "$answer $((kib <= most))" = "$wanted 1" ] || passes=FAILED
    row '%-58s %8s s %8s KiB  %s' "$name" "$seconds" "$kib" "${answer%%$'\n'*}" $passes
    [ $passes = passed ] || echo "wanted at most $most KiB and: $wanted"
}

# A run on standard input: its name, the most KiB, the status and output that it has to have, and its words.
run() {
    local name=$1 most=$2 wanted=$3 status=0
    shift 3
    /usr/bin/time -q -o "$folder/time" -f '%e %M' timeout "${LIMIT:-3600}" "$program" "$@" >"$folder/output" 2>"$folder/errors" ||
        status=$?
    end_run "$name" "$most" "$wanted" "$status $(cat "$folder/output" "$folder/errors")"
}

# So many copies of a character.
copies() {
    head -c "$1" /dev/zero | tr '\0' "$2"
}

# So many times a text, without the line feed behind it.
times() {
    yes "$2" | head -n "$1" | tr -d '\n'
}

# A trace of one register whose lines are these, over and over, so many in all.
repeated() {
    echo 'opacity-trace 1 1'
    yes "$2" | head -n "$1"
}

opaque() {
    echo "0 {\"events\":$1,\"verdict\":\"opaque so far\"}"
}

serial=$'0 W 0 1\n0 K\n0 T\n0 C\n1 R 0\n1 V 1\n1 T\n1 C'

# A fault of a long line, and what `judge` says of it on standard error: what is wrong, the line's first 80 bytes, and maybe advice.
long_fault() {
    printf '4 {"fault":%s}' "$1"
    [ "$command" != judge ] || printf '\nerror: line %s: "%s"...%s' "$2" "$3" "${4:-}"
}

long_lines() {
    local bytes=${BYTES:-1000000000} zeros command
    zeros=$(copies 80 0)
    for command in judge steps; do
        local header='opacity-trace 1 1'
        [ "$command" = judge ] || header='ring-steps 1 4 2 100'
        run "$command: a header of $bytes bytes" $little "$(long_fault '"bad header"' '1 is not a header, such as opacity-trace 1 8' "$zeros")" $command \
            < <(copies "$bytes" 0 && echo)
        run "$command: the same, cut" $little "$(long_fault '"cut","line":1' '1 is incomplete (no newline at the end)' "$zeros")" $command \
            < <(copies "$bytes" 0)
        run "$command: a line of $bytes bytes" $little \
            "$(long_fault '"bad line","line":2' '2 is not an event of a version 1 trace' "$zeros")" $command \
            < <(echo "$header" && copies "$bytes" 0 && echo)
        run "$command: the same, cut" $little \
            "$(long_fault '"cut","line":2' '2 is incomplete (no newline at the end)' "$zeros" ". Was the recorder killed? Drop this line with: sed '\$d'")" $command \
            < <(echo "$header" && copies "$bytes" 0)
    done
    command=judge
    run "judge: 1,000 events, and an answer of $bytes digits" $little \
        "$(long_fault '"bad line","line":1002' '1002 is not an event of a version 1 trace' "0 V $(copies 76 1)")" judge \
        < <(repeated 1000 "$serial" && printf '0 V ' && copies "$bytes" 1 && echo)
    run "judge: a violated run, and a line of $bytes spaces" $little \
        "$(long_fault '"bad line","line":10' '10 is not an event of a version 1 trace' "$(copies 80 ' ')")" judge \
        < <(cat "$top/examples/dirty_read.trace" && copies "$bytes" ' ' && echo)
}

length() {
    local events=${EVENTS:-16777216}
    run "judge: $events events" $little "$(opaque "$events")" judge < <(repeated "$events" "$serial")
}

reads() {
    local reads=${READS:-10000000} pairs=$'0 R 0\n0 V 0'
    run "judge: a transaction of $reads reads" $little "$(opaque $((2 * reads + 2)))" judge \
        < <(repeated $((2 * reads)) "$pairs" && printf '0 T\n0 C\n')
    run 'judge: three of them, one after another' $little "$(opaque $((6 * reads + 6)))" judge \
        < <(repeated $((2 * reads)) "$pairs" && printf '0 T\n0 C\n' && yes "$pairs" | head -n $((2 * reads)) && printf '0 T\n0 C\n' &&
            yes "$pairs" | head -n $((2 * reads)) && printf '0 T\n0 C\n')
    run 'judge: the same, and at its end a value that nobody wrote' $little \
        "1 {\"at\":$((2 * reads + 2)),\"events\":$((2 * reads + 4)),\"verdict\":\"violated\"}" judge \
        < <(repeated $((2 * reads)) "$pairs" && printf '0 R 0\n0 V 1\n0 T\n0 C\n')
}

# The events of a window whose transactions overlap. Each word is one of them, as READ/WRITES/END: nothing, or a register and what
# it is answered; a 1 for each register that it writes, the value being its thread and 1; C, A, T for commit-pending, L for live.
window() {
    awk 'BEGIN {
        for (i = 0; i < ARGC - 1; i++) {
            split(ARGV[i + 1], part, "/")
            end[i] = part[3]
            if (part[1] != "") printf "%d R %s\n%d V %s\n", i, substr(part[1], 1, 1), i, substr(part[1], 2)
            for (r = 0; r < length(part[2]); r++)
                if (substr(part[2], r + 1, 1) == "1") printf "%d W %d %d\n%d K\n", i, r, i + 1, i
        }
        for (i = 0; i < ARGC - 1; i++) if (end[i] != "L") print i, "T"
        for (i = 0; i < ARGC - 1; i++) if (end[i] == "C" || end[i] == "A") print i, end[i]
    }' "$@"
}

# Two windows after which there are 64 outcomes: each of eight values in register 0, and each in register 1.
sixty_four() {
    window /1/C /1/C /1/C /1/C /1/C /1/C /1/C /1/C
    window /01/C /01/C /01/C /01/C /01/C /01/C /01/C /01/C
}

# A run of the same windows over and over: it has at most 64 outcomes at each cut, and 64 for the first time at this length.
outcomes() {
    local name=$1 at=$2 events=$3 lines=$4
    run "judge: $name" $little "$(opaque "$events")" judge --states 64 \
        < <(echo 'opacity-trace 1 8' && yes "$lines" | head -n "$events")
    run 'judge: the same, and one state fewer' $little \
        "2 {\"at\":$at,\"events\":$events,\"verdict\":\"undecided\",\"why\":\"states\"}
undecided: more possible states at a quiescent point than --states allows. Read each register before you write it (docs/RECORDING.md)" judge --states 63 \
        < <(echo 'opacity-trace 1 8' && yes "$lines" | head -n "$events")
}

cuts() {
    local cuts=${CUTS:-10000}
    outcomes "64 outcomes at each of $cuts cuts" 38 $((38 * cuts)) "$(window /01101/C /01000/C /10100/C /00110/C /10001/C /11010/C)"
    outcomes "64 outcomes from 64 at each of $cuts cuts" 64 $((32 * cuts)) "$(sixty_four)"
}

# A trace in which eight threads write, and abort in each order: asked for, or as the answer of a commit request.
aborts_in_each_order() {
    awk -v asked="$1" '
    function abort(count, taken, order,    i) {
        if (count == 8) { printf "%s%s", begin, order; return }
        for (i = 0; i < 8; i++)
            if (!(int(taken / 2 ^ i) % 2)) abort(count + 1, taken + 2 ^ i, order (asked ? i " X\n" : "") i " A\n")
    }
    BEGIN {
        print "opacity-trace 1 1"
        for (i = 0; i < 8; i++) begin = begin i " W 0 " i + 1 "\n"
        for (i = 0; i < 8; i++) begin = begin i " K\n"
        if (!asked) for (i = 0; i < 8; i++) begin = begin i " T\n"
        abort(0, 0, "")
    }'
}

aborts() {
    local events=$((40320 * 32))
    for asked in 1 0; do
        local name='judge: eight threads abort in each order, as asked'
        [ "$asked" = 1 ] || name='judge: the same, as the answer of a commit request'
        run "$name" $little "$(opaque $((events + 4)))" judge < <(aborts_in_each_order $asked && printf '7 R 0\n7 V 0\n7 T\n7 C\n')
        run 'judge: the same, and then one of their values' $little \
            "1 {\"at\":$((events + 2)),\"events\":$((events + 4)),\"verdict\":\"violated\"}" judge \
            < <(aborts_in_each_order $asked && printf '7 R 0\n7 V 8\n7 T\n7 C\n')
    done
}

# A window from 64 outcomes in which a live transaction reads its own write this often, while seven others are commit-pending.
live_reads() {
    echo 'opacity-trace 1 8'
    sixty_four
    window /00101000/T /00100011/T /00011001/T /00110100/T /00010010/T 07/10000101/T /00001110/T /00000001/L
    yes $'7 R 7\n7 V 8' | head -n $((2 * $1))
}

# So many windows that begin and end with 64 outcomes. Seven transactions read register 2 and write, so that their orders end
# in many states; the eighth has to be the last of each order, and writes over all that they have written.
closing_windows() {
    local value
    echo 'opacity-trace 1 8'
    sixty_four
    for value in $(seq 0 $(($1 - 1))); do
        value=$((value % 2 * 8))
        window 2$value/00010101/C 2$value/00011010/C 2$value/00000110/C 2$value/00001011/C 2$value/00001101/C 2$value/00010011/C \
            2$value/00011100/C | awk -v last="$((8 - value))" '
                { print }
                $2 == "T" && !asked++ { for (r = 2; r < 8; r++) printf "7 W %d %s\n7 K\n", r, last; print "7 T" }
                END { print "7 C" }'
    done
}

slow() {
    local slow=${SLOW:-5} LIMIT=${LIMIT:-20}
    run 'judge: eight transactions, behind 64 outcomes' $little "$(opaque 125)" judge <"$top/examples/slowest.trace"
    run "judge: $slow reads of a live transaction" $little "$(opaque $((113 + 2 * slow)))" judge < <(live_reads "$slow")
    run 'judge: the same, and at last a value that nobody wrote' $little \
        "1 {\"at\":$((115 + 2 * slow)),\"events\":$((115 + 2 * slow)),\"verdict\":\"violated\"}" judge \
        < <(live_reads "$slow" && printf '7 R 7\n7 V 9\n')
    run "judge: $slow windows from 64 outcomes to 64, not blind" $little "$(opaque $((64 + 82 * slow)))" judge \
        < <(closing_windows "$slow")
}

# A run that a shell starts by this text: its name, the most KiB, the status and output that it has to have, and its words.
shell_row() {
    local name=$1 most=$2 text=$3 wanted=$4 status=0
    shift 4
    /usr/bin/time -q -o "$folder/time" -f '%e %M' timeout "${LIMIT:-3600}" bash -c "$text" bash "$program" "$@" \
        >"$folder/output" 2>"$folder/errors" || status=$?
    end_run "$*: $name" "$most" "$wanted" "$status $(cat "$folder/output" "$folder/errors")"
}

# A run whose streams are as these redirections say. The shell makes them, since `time` would put a file in place of a closed one.
streams_row() {
    local name=$1 redirections=$2 wanted=$3
    shift 3
    shell_row "$name" 100000 "exec \"\$@\" $redirections" "$wanted" "$@"
}

# A run that may take so many KiB, which are too few.
limited() {
    local name=$1 most=$2
    shift 2
    shell_row "$name" "$most" "ulimit -v $most && exec \"\$@\"" '4 {"fault":"memory"}' "$@"
}

limits() {
    local reads=${READS:-10000000} bytes=${BYTES:-1000000000} little=20000
    limited "a window of $reads reads, in $((reads / 50)) KiB" $((reads / 50)) show \
        < <(repeated $((2 * reads)) $'0 R 0\n0 V 0' && printf '0 T\n0 C\n')
    limited "a window from 64 outcomes that has no order, in $little KiB" $little judge < <(live_reads 1 && printf '7 R 7\n7 V 9\n')
    limited "$reads steps, in $((reads / 50)) KiB" $((reads / 50)) steps < <(echo 'ring-steps 1 4 2 100' && yes peek | head -n "$reads")
    for command in drive bench; do
        limited "$bytes spaces, in $((bytes / 2000)) KiB" $((bytes / 2000)) $command < <(copies "$bytes" ' ')
    done
}

# The status and the message if the output cannot be written.
unwritten='4 error: cannot write to standard output (disk full?). The output is incomplete; run again'

# A command on a file, with each of its streams closed, full, or no file to read, and what it writes otherwise.
streams_of() {
    local file=$1 empty=$2 plain status=0
    shift 2
    plain=$("$program" "$@" <"$file") || status=$?
    plain="$status $plain"
    streams_row 'standard output closed' "<'$file' >&-" "$unwritten" "$@"
    streams_row 'standard output full' "<'$file' >/dev/full" "$unwritten" "$@"
    exec 3> >(exit)
    wait $!
    streams_row 'a pipe that nobody reads' "<'$file' >&3" "$unwritten" "$@"
    exec 3>&-
    streams_row 'standard error closed' "<'$file' 2>&-" "$plain" "$@"
    streams_row 'standard error full' "<'$file' 2>/dev/full" "$plain" "$@"
    streams_row 'no standard input' '<&-' '4 {"fault":"io"}' "$@"
    streams_row 'a directory as standard input' '</' '4 {"fault":"io"}' "$@"
    streams_row 'standard input that is for writing' "0>'$folder/written'" '4 {"fault":"io"}' "$@"
    streams_row 'an empty standard input' '</dev/null' "4 $empty" "$@"
    streams_row 'all closed' '<&- >&- 2>&-' '4 ' "$@"
}

# Nobody reads what the command with these words writes any more, after so many bytes: these are those that it writes otherwise.
left_by_reader() {
    local bytes=$1 same='as otherwise'
    shift
    "$program" "$@" <"$folder/long" >"$folder/whole"
    { /usr/bin/time -q -o "$folder/time" -f '%e %M' "$program" "$@" <"$folder/long" 2>"$folder/errors" || echo $? >"$folder/status"; } |
        head -c "$bytes" >"$folder/output"
    cmp -s "$folder/output" <(head -c "$bytes" "$folder/whole") || same='other bytes'
    end_run "$*: a reader that leaves after $bytes bytes" 100000 '4 as otherwise' "$(cat "$folder/status") $same"
}

streams() {
    echo '{"registers":1,"scripts":[[["W 0 5","T"]]],"order":[0,0]}' >"$folder/workload"
    local headless='{"fault":"bad header"}'
    streams_of "$top/examples/dirty_read.trace" "$headless"$'\nerror: the input is empty or begins with an empty line; the first line must be a header, such as opacity-trace 1 8' judge
    streams_of "$top/examples/dirty_read.trace" "$headless"$'\nerror: the input is empty or begins with an empty line; the first line must be a header, such as opacity-trace 1 8' show
    streams_of "$top/examples/stopped_writer.steps" "$headless" steps
    streams_of "$folder/workload" '{"fault":"json"}' drive --trace
    streams_of "$folder/workload" '{"fault":"json"}' bench --trace
    local help
    help=$("$program" --help)
    streams_row 'no standard input' '<&-' "0 $help" --help
    streams_row 'standard output closed' '>&-' "$unwritten" --help
    streams_row 'standard error closed' '2>&-' '4 {"fault":"usage"}' replay
    streams_row 'all closed' '<&- >&- 2>&-' '4 ' replay
    { printf '{"registers":1,"scripts":[[' && times 999 "[$(times 16 '"R 0",')\"T\"]," && printf '["T"]]],"order":['
        times 16999 0, && printf '0]}'; } >"$folder/long"
    left_by_reader 1000 drive --trace
    left_by_reader 100000 drive --trace
    left_by_reader 1000 bench --trace
}

# A workload that both commands read from what this generates: the fault, or none where they run it.
workload_rows() {
    local name=$1 most=$2 fault=$3 generate=$4 ends=''
    for command in drive bench; do
        local wanted="4 {\"fault\":\"$fault\"}"
        [ "$command" = drive ] || ends=$'\n{"ends":["done"]}'
        [ "$fault" != none ] || wanted="$(opaque 4)$ends"
        run "$command: $name" "$most" "$wanted" $command < <(eval "$generate")
    done
}

workloads() {
    local bytes=${BYTES:-1000000000} scripts='"scripts":[[["W 0 5","T"]]]'
    local head="{\"registers\":1,$scripts,\"order\":" whole="{\"registers\":1,$scripts,\"order\":[0,0]}"
    local most=$((2 * bytes / 1000 + 20000))
    workload_rows '127 lists in one another' $little shape 'copies 127 [ && copies 127 ]'
    workload_rows '128 lists in one another' $little json 'copies 128 [ && copies 128 ]'
    workload_rows '127 objects in one another' $little shape "times 127 '{\"a\":' && echo 1 && copies 127 }"
    workload_rows '128 objects in one another' $little json "times 128 '{\"a\":' && echo 1 && copies 128 }"
    workload_rows 'an order that makes it 127 deep' $little shape "printf '%s' '$head' && copies 126 [ && copies 126 ] && echo }"
    workload_rows 'an order that makes it 128 deep' $little json "printf '%s' '$head' && copies 127 [ && copies 127 ] && echo }"
    workload_rows 'a number of 10,000 digits' $little json "printf '%s' '$head[' && copies 10000 1 && echo ']}'"
    workload_rows 'a fraction of 10,000 digits' $little shape "printf '%s' '$head[0.' && copies 10000 1 && echo ']}'"
    workload_rows 'an exponent of 10,000 digits' $little json "printf '%s' '$head[1e' && copies 10000 1 && echo ']}'"
    workload_rows 'one below 0 of 10,000 digits' $little shape "printf '%s' '$head[1e-' && copies 10000 1 && echo ']}'"
    workload_rows "a string of $((bytes / 10)) bytes" $most shape \
        "printf '%s' '$head[\"' && copies $((bytes / 10)) a && echo '\"]}'"
    workload_rows "a key of $((bytes / 10)) bytes" $most shape \
        "printf '%s' '$head[],\"' && copies $((bytes / 10)) a && echo '\":0}'"
    workload_rows "$bytes spaces" $most json "copies $bytes ' '"
    workload_rows "a workload behind $bytes spaces" $most none "copies $bytes ' ' && echo '$whole'"
    workload_rows "a workload before $bytes spaces" $most none "echo '$whole' && copies $bytes ' '"
    workload_rows 'a key 100,000 times' 100000 none "printf '{' && times 100000 '\"registers\":9,' && printf '%s' '${whole#\{}'"
    workload_rows 'three keys 100,000 times' 100000 none \
        "printf '{' && times 100000 '\"registers\":9,\"scripts\":[],\"order\":0,' && printf '%s' '${whole#\{}'"
    workload_rows '100,000 keys' 100000 shape "printf '{' && seq -f '\"%.0f\":0,' 100000 | tr -d '\n' && printf '%s' '${whole#\{}'"
}

for group in ${*:-lines length reads cuts aborts slow limits streams workloads}; do
    case $group in
        lines) long_lines ;;
        length | reads | cuts | aborts | slow | limits | streams | workloads) $group ;;
        *) echo "extremes.sh: no group $group" >&2 && exit 1 ;;
    esac
done
end_rows
