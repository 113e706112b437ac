#!/usr/bin/env bash
# Runs the built program as its users do: first the test cases of tests/rows, then the command lines below, whose input or output is long or
# generated.
#
#   tests/command.sh [FILE.rows..]
#
# Each command line that fails is printed. The last line is 'N passed, M failed', and the exit status is 1 if one failed. A test case is a
# command line, its input, and the output and status that it must have. It has these lines:
#
#   tmwatch judge --window 3     the command line, with spaces between arguments; after a final '<', a file as standard input
#   < opacity-trace 1 1 | 0 T    lines of standard input, separated by ' | ', each with its line feed
#   <- 0 T                       the same, but the last line has no line feed
#   > {"fault":"usage"}          lines of standard output; without such a line, it must be empty
#   ~ Usage: tmwatch             a part of standard output; the rest may be anything
#   ! error: unexpected          the beginning of standard error; without such a line, it must be empty
#   ? no two transactions        a line that standard error may be; otherwise it must be empty
#   = 4                          the exit status; the last line of the test case
#
# In input and output, \\, \r, \t and \xHH stand for bytes, as in printf, and @VERSION@ for the program's version. Empty lines and lines
# that begin with '#' are comments.
set -eu
# shellcheck source=tests/common.sh
. "$(dirname "${BASH_SOURCE[0]}")/common.sh"
[ -x "$program" ] || "$top/build"

# Runs the program with these words on standard input, and keeps what it writes and its exit status.
run() {
    status=0
    "$program" "$@" >"$folder/output" 2>"$folder/errors" || status=$?
}

# Tells a row that has begun and has no exit status: it was never run.
expect_none_open() {
    [ -z "$row" ] || count "$file: $row" 'an exit status' 'none'
}

# A new row, which reads and writes nothing.
begin_row() {
    expect_none_open
    row=$1 input=$folder/input has='' error='' maybe=''
    : >"$folder/input"
    : >"$folder/wanted"
    if [[ $row == *' < '* ]]; then
        input=$top/${row##* < }
    fi
    read -ra words <<<"${row% < *}"
}

# The lines of a text, parted by ' | ', each with its line feed.
lines_of() {
    local text=${1//@VERSION@/$version}
    printf '%b\n' "${text// | /\\n}"
}

# Runs the row, and counts it by its status, its output and what standard error begins with.
end_row() {
    run "${words[@]:1}" <"$input"
    local output='as wanted' errors
    if [ -n "$has" ]; then
        grep -qF -- "$has" "$folder/output" || output=$(cat "$folder/output")
    else
        cmp -s "$folder/wanted" "$folder/output" || output=$(cat "$folder/output")
    fi
    errors=$(head -c "${#error}" "$folder/errors" | tr -d '\0')
    [ -n "$error" ] || errors=$(cat "$folder/errors")
    [ "$errors" != "$maybe" ] || errors=''
    count "$file: $row ($(head -c 100 "$input" | tr '\n\0' '| '))" "$1 'as wanted' '$error'" "$status '$output' '$errors'"
    row=''
}

# Runs each row of a file.
run_rows() {
    local line
    file=$(basename "$1") row=''
    while IFS= read -r line || [ -n "$line" ]; do
        case $line in
        '' | '#'*) ;;
        'tmwatch'*) begin_row "$line" ;;
        '<- '*) lines_of "${line#<- }" | head -c -1 >>"$folder/input" ;;
        '< '*) lines_of "${line#< }" >>"$folder/input" ;;
        '> '*) lines_of "${line#> }" >>"$folder/wanted" ;;
        '~ '*) has=${line#\~ } ;;
        '! '*) error=${line#! } ;;
        '? '*) maybe=${line#\? } ;;
        '= '*) end_row "${line#= }" ;;
        *) count "$file" 'a line of a row' "$line" ;;
        esac
    done <"$1"
    expect_none_open
}

if [ $# -gt 0 ]; then
    for rows in "$@"; do
        run_rows "$rows"
    done
    end_rows
    exit
fi
for rows in "$top"/tests/rows/*.rows; do
    run_rows "$rows"
done

# A command line on a file, the status and the output that it has to have, and standard error, which is $errors or empty.
expect() {
    local input=$1 wanted=$2 output=$3
    shift 3
    run "$@" <"$top/$input"
    count "$* < $input" "$wanted '$output' '${errors:-}'" "$status '$(cat "$folder/output")' '$(cat "$folder/errors")'"
}

# A workload of the examples on a memory that makes so many events of it, opaque so far.
expect_events() {
    expect "examples/$1.json" 0 "{\"events\":$3,\"verdict\":\"opaque so far\"}" drive --memory "$2"
}

# A workload on standard input, the status and the output that it has to have, and nothing on standard error.
expect_of() {
    local workload=$1 wanted=$2 output=$3
    shift 3
    run "$@" <<<"$workload"
    count "$* of $workload" "$wanted '$output' ''" "$status '$(cat "$folder/output")' '$(cat "$folder/errors")'"
}

# A workload of ten megabytes that goes on with this byte, and the fault's line.
expect_hostile() {
    { printf '%s' "$1" && head -c 10000000 /dev/zero | tr '\0' "$2" && printf '%s' "$3"; } >"$folder/hostile"
    run drive --trace <"$folder/hostile"
    count "$1$2..$3" "4 '$4' ''" "$status '$(cat "$folder/output")' '$(cat "$folder/errors")'"
}

# A command line that asks for help: a line of its text, on standard output alone.
expect_help() {
    local line=$1
    shift
    run "$@" </dev/null
    count "$*" "0 1 ''" "$status $(grep -cxF -- "$line" "$folder/output") '$(cat "$folder/errors")'"
}

# A wrong command line: the line of the fault, and why on standard error.
expect_usage() {
    local why=$1
    shift
    run "$@" </dev/null
    count "$*" "4 '{\"fault\":\"usage\"}' '$why'" "$status '$(cat "$folder/output")' '$(head -n 1 "$folder/errors")'"
}

expect examples/dirty_read.trace 1 '{"at":4,"events":8,"verdict":"violated"}' judge
expect examples/own_write.trace 0 '{"events":6,"verdict":"opaque so far"}' judge
undecided='undecided: more transactions than --window allows without a quiescent point. Put a barrier after every transaction or two (docs/RECORDING.md)'
many_states='undecided: more possible states at a quiescent point than --states allows. Read each register before you write it (docs/RECORDING.md)'
errors=$undecided expect examples/left_open.trace 2 '{"at":16,"events":16,"verdict":"undecided","why":"transactions"}' judge
errors=$many_states expect examples/two_writers.trace 2 '{"at":8,"events":8,"verdict":"undecided","why":"states"}' judge --states 1
errors=$undecided expect examples/dirty_read.trace 2 '{"at":3,"events":8,"verdict":"undecided","why":"transactions"}' judge --window=1 --states=64
expect examples/dirty_read.trace 1 '{"at":4,"events":8,"verdict":"violated"}' judge --criterion opacity
# each trace by both criteria: the lengths at which each verdict was settled, or 0
both_of() {
    local name=$1 events=$2 status=$3 opacity=$4 strict=$5
    local lines=('{"events":'"$events"',"verdict":"opaque so far"}' '{"criterion":"strict","events":'"$events"',"verdict":"strict so far"}')
    [ "$opacity" = 0 ] || lines[0]='{"at":'"$opacity"',"events":'"$events"',"verdict":"violated"}'
    [ "$strict" = 0 ] || lines[1]='{"at":'"$strict"',"criterion":"strict","events":'"$events"',"verdict":"violated"}'
    expect "examples/$name.trace" "$status" "${lines[0]}"$'\n'"${lines[1]}" judge --criterion both
    expect "examples/$name.trace" "$((strict > 0))" "${lines[1]}" judge --criterion=strict
}
both_of dirty_read 8 1 4 0
both_of zombie_read 12 1 10 0
both_of opposite_readers 16 1 14 16
both_of lost_update 12 1 12 12
both_of lost_writer 8 1 8 8
both_of stale_read 6 1 6 0
both_of commit_pending_read 6 0 0 0
both_of own_write 6 0 0 0
both_of add 6 0 0 0
both_of two_writers 8 0 0 0
errors=$undecided expect examples/left_open.trace 2 "$(printf '%s\n' '{"at":16,"events":16,"verdict":"undecided","why":"transactions"}' \
    '{"at":16,"criterion":"strict","events":16,"verdict":"undecided","why":"transactions"}')" judge --criterion both
# where each went wrong: the report's line, the states, the heads and the window's events
expect examples/dirty_read.trace 1 "$(printf '%s\n' '{"at":4,"events":8,"verdict":"violated"}' '    state  0' '    event  thread 0       thread 1' \
    '        1  T1 W 0 1' '        2     K' '        3                 T2 R 0' '        4                    V 1    violates opacity')" show
expect examples/stale_read.trace 1 "$(printf '%s\n' '{"at":6,"events":6,"verdict":"violated"}' '    state  1' '    event  thread 0       thread 1' \
    '        5                 T1 R 0' '        6                    V 0    violates opacity')" show --criterion=opacity
expect examples/stale_read.trace 1 "$(printf '%s\n' 'opacity-trace 2 1 1' '1 R 0' '1 V 0')" show --trace
expect examples/own_write.trace 0 "$(printf '%s\n' '{"events":6,"verdict":"opaque so far"}' '    state  0' '    event  thread 0' \
    '        1  T1 W 0 7' '        2     K' '        3     R 0' '        4     V 7' '        5     T' '        6     C')" show
errors=$undecided expect examples/dirty_read.trace 2 "$(printf '%s\n' '{"at":3,"criterion":"strict","events":8,"verdict":"undecided","why":"transactions"}' '    state  0' \
    '    event  thread 0       thread 1' '        1  T1 W 0 1' '        2     K' '        3                 T2 R 0    undecided: too many transactions')" \
    show --criterion strict --window 1
errors=$many_states expect examples/two_writers.trace 2 "$(printf '%s\n' 'opacity-trace 2 1 0' "$(sed 1d "$top/examples/two_writers.trace")")" show --states=1 --trace
# two states at the cut of a violated run: each of the two traces is violated
printf '%s\n' '0 R 0' '0 V 3' | cat "$top/examples/two_writers.trace" - >"$folder/two_states"
run show --trace <"$folder/two_states"
count 'show --trace of two states' "1 $(printf '%s\n' 'opacity-trace 2 1 1' '0 R 0' '0 V 3' 'opacity-trace 2 1 2' '0 R 0' '0 V 3')" \
    "$status $(cat "$folder/output")"
for place in 1 2; do
    awk -v place="$place" '/^opacity-trace/ { n++ } n == place' "$folder/output" >"$folder/one_state"
    count "judge of trace $place" '{"at":2,"events":2,"verdict":"violated"}' "$("$program" judge <"$folder/one_state")"
done
# the window of each example, from its one state, is answered as the example is
for trace in "$top"/examples/*.trace; do
    for criterion in opacity strict; do
        run show --criterion "$criterion" --trace <"$trace"
        [ "$(grep -c opacity-trace "$folder/output")" = 1 ] || continue
        shown=$status
        mv "$folder/output" "$folder/window"
        run judge --criterion "$criterion" <"$folder/window"
        count "show --criterion $criterion --trace < $(basename "$trace") | judge" "$shown" "$status"
    done
done
expect examples/stopped_writer.steps 0 "$(printf '%s\n' 'saw 0' cleared 'place 0' stopped 'not now' 'saw 0' cleared 'place 1' \
    filled 'published 1' 'not ready' 'not now' 'log 2 taken 0')" steps
expect examples/dirty_read.trace 4 '{"fault":"bad header"}' steps
expect examples/write_skew.json 0 '{"events":16,"verdict":"opaque so far"}' drive
for row in 'no_conflict 12 8 12' 'write_skew 16 10' 'reader_among_writers 22 16' 'seventeenth_write 38 38 38' 'adds_that_collide 16 12'; do
    read -r name norec lock torn <<<"$row"
    expect_events "$name" norec "$norec"
    expect_events "$name" lock "$lock"
    [ -z "$torn" ] || expect_events "$name" torn "$torn"
done
expect examples/reader_among_writers.json 1 '{"at":10,"events":24,"verdict":"violated"}' drive --memory torn
expect examples/write_skew.json 1 '{"at":16,"events":16,"verdict":"violated"}' drive --memory=torn
expect examples/adds_that_collide.json 1 "$(printf '%s\n' 'opacity-trace 2 1 0' '0 N 0 1' '0 V 0' '1 N 0 1' '1 V 0' '0 T' '0 C' \
    '1 T' '1 C' '0 N 0 1' '0 V 1' '0 T' '0 C' '1 N 0 1' '1 V 2' '1 T' '1 C' '{"at":8,"events":16,"verdict":"violated"}')" drive --memory torn --trace
expect examples/dirty_read.trace 4 '{"fault":"json"}' drive

write='{"registers":1,"scripts":[[["W 0 5","T"]]],"order":[]}'
expect_of "$write" 0 "$(printf '%s\n' 'opacity-trace 1 1' '0 W 0 5' '0 K' '0 T' '0 C' '{"events":4,"verdict":"opaque so far"}' \
    '{"ends":["done"]}')" bench --trace
for memory in norec lock torn; do
    expect_of "$write" 0 "$(printf '%s\n' '{"events":400,"verdict":"opaque so far"}' '{"ends":["done"]}')" bench --memory "$memory" --rounds 100
done
expect_of "$write" 0 "$(printf '%s\n' '{"events":4,"verdict":"opaque so far"}' '{"ends":["done"]}')" bench --ring=1 --patience 1000000000
expect_of "{\"registers\":1,\"scripts\":[[$(yes '["W 0 1","T"],' | head -n 99 | tr -d '\n')[\"W 0 1\",\"T\"]]],\"order\":[]}" 0 \
    "$(printf '%s\n' '{"events":400,"verdict":"opaque so far"}' '{"ends":["done"]}')" bench --ring 8 --patience 1000000000
expect_of '{"registers":1,"scripts":[[],[]],"order":[]}' 0 "$(printf '%s\n' '{"events":0,"verdict":"opaque so far"}' '{"ends":["done","done"]}')" bench
expect_of '{"registers":1,"scripts":[[],[]],"order":[]}' 4 '{"fault":"ring"}' bench --ring 1
# on a terminal, and there alone, a bench tells after each 100,000 rounds how far it has come, and clears that at the end
told_on_terminal() {
    script -qec "'$program' bench $* <'$folder/made' >'$folder/output'" /dev/null </dev/null | sed 's/\r\x1b\[K/|/g'
}
printf '{"registers":1,"scripts":[[[%s"T"]]],"order":[]}' "$(yes '"W 0 5",' | head -n 17 | tr -d '\n')" >"$folder/made"
count 'a bench with forced aborts, on a terminal' \
    '|100000 rounds, 3400000 events, 100000 forced aborts|200000 rounds, 6800000 events, 200000 forced aborts|' \
    "$(told_on_terminal --rounds 200001)"
count 'its report' '{"events":6800034,"verdict":"opaque so far"} {"ends":["done"]}' "$(paste -s -d ' ' "$folder/output")"
echo "$write" >"$folder/made"
line='|100000 rounds, 400000 events, 0 forced aborts|'
for row in ":$line" "--show:$line" "--show --trace:$line" '--trace:' '--quiet:' '--quiet --show:'; do
    count "bench ${row%%:*} on a terminal" "${row#*:}" "$(told_on_terminal --rounds 100001 ${row%%:*})"
done
count 'bench of one round on a terminal' '' "$(told_on_terminal)"
run bench --rounds 100001 <"$folder/made"
count 'bench on no terminal' '' "$(cat "$folder/errors")"
# the window of a violated bench is violated, from each of its states
run bench --memory torn --rounds 100000 --show --trace <"$top/examples/hunt.json"
mv "$folder/output" "$folder/windows"
traces=$(grep -c opacity-trace "$folder/windows" || true)
count 'bench --memory torn --show --trace, with a trace' '1 1' "$status $((traces > 0))"
for place in $(seq "$traces"); do
    awk -v place="$place" '/^opacity-trace/ { n++ } n == place' "$folder/windows" >"$folder/window"
    run judge <"$folder/window"
    count "bench --memory torn --show --trace | judge of trace $place" 1 "$status"
done
expect_of '{' 4 '{"fault":"json"}' bench
expect_of '[]' 4 '{"fault":"shape"}' bench --trace

expect_help 'Usage: tmwatch <COMMAND>' --help
expect_help 'Usage: tmwatch <COMMAND>' help
expect_help 'Usage: tmwatch judge [OPTIONS]' judge --help
expect_help 'Usage: tmwatch judge [OPTIONS]' help judge
expect_help 'Usage: tmwatch show [OPTIONS]' show --help
expect_help 'Example: tmwatch show --why < run.trace' help show
expect_help 'Usage: tmwatch drive [OPTIONS]' drive --help
expect_help 'Usage: tmwatch drive [OPTIONS]' help drive
expect_help 'Usage: tmwatch bench [OPTIONS]' bench --help
expect_help 'Usage: tmwatch bench [OPTIONS]' help bench
expect_help 'Usage: tmwatch steps' steps --help
expect_help '  -V, --version  Print version' --help
expect_help 'Example: tmwatch judge --criterion both < run.trace' judge --help
# each help fits on a screen
for words in '' judge show drive bench steps; do
    run $words --help </dev/null
    count "$words --help in 40 lines of 80 columns" '0 1 0' \
        "$status $(($(wc -l <"$folder/output") <= 40)) $(awk 'length > 80' "$folder/output" | wc -l)"
done

expect_usage "error: 'tmwatch' requires a subcommand but one was not provided"
expect_usage "error: unrecognized subcommand 'replay'" replay
expect_usage "error: unrecognized subcommand 'replay'" help replay
expect_usage "error: unexpected argument '--version' found" judge --version
expect_usage "error: the argument '--window <N>' cannot be used multiple times" judge --window 3 --window 3
expect_usage "error: invalid value '9' for '--window <N>': 9 is not in 1..=8" judge --window 9
expect_usage "error: invalid value '65' for '--states <N>': 65 is not in 1..=64" judge --states=65
expect_usage "error: invalid value 'serial' for '--criterion <CRITERION>'" judge --criterion serial
expect_usage "error: invalid value 'both' for '--criterion <CRITERION>'" show --criterion both
expect_usage "error: the argument '--trace' cannot be used multiple times" show --trace --trace
expect_usage "error: invalid value '1000000000000001' for '--skipped <N>': 1000000000000001 is not in 0..=1000000000000000" show --skipped 1000000000000001
expect_usage "error: unexpected argument '--skipped' found" judge --skipped 8
expect_usage "error: the argument '--criterion <CRITERION>' cannot be used multiple times" judge --criterion strict --criterion strict
expect_usage "error: unexpected argument '--criterion' found" drive --criterion strict
expect_usage "error: invalid value 'norec2' for '--memory <MEMORY>'" drive --memory norec2
expect_usage "error: the argument '--memory <MEMORY>' cannot be used multiple times" drive --memory lock --memory torn
expect_usage "error: the argument '--trace' cannot be used multiple times" drive --trace --trace
expect_usage "error: invalid value '0' for '--ring <N>': 0 is not in 1..=4096" bench --ring 0
expect_usage "error: invalid value '4097' for '--ring <N>': 4097 is not in 1..=4096" bench --ring=4097
expect_usage "error: invalid value '0' for '--patience <N>': 0 is not in 1..=1000000000" bench --patience 0
expect_usage "error: invalid value '0' for '--rounds <N>': 0 is not in 1..=1000000000" bench --rounds 0
expect_usage "error: invalid value '1000000001' for '--rounds <N>': 1000000001 is not in 1..=1000000000" bench --rounds 1000000001
expect_usage "error: the argument '--rounds <N>' cannot be used multiple times" bench --rounds 1 --rounds 2
expect_usage "error: the argument '--show' cannot be used multiple times" bench --show --show
expect_usage "error: unexpected argument '--show' found" drive --show
expect_usage "error: unexpected argument '--rounds' found" drive --rounds 1
expect_usage "error: unexpected argument '--trace' found" judge --trace
expect_usage "error: the argument '--first' cannot be used multiple times" judge --first --first
expect_usage "error: unexpected value '1' for '--first' found; no more were expected" judge --first=1
expect_usage "error: unexpected argument '--first' found" show --first
expect_usage "error: unexpected argument '--first' found" drive --first
expect_usage "error: the argument '--summary' cannot be used multiple times" judge --summary --summary
expect_usage "error: unexpected argument '--summary' found" show --summary
expect_usage "error: unexpected argument 'further' found" judge further
expect_usage "error: unexpected argument '--window' found" steps --window 3
expect_usage 'error: an argument is not valid UTF-8' judge $'\xff'
# a file's name among the words: standard error ends with how the file is read
for command in judge show steps; do
    run "$command" examples/dirty_read.trace </dev/null
    count "$command FILE" "4 $command reads standard input: tmwatch $command < FILE" "$status $(tail -n 1 "$folder/errors")"
done

expect_hostile '[' '[' '' '{"fault":"json"}'
expect_hostile '{"registers":1,"scripts":[[]],"order":[]}' ' ' x '{"fault":"json"}'
expect_hostile '{"registers":1,"scripts":[[]],"order":[' 0 ']}' '{"fault":"json"}'
expect_hostile '{"registers":1,"scripts":[[]],"order":["' a '"]}' '{"fault":"shape"}'
expect_hostile '{"registers":1,"scripts":[[]],"order":[1' 1 ']}' '{"fault":"json"}'

# each beginning of a text: where it ends within a line it is cut there, and else it is answered by how many lines it has
each_beginning() {
    local command=$1 text=$2 answer_of=$3 size lines wanted
    for ((size = 0; size <= $(stat -c %s "$text"); size++)); do
        head -c "$size" "$text" >"$folder/beginning"
        lines=$(wc -l <"$folder/beginning")
        if [ "$size" -eq 0 ]; then
            wanted='4 {"fault":"bad header"}'
        elif [ -n "$(tail -c 1 "$folder/beginning")" ]; then
            wanted='4 {"fault":"cut","line":'$((lines + 1))'}'
        else
            wanted=$("$answer_of" "$lines")
        fi
        run "$command" <"$folder/beginning"
        count "$command of the first $size bytes" "$wanted" "$status $(cat "$folder/output")"
    done
}
dirty_read_of() {
    local events=$(($1 - 1))
    if [ "$events" -lt 4 ]; then
        echo "0 {\"events\":$events,\"verdict\":\"opaque so far\"}"
    else
        echo "1 {\"at\":4,\"events\":$events,\"verdict\":\"violated\"}"
    fi
}
# two writers whose claims are published in the other order, in a ring that is full between them
printf '%s\n' 'ring-steps 1 2 2 100' 'front 0 W 0 5' 'front 1 T' 'tail 0' 'tail 1' 'claim 0' 'claim 1' 'fill 1' 'publish 1' peek \
    'front 1 X' 'tail 1' 'fill 0' 'publish 0' peek read free peek read free >"$folder/two_writers"
printf '%s\n' 'saw 0' 'saw 0' cleared cleared 'place 0' 'place 1' filled 'published 1' 'not ready' 'saw 0' 'full 0 2' filled \
    'published 0' ready 'word 5' 'event 0 W 0 5' ready 'word 0' 'event 1 T' >"$folder/replies"
replies_of() {
    head -n $(($1 - 1)) "$folder/replies" >"$folder/first_replies"
    echo "0 $(cat "$folder/first_replies" - <<<"log $(grep -c place "$folder/first_replies") taken $(grep -c event "$folder/first_replies")")"
}
each_beginning judge "$top/examples/dirty_read.trace" dirty_read_of
each_beginning steps "$folder/two_writers" replies_of

# texts of more bytes than are held at once
expect_made() {
    local name=$1 wanted=$2 output=$3
    shift 3
    run "$@" <"$folder/made"
    count "$* of $name" "$wanted $output" "$status $(cat "$folder/output")"
}
{ echo 'opacity-trace 1 1' && yes $'0 T\n0 C' | head -n 400000; } >"$folder/made"
expect_made '400,000 events' 0 '{"events":400000,"verdict":"opaque so far"}' judge
{ echo 'opacity-trace 2 8 0 0 0 0 0 0 0 0' && yes $'7 W 7 18446744073709551615\n7 K' | head -n 2000; } >"$folder/made"
expect_made 'the longest lines' 0 "$(cat "$folder/made")" show --trace
zeros=$(head -c 5000 /dev/zero | tr '\0' 0)
for row in 'judge opacity-trace_1_1 0_T' 'steps ring-steps_1_4_2_100 peek'; do
    read -r command header line <<<"${row}"
    header=${header//_/ } line=${line//_/ }
    printf %s "$zeros" >"$folder/made"
    expect_made 'a long first line, cut' 4 '{"fault":"cut","line":1}' "$command"
    printf '%s\n' "$zeros" "$line" >"$folder/made"
    expect_made 'a long first line' 4 '{"fault":"bad header"}' "$command"
    printf '%s\n' "$header" "$line" "$zeros" "$line" >"$folder/made"
    expect_made 'a long line' 4 '{"fault":"bad line","line":3}' "$command"
done
{ echo 'ring-steps 1 1 1 1000' && for value in {0..499}; do printf '%s\n' "front 0 W 0 $value" 'tail 0' 'claim 0' 'fill 0' 'publish 0' peek read free; done; } >"$folder/made"
expect_made '4,000 steps' 0 "$(for value in {0..499}; do printf '%s\n' "saw $value" cleared "place $value" filled "published $value" ready "word $value" \
    "event 0 W 0 $value"; done && echo 'log 500 taken 500')" steps

# long runs, whose output is known by how they are made
expect_long() {
    local name=$1 wanted=$2
    shift 2
    run "$@" <"$folder/made"
    count "$* of $name" "$wanted as wanted" "$status $(cmp "$folder/wanted" "$folder/output" 2>&1 && echo 'as wanted')"
}
# so many events of serial transactions, of which each second one reads what the one before has written
serial_events() {
    yes $'0 W 0 1\n0 K\n0 T\n0 C\n1 R 0\n1 V 1\n1 T\n1 C' | head -n "$1"
}
# a transaction that has committed, and one that has aborted, read behind them what nobody has written
{ echo 'opacity-trace 1 1' && serial_events 1000000 && printf '%s\n' '2 R 0' '2 V 2' '2 T' '2 C'; } >"$folder/made"
echo '{"at":1000004,"criterion":"strict","events":1000004,"verdict":"violated"}' >"$folder/wanted"
expect_long '1,000,004 events' 1 judge --criterion strict
{ echo 'opacity-trace 1 1' && serial_events 1000000 && printf '%s\n' '2 R 0' '2 V 2' '2 T' '2 A'; } >"$folder/made"
printf '%s\n' '{"at":1000002,"events":1000004,"verdict":"violated"}' \
    '{"criterion":"strict","events":1000004,"verdict":"strict so far"}' >"$folder/wanted"
expect_long '1,000,004 events' 1 judge --criterion both
# one transaction, which reads at last another value than it has written
seq 9999 | awk 'BEGIN { print "opacity-trace 1 1" } { printf "0 W 0 %d\n0 K\n", $1 } END { print "0 R 0\n0 V 9998" }' >"$folder/made"
seq 9999 | awk '
    BEGIN { print "{\"at\":20000,\"events\":20000,\"verdict\":\"violated\"}\n    state  0\n    event  thread 0" }
    { printf "%9d  %s W 0 %d\n%9d     K\n", 2 * $1 - 1, NR == 1 ? "T1" : "  ", $1, 2 * $1 }
    END { print "    19999     R 0\n    20000     V 9998  violates opacity" }' >"$folder/wanted"
expect_long 'a window of 20,000 events' 1 show
# a writer whose events are taken one after another, each by eight steps
seq 0 6249 | awk '
    BEGIN { print "ring-steps 1 1 1 10000" }
    { printf "front 0 W 0 %d\ntail 0\nclaim 0\nfill 0\npublish 0\npeek\nread\nfree\n", $1 }' >"$folder/made"
seq 0 6249 | awk '
    { printf "saw %d\ncleared\nplace %d\nfilled\npublished %d\nready\nword %d\nevent 0 W 0 %d\n", $1, $1, $1, $1, $1 }
    END { print "log 6250 taken 6250" }' >"$folder/wanted"
expect_long '50,000 steps' 0 steps

# the least microseconds of five runs of these words
least_time() {
    local least=999999999 began took
    for _ in 1 2 3 4 5; do
        began=${EPOCHREALTIME/[.,]/}
        "$@" <"$folder/made" >"$folder/output"
        took=$((${EPOCHREALTIME/[.,]/} - began))
        least=$((took < least ? took : least))
    done
    echo "$least"
}
# 3,000,000 events are judged within forty times what it takes to count their lines
{ echo 'opacity-trace 1 1' && serial_events 3000000; } >"$folder/made"
counting=$(least_time wc -l)
judging=$(least_time "$program" judge)
echo "judge of 3,000,000 events: $((judging / counting)) times wc -l, $judging and $counting microseconds"
count 'judge of 3,000,000 events, within 40 times wc -l' '1 {"events":3000000,"verdict":"opaque so far"}' \
    "$((judging <= 40 * counting)) $(cat "$folder/output")"

# each beginning of a workload but the whole is no JSON
reads='{"registers":1,"scripts":[[["R 0","R 0","T"]]],"order":[0,0,0]}'
for command in drive bench; do
    for ((size = 0; size < ${#reads}; size++)); do
        run "$command" --trace <<<"${reads:0:size}"
        count "$command --trace of the first $size bytes" '4 {"fault":"json"}' "$status $(cat "$folder/output")"
    done
done

# the most transactions of a script and the longest order, and one more
list_of() {
    local all
    printf -v all "%$1s" ''
    all=${all// /$2,}
    printf '[%s]' "${all%,}"
}
expect_large() {
    printf '{"registers":1,"scripts":%s,"order":%s}' "$2" "$3" >"$folder/made"
    expect_made "$1" "$4" "$5" drive
}
script=$(list_of 1000 '["T"]')
expect_large '8 scripts of 1,000 transactions' "$(list_of 8 "$script")" '[]' 0 '{"events":0,"verdict":"opaque so far"}'
expect_large 'all of 8,000 transactions' "$(list_of 8 "$script")" "$(list_of 1000 0,1,2,3,4,5,6,7)" 0 '{"events":16000,"verdict":"opaque so far"}'
expect_large '1,001 transactions' "[$(list_of 1001 '["T"]')]" '[]' 4 '{"fault":"shape"}'
expect_large 'an order of 100,000' '[[]]' "$(list_of 100000 0)" 0 '{"events":0,"verdict":"opaque so far"}'
expect_large 'an order of 100,001' '[[]]' "$(list_of 100001 0)" 4 '{"fault":"shape"}'

# a bad line is answered though nothing behind it has been told
mkfifo "$folder/open"
for text in 'opacity-trace 1 1\n0 R 01\n:{"fault":"bad line","line":2}' '~\n:{"fault":"bad header"}'; do
    { printf %b "${text%%:*}" && exec sleep 600; } >"$folder/open" &
    status=0
    timeout 300 "$program" judge <"$folder/open" >"$folder/output" || status=$?
    count "judge of an open '${text%%:*}'" "4 ${text#*:}" "$status $(cat "$folder/output")"
    kill $! 2>/dev/null || true
done

# standard output that takes nothing, which standard error tells, and standard error that takes nothing
for words in 'judge' 'judge --summary' 'show' 'drive' 'bench' 'steps' '--help' 'replay'; do
    status=0
    "$program" $words <"$top/examples/dirty_read.trace" >/dev/full 2>"$folder/errors" || status=$?
    count "$words > /dev/full" '4 error: cannot write to standard output (disk full?). The output is incomplete; run again' \
        "$status $(tail -n 1 "$folder/errors")"
done
status=0
"$program" replay </dev/null >"$folder/output" 2>/dev/full || status=$?
count 'replay 2> /dev/full' "4 '{\"fault\":\"usage\"}'" "$status '$(cat "$folder/output")'"

# before a build, help, the version and wrong words take no kit, and a terminal is told what is compiled
mkdir -p "$folder/unbuilt/crates/tmwatch" "$folder/unbuilt/crates/tmw_command/specs" "$folder/unbuilt/packaging" "$folder/kit"
cp "$top/tmwatch" "$folder/unbuilt"
cp "$top/packaging/help.txt" "$top/packaging/words.awk" "$folder/unbuilt/packaging"
cp "$top/crates/tmw_command/specs/Version.antt" "$folder/unbuilt/crates/tmw_command/specs"
printf '%s\n' '#!/bin/sh' 'echo compiled >&2' 'exit 3' >"$folder/kit/rt"
chmod +x "$folder/kit/rt"
unbuilt=$folder/unbuilt/tmwatch
for command in '' judge show drive bench steps; do
    count "the help of ${command:-the program}, before a build" "$("$program" $command --help | md5sum)" \
        "$(PATH=$folder/kit:$PATH "$unbuilt" $command --help | md5sum)"
done
awk '/^tmwatch/ { row = ""; is_early = / (help|--help|-h|--version|-V)( |$)/ }
    { row = row $0 "\n" }
    /^> \{"fault":"usage"\}$/ { is_early = 1 }
    /^= / && is_early { printf "%s", row }' "$top/tests/rows/words.rows" >"$folder/early.rows"
count 'rows that need no program' enough "$([ "$(grep -c ^tmwatch "$folder/early.rows")" -ge 70 ] && echo enough)"
program=$unbuilt PATH=$folder/kit:$PATH run_rows "$folder/early.rows"
told=$(PATH=$folder/kit:$PATH script -qec "'$unbuilt' judge <'$top/examples/add.trace'" /dev/null </dev/null | tr -d '\r' || true)
count 'what a terminal is told before a build' 'tmwatch: the program is not built: compiling it without its proofs, which takes about a minute' \
    "$(head -n 1 <<<"$told")"
count 'what is compiled before a build' compiled "$(PATH=$folder/kit:$PATH "$unbuilt" judge <"$top/examples/add.trace" 2>&1 | head -n 1)"

end_rows
