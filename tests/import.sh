#!/usr/bin/env bash
# Converts small histories to traces with examples/import, and judges these under strict serializability; checks them as a whole with
# whole.py; and gives invalid ones to both, which must refuse them. Each history was written for its test case. Then compares the verdicts
# on random histories with those that all serial orders give (import.py).
#
#   tests/import.sh
#
# The last line is 'N passed, M failed', and the exit status is 1 if a test case failed. Without python3, nothing is tested: a line says so,
# and the status is 0.
# Environment: HISTORIES (300), the number of random ones.
set -eu
# shellcheck source=tests/common.sh
. "$(dirname "${BASH_SOURCE[0]}")/common.sh"
has python3 tests/import.sh || exit 0
[ -x "$program" ] || "$top/build"
export PYTHONDONTWRITEBYTECODE=1
import=$top/examples/import
mkdir "$folder/rows"
rows=0

convert() {
    "$import/$1" "${@:2}" >"$folder/trace"
}

# Notes a row with the history on standard input: what checks it, its name, what is wanted, and the words of the command. Processes of
# Python begin slowly: so one of them runs all commands.
note() {
    local row=$folder/rows/$((rows += 1))
    mkdir "$row"
    printf '%s\n' "$1" "$2" >"$row/check"
    echo "$3" >"$row/wanted"
    printf '%s\n' "${@:4}" >"$row/words"
    cat >"$row/input"
}
# A trace, which judge reports on in this line.
judged() {
    note is_judged "$@"
}
is_judged() {
    [ "$(cat "$1/status")" = 0 ] || { cat "$1/errors" && return 1; }
    "$program" judge --criterion strict <"$1/output" | diff "$1/wanted" -
}
# Nothing but these words after the command's name, and status 4.
refused() {
    note is_refused "$1" "$3: $2" "${@:3}"
}
is_refused() {
    diff "$1/wanted" "$1/errors" && diff - "$1/output" </dev/null && [ "$(cat "$1/status")" = 4 ]
}
# The words of whole.py, and its status.
decided() {
    note "is_decided $2" "$1" "$3" whole.py "${@:4}"
}
is_decided() {
    diff "$2/wanted" "$2/output" && [ "$(cat "$2/status")" = "$1" ]
}
run_rows() {
    local row check name
    python3 "$top/tests/import.py" "$folder/rows"
    for row in "$folder"/rows/*; do
        { read -r check && read -r name; } <"$row/check"
        # shellcheck disable=SC2086
        ends "$name" 0 $check "$row"
    done
}

so_far() {
    echo "{\"criterion\":\"strict\",\"events\":$1,\"verdict\":\"strict so far\"}"
}
violated() {
    echo "{\"at\":$1,\"criterion\":\"strict\",\"events\":$2,\"verdict\":\"violated\"}"
}
whole_so_far() {
    echo "{\"criterion\":\"strict\",\"proved\":false,\"transactions\":$1,\"verdict\":\"strict so far\"}"
}
# (the line, the number of transactions, and what no configuration has)
whole_violated() {
    echo "{\"at\":$1,\"criterion\":\"strict\",\"proved\":false,\"transactions\":$2,\"verdict\":\"violated\"}"
    echo "line $1 can't be placed: $3"
}

last=1 ends 'random histories' 0 python3 "$top/tests/import.py" "$program" "${HISTORIES:-300}"

# Jepsen: histories with their verdicts.
judged 'Jepsen, a reader of a write' "$(so_far 8)" jepsen.py <<'END_OF_HISTORY'
{:type :invoke, :process 0, :f :txn, :value [[:w 7 1]], :time 10, :index 0}
{:type :info, :process :nemesis, :f :start, :value nil, :index 1}
{:type :ok, :process 0, :f :txn, :value [[:w 7 1]], :time 20, :index 2}
{:type :invoke, :process 1, :f :txn, :value [[:r 7 nil]], :time 30, :index 3}
{:type :ok, :process 1, :f :txn, :value [[:r 7 1]], :time 40, :index 4}
END_OF_HISTORY
stale='{:type :invoke, :process 0, :f :txn, :value [[:w 7 1]]}
{:type :ok, :process 0, :f :txn, :value [[:w 7 1]]}
{:type :invoke, :process 1, :f :txn, :value [[:r 7 nil]]}
{:type :ok, :process 1, :f :txn, :value [[:r 7 nil]]}'
judged 'Jepsen, a stale read' "$(violated 8 8)" jepsen.py <<<"$stale"
judged 'Jepsen, a stale read, in one line' "$(violated 8 8)" jepsen.py <<<"${stale//$'\n'/ }"
judged 'Jepsen, a stale read, in a vector of one line' "$(violated 8 8)" jepsen.py <<<"[${stale//$'\n'/}]"
judged 'Jepsen, a stale read, a word a line' "$(violated 8 8)" jepsen.py <<<"${stale// /$'\n'}"
judged 'Jepsen, a stale read, in records' "$(violated 8 8)" jepsen.py <<<"(${stale//'{'/'#jepsen.history.Op{'})"
judged 'Jepsen, a stale read, one of values within others' "$(violated 8 8)" jepsen.py \
    <<<"${stale//:f/:debug '{:value [[:w 7 2]], :type :fail, :process 9}', :f}"
other='#{\a 1/2 \newline \[ "]\"\u0041;" 0x1f #{} ##Inf -1.5e3M () \; \" {{} [] [] {}} #:a{:b/c %}} #_ #_ :x :y +1N :f'
judged 'Jepsen, a stale read, beside what else EDN has' "$(violated 8 8)" jepsen.py <<<"; {:type :invoke}
#_ #inst \"2020\" #_{:type :ok} ${stale//:f/$other}"
judged 'Jepsen, strings and keywords' "$(so_far 8)" jepsen.py :7 <<'END_OF_HISTORY'
{:type :invoke, :process -1, :value ((:w :7 "\u0041\n") (:w "7" 1))}
{:type :ok, :process -1, :value ([:w :7 "A
"] [:w "7" 1])}
{:type :invoke, :process +5, :value ([:r :7 nil])}
{:type :ok, :process 5N, :value [[:r :7 "A\n"]]}
END_OF_HISTORY
judged 'Jepsen, write skew, in a vector' "$(violated 12 12)" jepsen.py <<'END_OF_HISTORY'
[{:type :invoke, :process 0, :f :txn, :value [[:r 1 nil] [:w 2 5]]}
 {:type :invoke, :process 1, :f :txn, :value [[:r 2 nil], [:w 1 6]]}
 {:type :ok, :process 0, :f :txn, :value [[:r 1 nil] [:w 2 5]]}
 {:type :ok, :process 1, :f :txn, :value [[:r 2 nil], [:w 1 6]]}]
END_OF_HISTORY
judged 'Jepsen, write skew, of one key alone' "$(so_far 8)" jepsen.py 2 <<'END_OF_HISTORY'
{:type :invoke, :process 0, :f :txn, :value [[:r 1 nil] [:w 2 5]]}
{:type :invoke, :process 1, :f :txn, :value [[:r 2 nil], [:w 1 6]]}
{:type :ok, :process 0, :f :txn, :value [[:r 1 nil] [:w 2 5]]}
{:type :ok, :process 1, :f :txn, :value [[:r 2 nil], [:w 1 6]]}
END_OF_HISTORY
judged 'Jepsen, a failed write that was read' "$(violated 4 4)" jepsen.py <<'END_OF_HISTORY'
{:type :invoke, :process 0, :f :txn, :value [[:w 7 1]]}
{:type :invoke, :process 1, :f :txn, :value [[:r 7 nil]]}
{:type :ok, :process 1, :f :txn, :value [[:r 7 1]]}
{:type :fail, :process 0, :f :txn, :value [[:w 7 1]]}
END_OF_HISTORY
judged 'Jepsen, an unknown write that was read' "$(so_far 8)" jepsen.py <<'END_OF_HISTORY'
{:type :invoke, :process 0, :f :txn, :value [[:r 7 nil] [:w 7 1]]}
{:type :info, :process 0, :f :txn, :value nil, :error :timeout}
{:type :invoke, :process 1, :f :txn, :value [[:r 7 nil]]}
{:type :ok, :process 1, :f :txn, :value [[:r 7 1]]}
END_OF_HISTORY
judged 'Jepsen, an unknown write that was read, and then not' "$(violated 12 12)" jepsen.py <<'END_OF_HISTORY'
{:type :invoke, :process 0, :f :txn, :value [[:w 7 1]]}
{:type :invoke, :process 1, :f :txn, :value [[:r 7 nil]]}
{:type :ok, :process 1, :f :txn, :value [[:r 7 1]]}
{:type :invoke, :process 2, :f :txn, :value [[:r 7 nil]]}
{:type :ok, :process 2, :f :txn, :value [[:r 7 nil]]}
END_OF_HISTORY
judged 'Jepsen, twenty unknown writes that nobody has read' "$(so_far 4)" jepsen.py < <(
    for process in $(seq 20); do
        echo "{:type :invoke, :process $process, :f :txn, :value [[:w 7 $process]]}"
        echo "{:type :info, :process $process, :f :txn, :value [[:w 7 $process]]}"
    done
    echo '{:type :invoke, :process 0, :f :txn, :value [[:r 7 nil]]}'
    echo '{:type :ok, :process 0, :f :txn, :value [[:r 7 nil]]}'
)

# Jepsen: broken histories.
calls='expected :value [[:r KEY VALUE-or-nil] [:w KEY VALUE] ..], each a whole number, a string or a keyword'
for value in '[[:append 7 1]]' '[[:w 7 nil]]' '[[:r nil 1]]' '[[:r 7 1.5]]' '[[:w true 1]]' '[[:r 7]]' '[:r 7 nil]' '{:r 7}' '#t [[:r 7 nil]]' '[#t [:r 7 nil]]' nil; do
    refused "Jepsen, calls $value" "line 1: $calls" jepsen.py <<<"{:type :invoke, :process 0, :value $value}"
done
refused 'Jepsen, no calls' "line 2: $calls" jepsen.py <<<$'\n{:type :invoke, :process 0}'
refused 'Jepsen, an end without a begin' 'line 1: process 0 has no operation' jepsen.py <<<'{:type :ok, :process 0, :f :txn, :value [[:w 7 1]]}'
refused 'Jepsen, two operations of a process' 'line 2: process 0 has an operation already' jepsen.py <<'END_OF_HISTORY'
{:type :invoke, :process 0, :f :txn, :value [[:w 7 1]]}
{:type :invoke, :process 0, :f :txn, :value [[:w 7 2]]}
END_OF_HISTORY
for value in '[:r 7 nil] [:w 8 1]' '[:r 7 nil] [:w 7 2]' '[:r 7 nil]' '[:r 7 nil] [:r 7 1]' '[:w 7 1] [:r 7 nil]'; do
    refused "Jepsen, other calls at the end: $value" 'line 3: expected the calls of line 2, where the transaction begins' jepsen.py \
        <<<"[{:type :info, :process :nemesis}
{:type :invoke, :process 0, :value [[:r 7 nil] [:w 7 1]]}
{:type :ok, :process 0, :value [$value]}]"
done
operation='expected an operation, {:type TYPE, :process NUMBER, :value [CALL ..], ..}'
for form in :invoke '#t{:type :invoke}' '[[:invoke]]' '#{:type}'; do
    refused "Jepsen, no operation: $form" "line 1: $operation" jepsen.py <<<"$form"
done
refused 'Jepsen, another type' 'line 3: expected :type :invoke, :ok, :fail or :info' jepsen.py <<<$'\n;\n{:type :pass,\n :process 0}'
refused 'Jepsen, no type' 'line 1: expected :type :invoke, :ok, :fail or :info' jepsen.py <<<'{:process 0 :value []}'
for process in '' ':process nil' ':process 1.5' ':process [0]'; do
    refused "Jepsen, no process: $process" 'line 1: expected :process, a whole number or a name' jepsen.py <<<"{:type :invoke, $process}"
done
for index in 3 2 x '[]'; do
    refused "Jepsen, the index $index after 3" 'line 2: expected an :index above 3, since the order of the operations is that of the moments' \
        jepsen.py <<<"{:type :invoke, :process 0, :value [], :index 3}
{:type :ok, :process 0, :value [], :index $index}"
done
refused 'Jepsen, cut in an operation' 'line 4: what begins with { has no end' jepsen.py <<<"${stale%?}"
refused 'Jepsen, cut in a vector' 'line 1: what begins with [ has no end' jepsen.py <<<"[$stale"
refused 'Jepsen, a bracket too many' 'line 4: ] closes nothing' jepsen.py <<<"$stale]"
refused 'Jepsen, another bracket' 'line 2: } closes nothing: [ of line 1 is open' jepsen.py <<<$'{:type :ok, :value [[:w 7 1]\n}'
refused 'Jepsen, a tag without a form' 'line 1: } closes nothing: #t of line 1 is open' jepsen.py <<<'{:a #t}'
refused 'Jepsen, a key without a value' 'line 2: the map of line 1 has a key without a value' jepsen.py <<<$'{:type :ok, :process\n}'
refused 'Jepsen, a key twice' 'line 2: the map of line 1 has a key twice' jepsen.py <<<$'{:type :ok, :type\n:fail}'
refused 'Jepsen, a string without an end' 'line 2: a string has no end' jepsen.py <<<$'{:type :info, :process "b;"}\n{:a "b}\n{:c d}'
refused 'Jepsen, a string without an end, a line of its own' 'line 2: a string has no end' jepsen.py <<<$'{:type :info, :process :b}\n"b'
refused 'Jepsen, a string without an end, after one of two lines' 'line 3: a string has no end' jepsen.py <<<$'#_ "b\nc"\n"d'
refused 'Jepsen, cut in a character' 'line 2: a string has no end' jepsen.py < <(printf '\n\\')
refused 'Jepsen, an escape' 'line 1: a string has the escape \x' jepsen.py <<<'{:a "\x41"}'
for token in 01 1.5.5 1x '##Nan'; do
    refused "Jepsen, the number $token" "line 1: $token is no number" jepsen.py <<<"{:a $token}"
done
for token in "'a" '@a' '~a' '^a' '`a' '#<a>' ':' '#'; do
    refused "Jepsen, the word $token" "line 1: $token is no EDN" jepsen.py <<<"{:a $token 1}"
done
refused 'Jepsen, a thousand brackets' 'line 1: more than 1000 brackets are open' jepsen.py <<<"$(printf '[%.0s' $(seq 1002))"
refused 'Jepsen, other bytes' 'line 2: expected UTF-8' jepsen.py <<<$'\n\xff'
refused 'Jepsen, nothing' 'the input is empty' jepsen.py </dev/null
refused 'Jepsen, the nemesis alone' 'no transaction is known to have committed' jepsen.py <<<'{:type :info, :process :nemesis, :f :start}'
refused 'Jepsen, failed ones alone' 'no transaction is known to have committed' jepsen.py \
    <<<'{:type :invoke, :process 0, :value [[:w 7 1]]} {:type :fail, :process 0}'
refused 'Jepsen, no calls on keys' 'no transaction is known to have committed' jepsen.py \
    <<<'{:type :invoke, :process 0, :value []} {:type :ok, :process 0, :value []}'

# Intervals: histories with their verdicts.
judged 'intervals, in another order' "$(so_far 8)" intervals.py <<'END_OF_HISTORY'
{"begin": 3, "end": 4.5, "result": "ok", "calls": [["r", "x", "one"]], "client": 7}

{"begin": 1, "end": 2, "result": "ok", "calls": [["w", "x", "one"]]}
END_OF_HISTORY
judged 'intervals that touch' "$(so_far 8)" intervals.py <<'END_OF_HISTORY'
{"begin": 1, "end": 2, "result": "ok", "calls": [["w", "x", 1]]}
{"begin": 2, "end": 3, "result": "ok", "calls": [["r", "x", null]]}
END_OF_HISTORY
judged 'intervals, an unknown end' "$(so_far 8)" intervals.py <<'END_OF_HISTORY'
{"begin": 1, "result": "info", "calls": [["w", "x", 1]]}
{"begin": 1, "end": null, "result": "info", "calls": [["w", "x", 2]]}
{"begin": 2, "end": 3, "result": "ok", "calls": [["r", "x", 1]]}
END_OF_HISTORY
judged 'intervals, an unknown one that begins after its reader' "$(violated 4 8)" intervals.py <<'END_OF_HISTORY'
{"begin": 5, "result": "info", "calls": [["w", "x", 1]]}
{"begin": 2, "end": 3, "result": "ok", "calls": [["r", "x", 1]]}
END_OF_HISTORY
judged 'intervals, an unknown one ends behind its reader, which finds what nobody writes' "$(violated 9 10)" intervals.py <<'END_OF_HISTORY'
{"begin": 1, "result": "info", "calls": [["w", "x", 1]]}
{"begin": 2, "end": 3, "result": "ok", "calls": [["r", "x", 1], ["r", "y", 5]]}
END_OF_HISTORY
# (it ends with its first reader: open until the last one, it would leave the run undecided)
read_ten_times() {
    echo '{"begin": 1, "result": "info", "calls": [["w", "x", 1]]}'
    for n in {2..11}; do echo "{\"begin\": $n, \"end\": $n.5, \"result\": \"ok\", \"calls\": [[\"r\", \"x\", 1]]}"; done
}
judged 'intervals, an unknown one with ten readers' "$(so_far 44)" intervals.py < <(read_ten_times)
judged 'intervals, a number that is no string' "$(violated 7 8)" intervals.py <<'END_OF_HISTORY'
{"begin": 1, "end": 3, "result": "ok", "calls": [["r", "x", "1"]]}
{"begin": 2, "end": 4, "result": "ok", "calls": [["w", "x", 1]]}
END_OF_HISTORY
ends 'intervals, values that nobody writes' 0 convert intervals.py <<'END_OF_HISTORY'
{"begin": 1, "end": 3, "result": "ok", "calls": [["r", "x", null], ["r", "x", "1"], ["r", "y", 0]]}
END_OF_HISTORY
has_told 'intervals, values that nobody writes: it is told' -xF 'line 1: key "x" was read as "1", which nobody writes, and 1 reads more'
lost_update='{"begin": 1, "end": 4, "result": "ok", "calls": [["r", "x", null], ["w", "x", 1], ["r", "y", null]]}
{"begin": 2, "end": 5, "result": "ok", "calls": [["r", "x", null], ["w", "x", 2], ["w", "y", 3]]}'
judged 'intervals, a lost update' "$(violated 16 16)" intervals.py <<<"$lost_update"
judged 'intervals, of one key alone' "$(so_far 8)" intervals.py y <<<"$lost_update"
refused 'intervals, of a key that is not there' 'no transaction has a key z' intervals.py x z <<<"$lost_update"
nine='{"begin": 1, "end": 2, "result": "ok", "calls": [["r", 9, null], ["w", 1, 1], ["w", 2, 0], ["w", 3, 18446744073709551616], ["w", 4, "x"],
    ["w", 4, 1], ["w", "5", -1], ["w", 6, 1], ["w", 7, 18446744073709551615], ["w", 8, 1]]}'
nine=${nine//$'\n'/}
refused 'intervals, of nine keys' '9 keys are named: at most 8 can be judged' intervals.py 1 2 3 4 5 6 7 8 9 <<<"$nine"
ends 'intervals, eight keys of nine' 0 convert intervals.py --names "$folder/names" <<<"$nine"
has_told 'intervals, eight keys of nine: it is told' -x '8 of 9 keys are judged'
ends 'intervals, eight keys of nine: which' 0 diff "$folder/trace" - <<'END_OF_TRACE'
opacity-trace 1 8
0 R 0
0 V 0
0 W 1 1
0 K
0 W 2 1
0 K
0 W 3 1
0 K
0 W 4 2
0 K
0 W 4 1
0 K
0 W 5 1
0 K
0 W 6 1
0 K
0 W 7 18446744073709551615
0 K
0 T
0 C
END_OF_TRACE
ends 'intervals, their names' 0 diff "$folder/names" - <<'END_OF_NAMES'
0 9
1 1
1 1 1
2 2
2 1 0
3 3
3 1 18446744073709551616
4 4
4 2 "x"
4 1 1
5 "5"
5 1 -1
6 6
6 1 1
7 7
7 18446744073709551615 18446744073709551615
END_OF_NAMES
judged 'intervals, a key that is a text of digits' "$(so_far 4)" intervals.py 5 <<<"$nine"
judged 'intervals, of a key beyond ASCII' "$(so_far 4)" intervals.py é <<<"${nine/'"5"'/'"é"'}"
ends 'intervals, a key that is no character' 0 convert intervals.py --names "$folder/names" \
    <<<'{"begin": 1, "end": 2, "result": "ok", "calls": [["w", "\ud800", 1]]}'
ends 'intervals, a key that is no character: its name' 0 grep -xF '0 "\ud800"' "$folder/names"
ends 'intervals, registers that nobody uses' 0 convert intervals.py 7 <<<"$nine"
ends 'intervals, registers that nobody uses: how many' 0 grep -x 'opacity-trace 1 8' "$folder/trace"

# Intervals: broken histories.
good='{"begin": 0, "end": 9, "result": "ok", "calls": []}'
# Refuses a good line with one change, after a good line: its name, what is said, what changes, and what stands there instead.
refused_with() {
    refused "intervals, $1" "line 2: $2" intervals.py <<<"$good"$'\n'"${good/"$3"/"$4"}"
}
for result in '"aborted"' null '["ok"]' '"OK"'; do
    refused_with "the result $result" 'expected "result": "ok", "fail" or "info"' '"ok"' "$result"
done
refused_with 'no result' 'expected "result": "ok", "fail" or "info"' '"result": "ok", ' ''
for time in '"0"' true null NaN -Infinity 1e999 '[0]'; do
    refused_with "the begin $time" 'expected "begin": a number' 0 "$time"
done
refused_with 'no begin' 'expected "begin": a number' '"begin": 0, ' ''
refused_with 'no end' 'expected "end": a number' '"end": 9, ' ''
refused_with 'an end before the begin' 'a transaction ends before it begins' '9' '-1'
refused_with 'a field twice' 'a field stands there twice' '"end": 9' '"end": 9, "end": 9'
calls='expected "calls": a list of ["r", KEY, VALUE or null] and ["w", KEY, VALUE], each a string or a whole number'
for value in '["cas", "x", 1]' '["w", "x", null]' '["r", null, 1]' '["r", "x", 1.0]' '["w", true, 1]' '["w", "x", true]' '["r", "x"]' \
    '["r", "x", 1, 2]' '"rx1"' null; do
    refused_with "the call $value" "$calls" '[]' "[$value]"
done
refused_with 'calls that are no list' "$calls" '[]' '"ok"'
refused_with 'no calls' "$calls" ', "calls": []' ''
refused_with 'a list' 'expected {"begin": TIME, "end": TIME, "result": RESULT, "calls": [CALL, ..]}' "$good" '[1]'
refused_with 'broken JSON' "Expecting ',' delimiter: line 1 column 13 (char 12)" ',' ''
refused_with 'two on a line' 'Extra data: line 1 column 52 (char 51)' "$good" "$good$good"
refused 'intervals, a value that is written twice' 'line 4: key "x" is written 1, as in line 1: nobody knows whose write was read' intervals.py \
    <<'END_OF_HISTORY'
{"begin": 1, "end": 2, "result": "ok", "calls": [["w", "x", 1], ["w", "x", 1]]}
{"begin": 3, "end": 4, "result": "ok", "calls": [["w", "x", "1"]]}
{"begin": 3, "end": 4, "result": "ok", "calls": [["w", "y", 1]]}
{"begin": 3, "end": 4, "result": "fail", "calls": [["w", "x", 1]]}
END_OF_HISTORY
at_once() {
    for n in $(seq "$1"); do echo "{\"begin\": $n, \"end\": 20, \"result\": \"ok\", \"calls\": [[\"w\", \"x\", $n]]}"; done
}
judged 'intervals, eight at once' "$(so_far 32)" intervals.py < <(at_once 8)
refused 'intervals, nine at once' 'line 9: more than 8 transactions at once: whole.py decides such a history' intervals.py < <(at_once 9)
refused 'intervals, nothing' 'the input is empty' intervals.py <<<''
refused 'intervals, a name of a file without a folder' "[Errno 2] No such file or directory: '$folder/no/names'" intervals.py \
    --names "$folder/no/names" <<<"$lost_update"
refused 'intervals, another option' 'unrecognized arguments: --name' intervals.py --names "$folder/names" --name <<<"$lost_update"
is_written_to_full() {
    local status=0
    env -u PYTHONUNBUFFERED "$import/intervals.py" <<<"$lost_update" 2>"$folder/told" >/dev/full || status=$?
    [ $status -eq 4 ] && grep -x 'intervals.py: .*No space left on device' "$folder/told"
}
ends 'intervals, a full device' 0 is_written_to_full
for command in jepsen.py intervals.py whole.py; do
    ends "$command, its help" 0 "$import/$command" --help </dev/null
    has_told "$command, its help: its usage" -F "examples/import/$command ["
done

# Whole histories.
decided 'whole, a stale read' 1 "$(whole_violated 3 2 'no configuration has key 7 as at first')" jepsen <<<"$stale"
decided 'whole, a lost update' 1 "$(whole_violated 2 2 'no configuration has key "x" as at first')" intervals <<<"$lost_update"
decided 'whole, of one key alone' 0 "$(whole_so_far 2)" intervals y <<<"$lost_update"
decided 'whole, nine at once' 0 "$(whole_so_far 9)" intervals < <(at_once 9)
decided 'whole, a value that nobody writes' 1 "$(whole_violated 1 1 'no configuration has key "x" as "1", key "y" as 0')" intervals \
    <<<'{"begin": 1, "end": 3, "result": "ok", "calls": [["r", "x", "1"], ["r", "y", 0]]}'
decided 'whole, own calls' 1 "$(whole_violated 1 1 'it reads key "x" as at first, which its own calls contradict')" intervals \
    <<<'{"begin": 1, "end": 3, "result": "ok", "calls": [["w", "x", 1], ["r", "x", 1], ["r", "x", null], ["r", "x", 2], ["w", "x", 2]]}'
decided 'whole, own reads' 1 "$(whole_violated 1 1 'it reads key "x" as 1, which its own calls contradict')" intervals \
    <<<'{"begin": 1, "end": 3, "result": "ok", "calls": [["r", "x", null], ["r", "x", null], ["r", "x", 1], ["w", "y", 1]]}'
half='{"begin": 1, "end": 9, "result": "ok", "calls": [["w", "x", 1], ["w", "y", 1]]}
{"begin": 2, "end": 3, "result": "ok", "calls": [["r", "x", 1], ["r", "y", null]]}'
decided 'whole, a half of a commit' 1 "$(whole_violated 2 2 'no configuration has at once key "x" as 1 (line 1 writes it), key "y" as at first')" \
    intervals <<<"$half"
decided 'whole, an older value' 1 "$(whole_violated 4 4 'no configuration has key "x" as 1 (line 1 writes it)')" intervals <<'END_OF_HISTORY'
{"begin": 1, "end": 2, "result": "ok", "calls": [["w", "x", 1], ["w", "y", 1]]}
{"begin": 3, "end": 4, "result": "ok", "calls": [["w", "x", 2]]}
{"begin": 1, "end": 9, "result": "ok", "calls": [["r", "x", 2]]}
{"begin": 5, "end": 6, "result": "ok", "calls": [["r", "x", 1]]}
END_OF_HISTORY
read_at_once='{"begin": 1, "end": 9, "result": "ok", "calls": [["w", "x", 1]]}
{"begin": 2, "end": 10, "result": "ok", "calls": [["r", "x", 1]]}'
decided 'whole, two configurations' 0 "$(whole_so_far 2)" --configurations 2 intervals <<<"$read_at_once"
decided 'whole, more configurations than one' 2 \
    '{"at":1,"criterion":"strict","proved":false,"transactions":2,"verdict":"undecided","why":"configurations"}' \
    --configurations 1 intervals <<<"$read_at_once"
decided 'whole, a half of a commit, and more configurations than one' 1 '{"at":2,"criterion":"strict","proved":false,"transactions":2,"verdict":"violated"}
a transaction that ends up to that of line 2 can'"'"'t be placed: which, more --configurations may show' --configurations 1 intervals <<<"$half"
# A right history of sixty transactions, some of which only read or only write, made one after the other and open for up to twelve moments.
many_at_once() {
    awk 'BEGIN {
        for (n = 1; n <= 60; n++) {
            read = n * n % 5; written = n * 7 % 4
            calls = n % 3 == 1 ? "" : sprintf("[\"r\", %d, %s]", read, read in state ? state[read] : "null")
            if (n % 3) {
                calls = calls (calls ? ", " : "") sprintf("[\"w\", %d, %d]", written, n)
                state[written] = n
            }
            printf "{\"begin\": %d, \"end\": %d, \"result\": \"ok\", \"calls\": [%s]}\n", n, n + 5 + n * 5 % 7, calls
        }
    }'
}
refused 'whole, no form' 'the following arguments are required: form' whole.py <<<''
refused 'whole, no configuration' 'argument --configurations: expected at least 1' whole.py --configurations 0 intervals <<<"$read_at_once"
decided 'whole, many at once, in eight configurations' 0 "$(whole_so_far 60)" --configurations 8 intervals < <(many_at_once)
decided 'whole, many at once, in more than seven configurations' 2 \
    '{"at":7,"criterion":"strict","proved":false,"transactions":60,"verdict":"undecided","why":"configurations"}' \
    --configurations 7 intervals < <(many_at_once)
refused 'whole, another form' "argument form: invalid choice: 'edn' (choose from 'intervals', 'jepsen')" whole.py edn </dev/null
refused 'whole, broken JSON' "line 1: Expecting value: line 1 column 1 (char 0)" whole.py intervals <<<x
run_rows
end_rows
