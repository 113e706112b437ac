#!/usr/bin/env bash
# Compiles the recorders of examples/recorders and runs them on small memories: correct ones, ones without a part, and with events that are
# recorded at wrong moments.
#
#   tests/long/recorders.sh
#
# A test case prints how many of its runs were opaque so far, violated, undecided and malformed, then the same under strict serializability;
# the least and the greatest number of events up to the verdict; all events; the seconds of the runs and of judging them. It passes if each
# run has the expected verdict under opacity and, if one is given, under strict serializability. The cost of recording an event follows, for
# which there is no limit. The last line is 'N passed, M failed'. The exit status is 1 if a test case failed.
# Environment: RUNS (10), ROUNDS (5000), CC (gcc), RUSTC (rustc).
set -eu
# shellcheck source=tests/common.sh
. "$(dirname "${BASH_SOURCE[0]}")/../common.sh"
runs=${RUNS:-10} rounds=${ROUNDS:-5000}
. "$top/tests/long/recorded.sh"
source=$top/examples/recorders

compile=("${CC:-gcc}" -std=gnu11 -O2 -Wall -Wextra -pthread "-I$top/include")
"${compile[@]}" -o "$folder/little" "$source/little.c"
"${compile[@]}" -DWAIT_EVERY=100 -o "$folder/seldom" "$source/little.c"
"${compile[@]}" -o "$folder/cost" "$top/measure/recorder_cost.c"
"${RUSTC:-rustc}" --edition 2021 -O -o "$folder/little_rs" "$source/little.rs"
"${RUSTC:-rustc}" --edition 2021 -O -o "$folder/cost_rs" "$top/measure/recorder_cost.rs"

# A run whose threads have a list of events each, one list behind another.
by_thread() {
    "$folder/little" none right "$@" >"$folder/whole"
    head -n 1 "$folder/whole"
    tail -n +2 "$folder/whole" | sort -s -n -k 1,1
}

# What a run by these words is of: its head, and the threads, letters and registers of its events, which all have the words of a trace.
parts_of() {
    "$@" "$rounds" 1 >"$folder/trace"
    head -n 1 "$folder/trace"
    for words in '{ print $1 }' '{ print $2 }' '$2 ~ /[RW]/ { print $3 }'; do sed 1d "$folder/trace" | awk "$words" | sort -u | xargs; done
    ! sed 1d "$folder/trace" | grep -vxE '[0-9] (R [0-9]|V [0-9]+|W [0-9] [0-9]+|[KTCXA])'
}
for words in 'little none right' 'little_rs none'; do
    ends "$words: what its run is of" 0 diff <(parts_of "$folder"/$words) <(printf '%s\n' 'opacity-trace 1 3' '0 1 2 3' 'A C K R T V W X' '0 1 2')
done
for words in '2 little' '2 little none right 5' '2 little none left 5 1' '2 little no right 5 1' '101 little_rs none 5' '101 little_rs no 5 1'; do
    ends "$words" "${words%% *}" "$folder"/${words#* }
done
write_head
record 'C, correct' opaque opaque "$folder/little" none right
record 'C, no validation of reads' violated opaque "$folder/little" reads right
record 'C, no validation at commit' violated violated "$folder/little" commit right
record 'C, writes in place' violated violated "$folder/little" place right
record 'Rust, correct' opaque opaque "$folder/little_rs" none
record 'Rust, no validation of reads' violated opaque "$folder/little_rs" reads
record 'Rust, no validation at commit' violated violated "$folder/little_rs" commit
record 'correct, R after the read' violated any "$folder/little" none late-call
record 'correct, T after the commit' violated any "$folder/little" none late-request
record 'correct, C before the commit' violated any "$folder/little" none early-commit
record 'correct, all at the end' violated any "$folder/little" none at-end
record 'correct, thread by thread' violated any by_thread
record 'correct, A after the next R' malformed malformed "$folder/little" none late-abort
record 'correct, no A at a restart' malformed malformed "$folder/little" none no-abort
record 'correct, 100 rounds a pause' undecided undecided "$folder/seldom" none right

printf '\n%-5s %s %8s %s\n' in threads ns/event bytes
"$folder/cost"
"$folder/cost_rs"
end_rows
