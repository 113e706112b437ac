#!/usr/bin/env bash
# Times `tmwatch judge` on seven kinds of run, under opacity, strict serializability and both, with --first and with --summary, and `cat`
# and `wc -l` on the same trace for comparison.
#
#   measure/judge.sh [EVENTS]
#
# measure/traces.c makes the traces. A line for each kind of run and each set of options has: the number of events, the seconds of each
# program (the best of RUNS runs), our events a second, the ratio of our seconds to those of each other program, and the peak memory in KiB.
# If PEER is set to another program with the same output, it runs too, and the line says whether its lines and status equal ours. It does
# not run with --first and --summary. The exit status is 1 if they differ, or if a run is not opaque so far: a line says which.
# Environment: PEER, PROFILES, WORDS (opacity strict both first summary), SEED (1), RUNS (3), CC (cc), TRACES (a program with the usage of
# measure/traces.c, which is used instead).
set -eu
# shellcheck source=tests/common.sh
. "$(dirname "${BASH_SOURCE[0]}")/../tests/common.sh"
peer=${PEER:-}
events=${1:-1000000} input=$folder/trace
"$top/build"
traces=${TRACES:-$folder/traces}
[ -n "${TRACES:-}" ] || "${CC:-cc}" -O2 "$top/measure/traces.c" -o "$traces"

wrong=0
printf '%-8s %-9s %10s %8s %10s %8s %6s %8s %6s %8s %6s %8s  %s\n' profile words events seconds events/s cat ratio 'wc -l' ratio peer ratio KiB same

# A line of the profile, whose trace is there, by a word.
print_line() {
    local profile=$1 word=$2 words=(--criterion "$2")
    case $word in first | summary) words=("--$word") ;; esac
    read -r ours _ memory status <<<"$(measure "$program" judge "${words[@]}")"
    [ "$status" = 0 ] || { wrong=1 && echo "judge.sh: $profile, $word, status $status: $(cat "$folder/output")" >&2; }
    answer="$status $(cat "$folder/output")"
    theirs=0 same=-
    if [ -n "$peer" ] && [ "${words[0]}" = --criterion ]; then
        read -r theirs _ _ status <<<"$(measure "$peer" judge "${words[@]}")"
        same=yes
        [ "$answer" = "$status $(cat "$folder/output")" ] || { same=no wrong=1; }
    fi
    awk -v profile="$profile" -v word="$word" -v count="$count" -v ours="$ours" -v cats="$cats" -v counts="$counts" -v theirs="$theirs" \
        -v memory="$memory" -v same="$same" 'function beside(other) { return sprintf("%8.2f %6.1f", other, ours / (other > 0 ? other : 0.01)) }
        BEGIN {
            ours = ours > 0 ? ours : 0.01
            printf "%-8s %-9s %10d %8.2f %10d %s %s %s %8d  %s\n", profile, word, count, ours, count / ours, beside(cats), beside(counts), \
                same == "-" ? sprintf("%8s %6s", "-", "-") : beside(theirs), memory, same
        }'
}

for profile in ${PROFILES:-serial calm wide long blind bench outcomes}; do
    "$traces" "$profile" "${SEED:-1}" "$events" >"$folder/trace"
    count=$(($(wc -l <"$folder/trace") - 1))
    # (through a pipe, since `cat` and `wc` may skip what they read or write where they can)
    read -r cats _ <<<"$(measure sh -c 'cat | cat >/dev/null')"
    read -r counts _ <<<"$(measure sh -c 'cat | wc -l')"
    for word in ${WORDS:-opacity strict both first summary}; do
        print_line "$profile" "$word"
    done
done
exit $wrong
