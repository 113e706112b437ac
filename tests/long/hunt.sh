#!/usr/bin/env bash
# Searches for violations: `tmwatch bench` runs examples/hunt.json on each of the three memories.
#
#   tests/long/hunt.sh
#
# A line for each memory says how many of its runs were violated, opaque so far, or anything else; the least and the greatest number of
# events up to a violation; and the seconds of all runs. The exit status is 0 if each run of `torn` was violated, and each of `norec` and
# `lock` opaque so far; otherwise 1.
# Environment: RUNS (20), ROUNDS (100000, of a run), WORKLOAD (examples/hunt.json).
set -eu
# shellcheck source=tests/common.sh
. "$(dirname "${BASH_SOURCE[0]}")/../common.sh"
workload=${WORKLOAD:-$top/examples/hunt.json}
runs=${RUNS:-20}
"$top/build"
failed=0
printf '%-8s %5s %9s %7s %6s %10s %10s %8s\n' memory runs violated opaque other least most seconds
for memory in torn norec lock; do
    violated=0 opaque=0 other=0 least=0 most=0
    began=$EPOCHREALTIME
    for _ in $(seq "$runs"); do
        line=$("$program" bench --memory "$memory" --rounds "${ROUNDS:-100000}" <"$workload" | head -n 1)
        case $line in
        *'"verdict":"violated"}')
            violated=$((violated + 1))
            at=${line#*:} at=${at%%,*}
            [ "$least" -ne 0 ] && [ "$least" -lt "$at" ] || least=$at
            [ "$most" -gt "$at" ] || most=$at
            ;;
        *'"verdict":"opaque so far"}') opaque=$((opaque + 1)) ;;
        *) other=$((other + 1)) && echo "hunt.sh: $memory: $line" >&2 ;;
        esac
    done
    printf '%-8s %5d %9d %7d %6d %10d %10d %8s\n' "$memory" "$runs" "$violated" "$opaque" "$other" "$least" "$most" "$(since "$began")"
    if [ "$memory" = torn ]; then [ "$violated" -eq "$runs" ] || failed=1; else [ "$opaque" -eq "$runs" ] || failed=1; fi
done
exit $failed
