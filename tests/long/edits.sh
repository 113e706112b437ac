#!/usr/bin/env bash
# Tries the mutants of edits/: the prover must refuse each. Run it before a release, and when a contract changes. The gate tries those of
# crates/*/must-fail.
#
#   tests/long/edits.sh [CRATE..]
#
# Without arguments it tries those of all crates, which takes some four hours of processor time. The gate, `rt ci`, proves the crates in a
# copy, with the crates that they depend on, where these mutants replace its own. A mutant has a line if it is not refused, or is refused
# only because a name is gone or the prover's limit is exceeded. The prover's output for each is in edits/log. The last line is 'N refused,
# M by a name or limit alone, K not refused'. The exit status is 1 if K is above 0.
set -eu
# shellcheck source=tests/common.sh
. "$(dirname "${BASH_SOURCE[0]}")/../common.sh"
[ $# -gt 0 ] || set -- $(ls "$top/edits" | grep -v '^log$')
mkdir "$folder/.git" "$folder/crates"
cp "$top/HANDLES" "$folder/"

# The lines of crates.txt for these crates and those that they stand on.
awk -v wanted="$*" '
    function mark(name, each, count, at) {
        if (!(name in line) || name in marked) return
        marked[name] = 1
        count = split(below[name], each, " ")
        for (at = 1; at <= count; at++) mark(each[at])
    }
    /^[a-z]/ {
        name = $1
        sub(/:.*/, "", name)
        line[name] = $0
        sub(/^[^:]*:/, "")
        below[name] = $0
    }
    END {
        count = split(wanted, all, " ")
        for (at = 1; at <= count; at++) mark(all[at])
        for (name in marked) print line[name]
    }' "$top/crates.txt" >"$folder/crates.txt"
for crate in $(grep -o '^[a-z_]*' "$folder/crates.txt"); do
    tar -C "$top/crates" --exclude=must-fail --exclude=out -cf - "$crate" | tar -C "$folder/crates" -xf -
done
wanted=0
for crate in "$@"; do
    mkdir "$folder/crates/$crate/must-fail"
    cp "$top/edits/$crate"/*.edit "$folder/crates/$crate/must-fail/"
    wanted=$((wanted + $(ls "$top/edits/$crate" | wc -l)))
done
(cd "$folder" && rt ci) >"$folder/log" 2>&1 || true
grep -a '^rt: must-fail ' "$folder/log" >"$top/edits/log" || true
refused=$(grep -c ': refused, as it must be' "$top/edits/log" || true)
weak=$(grep -cE ': refused, as it must be \(only (because|by a limit)' "$top/edits/log" || true)
grep -E ': refused, as it must be \(only (because|by a limit)|NOT REFUSED|NOT TRIED|BAD EDIT' "$top/edits/log" || true
[ "$refused" -eq "$wanted" ] || grep -aE 'NOT PROVED|^FAILED|^rt: .*FAILED' "$folder/log" || tail -n 20 "$folder/log"
echo "$refused refused, $weak by a name or limit alone, $((wanted - refused)) not refused"
[ "$refused" -eq "$wanted" ]
