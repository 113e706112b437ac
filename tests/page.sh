#!/usr/bin/env bash
# Compares the page of `show --page` with its source files and with the traces of examples/.
#
#   tests/page.sh
#   tests/page.sh write
#
# The constants in the program must equal the files of crates/tmw_show/page; `write` regenerates them from these. Then tests/page.py opens
# the page of each trace in a headless Chromium, and compares its drawing with the trace. Without a browser that is skipped, and a line says
# so. The counterexample in a window of 490 events must be visible as a whole: at 1280 pixels immediately, and at 400 after a click, light
# and dark. Each test case that fails is printed. The last line is 'N passed, M failed', and the exit status is 1 if a test case failed.
# Environment: BROWSER (chromium); PICTURES, a folder that gets the screenshots of that window.
set -eu
# shellcheck source=tests/common.sh
. "$(dirname "${BASH_SOURCE[0]}")/common.sh"
page=$top/crates/tmw_show/page
constants=$top/crates/tmw_show/src/page/constants.rt

# The source file that holds both files as constants.
write_constants() {
    printf '//! The constant parts of a page: tests/page.sh writes them from the files of this crate'\''s page/.\n'
    printf '\n/// What stands before the window: head.html.\npub const HEAD: &[u8] = br##"%s\n"##;\n' "$(<"$page/head.html")"
    printf '\n/// What stands after it: tail.html.\npub const TAIL: &[u8] = br##"%s\n"##;\n' "$(<"$page/tail.html")"
}

if [ "${1:-}" = write ]; then
    write_constants >"$constants"
    exit
fi

check cmp -s <(write_constants) "$constants" || echo "$constants is not as 'tests/page.sh write' writes it"
browser=${BROWSER:-chromium}
if ! has "$browser" 'the pages of traces'; then
    end_rows
    exit
fi
[ -x "$program" ] || "$top/build"
# What no trace of examples/ has: events that fit no run, and more events than are drawn, after one of a transaction that stays open.
printf '%s\n' 'opacity-trace 1 1' '0 R 0' '0 V 0' '0 K' >"$folder/answer.trace"
printf '%s\n' 'opacity-trace 1 1' '1 R 0' '0 W 0 1' '0 C' >"$folder/commit.trace"
{
    printf '%s\n' 'opacity-trace 1 1' '0 R 0' '0 V 0'
    yes $'1 R 0\n1 V 0' | head -n 498
} >"$folder/long.trace"
{
    printf '%s\n' 'opacity-trace 1 1' '2 W 0 7' '2 K' '2 T'
    yes $'1 R 0\n1 V 0\n1 T\n1 C' | head -n 20
    yes $'1 R 0\n1 V 0' | head -n 500
    printf '%s\n' '1 T' '1 C' '0 R 0' '0 V 9'
} >"$folder/pending.trace"
# A window of 490 events. Of a cycle of three transactions each call and each answer stands alone.
{
    echo 'opacity-trace 1 4'
    for event in '0 R 0' '0 V 0' '1 R 1' '1 V 0' '2 R 2' '2 V 0' '0 W 1 1' '0 K' '1 W 2 1' '1 K' '2 W 0 1' '2 K' '0 T' '0 C' '1 T' '1 C'; do
        yes $'3 R 3\n3 V 0' | head -n 28
        echo "$event"
    done
    printf '%s\n' "$(yes $'4 R 3\n4 V 0' | head -n 24)" '2 T' '2 C'
} >"$folder/wide.trace"
pictures=${PICTURES:-$folder/pictures}
mkdir -p "$pictures"
traces=("$top"/examples/*.trace "$folder"/*.trace)

# Adds what tests/page.py counts of these words to the rows. If it counts nothing, that is one that has failed.
compare_pages() {
    python3 "$top/tests/page.py" "$program" "$browser" "$@" >"$folder/pages" || true
    sed '$d' "$folder/pages"
    read -r well _ badly _ <<<"$(tail -n 1 "$folder/pages")"
    passed=$((passed + well)) failed=$((failed + ${badly:-1}))
}

compare_pages "${traces[@]}" "${traces[@]/%/ --criterion strict}" "${traces[@]/%/ --why}" "${traces[@]/%/ --why #all}" \
    "$top/examples/two_writers.trace --states 1" "$top/examples/left_open.trace --window 2" "$folder/wide.trace --why #30" \
    "$top/examples/ghc_stm.trace --why --skipped 1000000000000000"
compare_pages --sizes "$pictures" "$folder/wide.trace --why"
end_rows
