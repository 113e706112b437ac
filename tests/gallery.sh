#!/usr/bin/env bash
# Judges each trace of examples/ under each criterion, and compares the lines and the exit status with examples/verdicts.txt. Then draws
# each trace of docs/GALLERY.md, with the reason if it is violated, and compares the drawing with the page. Also compares the window that
# `show` draws, and the counterexample that `show --why` draws, with both; and the drawings in docs/FIELD.md and README.md.
#
#   tests/gallery.sh
#   tests/gallery.sh draw NAME
#
# `draw` prints one trace in the form of the page, and compares nothing. Each test case that fails is printed. The last line is 'N passed, M
# failed', and the exit status is 1 if a test case failed.
set -eu
# shellcheck source=tests/common.sh
. "$(dirname "${BASH_SOURCE[0]}")/common.sh"
[ -x "$program" ] || "$top/build"
verdicts=$top/examples/verdicts.txt

# Judges a trace by a criterion, and keeps what is written and the exit status.
judge() {
    status=0
    output=$("$program" judge --criterion "$2" <"$top/examples/$1.trace") || status=$?
}

# Counts whether a page has this text, after such a line: the page, the row's name, the line and the text.
expect_on() {
    local found=drawn
    [[ $(<"$top/$1") == *$'\n'"$3"$'\n'"$4"$'\n\n'* ]] || found='drawn otherwise'
    count "$2 in $1" drawn "$found"
}

# The length at which a report line is settled, or nothing.
settled() {
    sed -n 's/.*"at":\([0-9]*\).*/\1/p' <<<"$1"
}

# Why a trace is violated by opacity.
explain() {
    printf '    $ ./tmwatch show --why < examples/%s.trace | grep why\n' "$1"
    "$program" show --why <"$top/examples/$1.trace" | sed -n 's/^    why/        why/p'
}

# A trace as the page shows it: its events in a column for each thread, then the command and its two lines, and why it is violated by opacity.
draw() {
    judge "$1" both
    awk -v opacity="$(settled "${output%%$'\n'*}")" -v strict="$(settled "${output##*$'\n'}")" -f "$top/examples/draw.awk" \
        "$top/examples/$1.trace"
    printf '\n    $ ./tmwatch judge --criterion both < examples/%s.trace\n' "$1"
    sed 's/^/    /' <<<"$output"
    [ -z "$(settled "${output%%$'\n'*}")" ] || explain "$1"
}

if [ "${1:-}" = draw ]; then
    draw "$2"
    exit
fi

for trace in "$top"/examples/*.trace; do
    name=$(basename "$trace" .trace)
    for criterion in opacity strict both; do
        judge "$name" "$criterion"
        row="$name $criterion $status ${output//$'\n'/ }"
        count "$row: its rows in examples/verdicts.txt" 1 "$(grep -cxF -- "$row" "$verdicts")"
    done
done
runs=$((passed + failed))
count 'rows of examples/verdicts.txt' "$runs" "$(wc -l <"$verdicts")"

for name in $(sed -n 's/^    \$ .* examples\/\(.*\)\.trace$/\1/p' "$top/docs/GALLERY.md"); do
    expect_on docs/GALLERY.md "$name" '' "$(draw "$name")"
done

# the rows of the window, and of a part of it, that the page has: up to the first mark by opacity, for a run that opacity forbids
for name in $(sed -n 's/^    \$ .* examples\/\(.*\)\.trace$/\1/p' "$top/docs/GALLERY.md"); do
    drawn=$(draw "$name" | sed 's/violates both$/violates opacity/')
    for words in 'show' 'show --why'; do
        read -r -a command <<<"$words"
        missing=''
        while IFS= read -r row; do
            grep -qxF -- "$row" <<<"$drawn" || missing=$row
        done < <("$program" "${command[@]}" <"$top/examples/$name.trace" | grep '^ *[0-9]')
        count "$words of $name: a line that the page lacks" '' "$missing"
    done
done

# What `show --why` draws of a trace, as a page has it.
drawn_of() {
    "$program" show --why <"$top/$1" | sed 's/^/    /'
}

expect_on README.md norec_reads '    $ ./tmwatch show --why < bad.trace' "$(drawn_of examples/norec_reads.trace)"
for trace in $(sed -n 's/^    \$ .* < \(.*\.trace\)$/\1/p' "$top/docs/FIELD.md"); do
    expect_on docs/FIELD.md "$trace" "    \$ ./tmwatch show --why < $trace" "$(drawn_of "$trace")"
done

end_rows
