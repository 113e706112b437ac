#!/usr/bin/env bash
# Compares each picture of docs/pictures with the output of today.
#
#   tests/pictures.sh
#   tests/pictures.sh write
#
# A screenshot (.png) of the page of `show` contains a checksum of that page, which must equal the checksum of the page that the program
# writes now. A drawing (.svg) must equal the output of tests/pictures.py. `write` makes all of them again, the screenshots with Chromium
# (tests/page.py).
#
# Each test case that fails is printed. The last line is 'N passed, M failed', and the exit status is 1 if a test case failed.
# Environment: PROGRAM, the program (the built one); BROWSER (chromium), for `write`.
set -eu
# shellcheck source=tests/common.sh
. "$(dirname "${BASH_SOURCE[0]}")/common.sh"
pictures=$top/docs/pictures examples=$top/examples
drawings=(crates verdict cut moments)

# Calls these words for each picture: its file, its size, light or dark, what the page runs, and the trace with options.
each_picture() {
    "$@" "$pictures/broken.png" 1000x440 light "for (const id of ['told', 'states']) document.getElementById(id).hidden = true" \
        "$examples/ghc_stm.trace --why"
    "$@" "$pictures/light.png" 1100x470 light '' "$examples/real_time_order.trace"
    "$@" "$pictures/dark.png" 1100x470 dark "document.querySelector('#chart .tx[data-first=\"2\"]').focus()" "$examples/real_time_order.trace"
    "$@" "$pictures/read.png" 1100x470 light \
        "const read = document.querySelector('#chart .op[data-first=\"1\"]'); read.focus(); read.dispatchEvent(new MouseEvent('click'))" \
        "$examples/long_fork.trace"
}

# Makes a picture.
write_picture() {
    python3 "$top/tests/page.py" "$program" "${BROWSER:-chromium}" --picture "$@"
}

# Compares a picture.
compare_picture() {
    check python3 "$top/tests/page.py" "$program" - --compare "$@" || echo "$1 is not as 'tests/pictures.sh write' makes it"
}

if [ "${1:-}" = write ]; then
    for name in "${drawings[@]}"; do "$top/tests/pictures.py" "$name" >"$pictures/$name.svg"; done
    each_picture write_picture
    exit
fi
for name in "${drawings[@]}"; do
    check cmp -s <("$top/tests/pictures.py" "$name") "$pictures/$name.svg" || echo "$name.svg is not as 'tests/pictures.sh write' makes it"
done
each_picture compare_picture
end_rows
