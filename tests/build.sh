#!/usr/bin/env bash
# Ends ./build with SIGTERM during a proof, and checks that no process and no folder is left. Then runs the gate in a repository that
# contains the output of a build, and lets `rt lib` use the output of the gate, as ./build does. This fails if the kit's module has changed
# its form. Before that, it runs ./build, ./tmwatch and ./test without the kit on PATH: each must say that the kit is missing.
#
#   tests/build.sh
#
# Prints a line for each test case, and 'N passed, M failed' as the last line. The exit status is 1 if a test case failed.
set -eu
# shellcheck source=tests/common.sh
. "$(dirname "${BASH_SOURCE[0]}")/common.sh"
mkdir "$folder/copy" "$folder/room"
tar c -C "$top" --exclude=out --exclude=.git --exclude=built . | tar x -C "$folder/copy"

# Starts a build of the copy, ends it once it proves, and returns its exit status.
ended() {
    local status=0
    TMPDIR=$folder/room "$folder/copy/build" --library "$folder/built" >"$folder/said" 2>&1 &
    for _ in {1..100}; do
        ! ls "$folder"/room/*/crates/*/out >"$folder/listed" 2>&1 || break
        sleep 0.2
    done
    sleep 1
    kill $!
    wait $! || status=$?
    cat "$folder/said"
    return $status
}

# Fails if a process is left that works in the script's folder.
none_works() {
    local process
    for process in /proc/[0-9]*; do
        case $(readlink "$process/cwd" 2>/dev/null) in "$folder"/*) echo "$process" && return 1 ;; esac
    done
}

none_left() {
    ls "$folder/room"
    [ -z "$(ls "$folder/room")" ]
}

# Leaves what ./build leaves in the copy, of which it keeps the smallest crate, and runs the gate there. (The library is another one.)
gate_passes() {
    sed -n 's/.*\b\(tmwatch_[a-z_]*\)(tmwatch[a-z_]* \*.*/int \1(void) { return 0; }/p' "$folder/copy/include/tmwatch.h" | sort -u >"$folder/nothing.c"
    "${CC:-cc}" -fPIC -c -o "$folder/nothing.o" "$folder/nothing.c"
    ar rcs "$folder/nothing.a" "$folder/nothing.o"
    "$folder/copy/packaging/layout.py" "$folder/nothing.a" "$folder/copy/built"
    mv "$folder/copy/crates" "$folder/crates"
    mkdir "$folder/copy/crates"
    mv "$folder/crates/tmw_streams" "$folder/copy/crates/"
    echo 'tmw_streams: itoa arrayvec thiserror' >"$folder/copy/crates.txt"
    mkdir "$folder/copy/.git"
    (cd "$folder/copy" && rt ci)
    echo 'int tmwatch_record_next_call(void); int main(void) { return tmwatch_record_next_call(); }' >"$folder/main.c"
    "${CC:-cc}" -o "$folder/main" "$folder/main.c" -L"$folder/copy/built/lib" -ltmwatch -Wl,-rpath,"$folder/copy/built/lib"
    "$folder/main"
}

# Fails if `rt lib` builds again what the gate has built there, although packaging/kit.py has marked it.
takes_marked() {
    "$folder/copy/packaging/kit.py" "$folder/copy"
    stat -c "%i %n" "$folder"/copy/crates/tmw_streams/out/rlib/* >"$folder/marked"
    (cd "$folder/copy/crates/tmw_streams" && rt lib)
    stat -c "%i %n" "$folder"/copy/crates/tmw_streams/out/rlib/* | diff "$folder/marked" -
}

# Runs a command of the copy with a PATH without the folders that have the kit's command.
kitless=$(tr : '\n' <<<"$PATH" | while read -r at; do [ -x "$at/rt" ] || echo "$at"; done | paste -s -d :)
without_kit() {
    PATH=$kitless "$folder/copy/$1" "${@:2}" </dev/null
}

missing="the Rattle kit is missing (no 'rt' on PATH)"
ends 'a build without the kit' 1 without_kit build
has_told 'a build without the kit: the message' "^build: $missing. .*: README.md#install$"
ends 'judge without the kit' 125 without_kit tmwatch judge
has_told 'judge without the kit: the message' "^tmwatch: $missing, and the program is not built. .*: README.md#install$"
ends 'help without the kit' 0 without_kit tmwatch judge --help
for words in test 'test --quick'; do
    # shellcheck disable=SC2086
    ends "$words without the kit" 1 without_kit $words
    has_told "$words without the kit: the message" "^test: $missing. .*: README.md#install$"
done

ends 'a build that is ended' 143 ended
has_told 'a build that is ended: what is told' '^stopped: '
ends 'a build that is ended: no folder' 0 none_left
ends 'a build that is ended: no process' 0 none_works
if has "${CC:-cc}" 'the gate beside what a build leaves'; then
    ends 'the gate beside what a build leaves' 0 gate_passes
    ends "the gate's libraries, by what packaging/kit.py knows of the kit" 0 takes_marked
fi
end_rows
