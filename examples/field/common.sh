# shellcheck shell=bash disable=SC2034
# What the `run`s of examples/field share. They read this file first. Each puts one system on the bench by lines (docs/LINES.md).
#
# It sets top, the repository's folder; here, the folder of the system; and folder, where programs are built and servers keep their data. A
# server is the run's own, on a socket there. At the end it is ended by the words in `stop`, and the folder removed.
# Environment: TMWATCH_BENCH, the bench (tmwatch-bench, or built/bin/tmwatch-bench), CC (cc).
# The exit status is 77 if a package of Debian is missing, which a line names, 2 for wrong words, and else the bench's. Nothing is installed.
set -eu
here=$(cd "$(dirname "${BASH_SOURCE[1]}")" && pwd)
top=$(cd "$(dirname "${BASH_SOURCE[0]}")/../.." && pwd)
tmwatch_bench=${TMWATCH_BENCH:-$(command -v tmwatch-bench || echo "$top/built/bin/tmwatch-bench")}
folder=$(mktemp -d)
stop=
trap 'rm -rf "$folder"' EXIT
# (servers that drop root's rights reach their own folders)
chmod 711 "$folder"
export PYTHONPATH=$top/examples/python PYTHONDONTWRITEBYTECODE=1
# (Debian's modules are those of its own Python)
python=/usr/bin/python3

[ -x "$tmwatch_bench" ] || { echo "tmwatch-bench is not on the PATH, nor built" >&2 && exit 2; }

usage() {
    sed -n 's/^#  *examples/usage: examples/p' "$0" >&2
    exit 2
}

# Ends the program, if these words are false: a package is missing.
needs() {
    local package=$1
    shift
    "$@" >/dev/null 2>&1 && return
    echo "$(basename "$here"): Debian's package $package is missing" >&2
    exit 77
}

# Compiles a program of C as $program: its name, and how it is linked.
compile() {
    program=$folder/$1
    "${CC:-cc}" -std=gnu11 -O2 -Wall -Wextra -pthread "-I$top/include" -o "$program" "$here/$1.c" "${@:2}"
}

# Runs the bench by these words. What stands in registers.sql makes the table, by any database's own program.
bench() {
    trap - EXIT
    exec "$tmwatch_bench" --teardown "$stop${stop:+; }rm -rf '$folder'" "$@"
}
