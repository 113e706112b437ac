#!/usr/bin/env bash
# Checks that the files of the repository are consistent with each other. Nothing is built.
#
#   tests/repository.sh
#   tests/repository.sh FILE
#
# - crates.txt, from top to bottom: a crate depends only on crates above it. Crates of the kit have no line there.
# - Each link of a page leads to an existing file and heading (tests/links.py).
# - The table in CONTRIBUTING.md explains each entry of the top folder.
# - The version in the program's specification, which builds and tests read, is also that of the program's source, of the Rust package and
#   of the newest heading in CHANGELOG.md. No other file contains it.
# - The lines that the mutants of edits/ and must-fail/ replace exist.
# - Sources in C and C++ are laid out as in .clang-format. (Only version 14 of clang-format is used, because others lay some lines out
#   differently.)
# FILE is another crates.txt, and then only that is checked.
#
# A test case prints the problem. The last line is 'N passed, M failed', and the exit status is 1 if a test case failed.
set -eu
# shellcheck source=tests/common.sh
. "$(dirname "${BASH_SOURCE[0]}")/common.sh"

# Prints each edge of a crates.txt that doesn't go down, and fails if there is one.
edges_go_down() {
    awk '
        /^[a-z]/ {
            line[++crates] = $0
            place[crate_of($0)] = crates
        }
        function crate_of(line) { return substr(line, 1, match(line, /[ :]|$/) - 1) }
        END {
            for (k = 1; k <= crates; k++) {
                count = split(substr(line[k], index(line[k], ":") + 1), below, " ")
                for (at = 1; at <= count; at++)
                    if (place[below[at]] >= k) {
                        print crate_of(line[k]) " names " below[at] ", which does not stand above it"
                        up = 1
                    }
            }
            if (!crates) print "no crate"
            exit up || !crates
        }' "$1"
}

# Prints each entry of the top folder that CONTRIBUTING.md doesn't explain, but for what builds and gates leave.
unexplained() {
    local path
    for path in "$top"/*; do
        case ${path##*/} in
        built | target | gate.log) ;;
        *) grep -q "^| .*\`${path##*/}\`" "$top/CONTRIBUTING.md" || echo "${path##*/}" ;;
        esac
    done
}

# Prints each mutant that replaces a line which its file does not have.
unfit_edits() {
    local edit crate file line
    for edit in "$top"/edits/*/*.edit "$top"/crates/*/must-fail/*.edit; do
        crate=${edit%/must-fail/*} crate=$top/crates/$(basename "${crate%/*.edit}")
        while IFS= read -r line; do
            case $line in
            'file: '*) file=$crate/${line#file: } ;;
            'old: '*) grep -qF -- "${line#old: }" "$file" || echo "${edit#"$top/"}: ${line#old: }" ;;
            esac
        done <"$edit"
    done
}

# Prints the sources in C and C++, but for tests.
sources_in_c() {
    find "$top"/{bench-c,bench-lines,examples,include} -name '*.[ch]' -o -name '*.cc' -o -name '*.hpp'
}

# Fails if what sed finds in these files, by this expression, is not the version alone.
is_of_version() {
    diff <(echo "$version") <(sed -n "s/$1/\1/p" "${@:2}" | sort -u)
}

# Prints each file that has the version, without the names of crates. Lock files don't count.
files_with_version() {
    grep -rlIwF --exclude-dir={.git,out,built,target} --exclude=*.{lock,log} -- "$version" "$top" |
        sed "s|^$top/||; s|^crates/[a-z_]*/|crates/*/|" | LC_ALL=C sort
}

ends 'edges of crates.txt' 0 edges_go_down "${1:-$top/crates.txt}"
if [ $# -eq 0 ]; then
    ends 'links of pages' 0 python3 "$top/tests/links.py"
    ends 'entries of the top folder' 0 diff - <(unexplained) </dev/null
    ends 'lines that mutants replace' 0 diff - <(unfit_edits) </dev/null
    if has clang-format 'the style of C'; then
        case $(clang-format --version) in
        *' version 14.'*) ends 'the style of C' 0 xargs clang-format --dry-run --Werror < <(sources_in_c) ;;
        *) echo "the style of C: skipped, since this is $(clang-format --version)" ;;
        esac
    fi
    mapfile -t source < <(find "$top"/crates/*/src -name '*.rt')
    ends "version $version, in the program" 0 is_of_version '.*"tmwatch \([0-9][0-9.]*\), by .*' "${source[@]}"
    ends 'version, in the command line' 0 is_of_version '.*\.version("\(.*\)").*' "${source[@]}"
    ends 'version, in the package in Rust' 0 is_of_version '^version = "\(.*\)"$' "$top/bindings/rust/Cargo.toml"
    ends 'version, in the changes' 0 is_of_version '^## \([0-9][0-9.]*\).*' <(grep -m 1 '^## ' "$top/CHANGELOG.md")
    ends 'version, in no other file' 0 diff - <(files_with_version) <<END
CHANGELOG.md
bindings/rust/Cargo.toml
crates/*/specs/Version.antt
crates/*/src/command_run.rt
crates/*/src/grammar.rt
END
fi
end_rows
