#!/usr/bin/env bash
# Makes the packages, installs them into folders, and uses what was installed: the program, the library for C, the man pages and the
# completions. Man pages and completions must have the options of the program's help, and the functions and statuses of the library. Then
# follows packaging/Dockerfile in a root like that of a slim image (slim.py), which consists of this machine's own files and has no kit.
# There the commands of the pages run as they are written (shown.py).
#
#   tests/package.sh
#
# Prints a line for each test case, and 'N passed, M failed' as the last line. The exit status is 1 if a test case failed. Parts that need a
# missing tool are skipped, and a line says so. Without a C compiler, all are, and the status is 0.
# Environment: CC (cc), BUILT (tests/common.sh; without it the program is built too), ROUNDS (500, of the examples).
# shellcheck disable=SC2016 # (what stands in single quotes is for awk and other shells)
set -eu
# shellcheck source=tests/common.sh
. "$(dirname "${BASH_SOURCE[0]}")/common.sh"
cc=${CC:-cc}
has "$cc" tests/package.sh || exit 0
if [ -z "${BUILT:-}" ]; then
    BUILT=$folder/built
    "$top/build" --install "$BUILT"
fi
use_library
[ ! -x "$built/bin/tmwatch" ] || program=$built/bin/tmwatch

# Runs these words, which have to write this text and nothing else, with this status.
tells() {
    local name=$1 text=$2 wanted=$3
    shift 3
    "$@" >"$folder/told" 2>&1 || echo "status $?" >>"$folder/told"
    [ "$wanted" -eq 0 ] || text+="${text:+$'\n'}status $wanted"
    ends "$name" 0 diff <(printf '%s' "${text:+$text$'\n'}") "$folder/told"
}

name=tmwatch_${version}_amd64 packages=(libtmwatch-dev libtmwatch0 tmwatch)

# The packages, twice: in folders of other names, by other settings of the user.
ends 'the packages' 0 "$top/package" "$folder/once"
ends 'the packages again' 0 env TZ=Asia/Tokyo LC_ALL=C sh -c 'umask 077 && cd / && "$@"' sh "$top/package" "$folder/twice/deep"
ends 'the same bytes' 0 diff -r "$folder/once" "$folder/twice/deep"
tells 'what there is' "$(printf "%s_${version}_amd64.deb\n" "${packages[@]}")"$'\n'"$name.tar.gz" 0 ls "$folder/once"
ends 'the packages of another time' 0 env SOURCE_DATE_EPOCH=1000000000 "$top/package" "$folder/early"
tar --utc --full-time -tvzf "$folder/early/$name.tar.gz" >"$folder/listed"
tells 'that time alone' '2001-09-09 01:46:40 root/root' 0 awk '!seen[$4 $5 $2]++ { print $4, $5, $2 }' "$folder/listed"
ends 'a folder that was not built' 1 env BUILT="$folder/none" "$top/package" "$folder/none"
ends 'no folder' 2 "$top/package"
mkdir -p "$folder/other/bin" && cp -R "$built/lib" "$built/include" "$folder/other" && cp "$built/bin/tmwatch-bench" "$folder/other/bin"
printf '%s\n' '#!/bin/sh' 'echo tmwatch 0.0.9, by opacity' >"$folder/other/bin/tmwatch" && chmod +x "$folder/other/bin/tmwatch"
ends 'a program of another version' 1 env BUILT="$folder/other" "$top/package" "$folder/none"
has_told 'a program of another version: what is told' "is not of version $version: tmwatch 0.0.9, by opacity"
cp "$program" "$folder/other/bin/tmwatch"
echo 'int main(void) { return 0; }' | "$cc" -x c -o "$folder/other/bin/tmwatch-bench" - -Wl,--no-as-needed -lgcc_s
ends 'a program that needs another library' 1 env BUILT="$folder/other" "$top/package" "$folder/none"
has_told 'a program that needs another library: what is told' 'no package is known to have libgcc_s.so.1'

# The archive of files in a package.
data_of() {
    ar p "$folder/once/$1_${version}_amd64.deb" data.tar.gz
}

# A root of its own, whose only package is the C library of this machine: the others depend on it.
root=$folder/root prefix=$folder/prefix
mkdir -p "$root" "$prefix"
ends 'tar' 0 tar -xzf "$folder/once/$name.tar.gz" --strip-components=2 -C "$prefix"
as_root=()
[ "$(id -u)" -eq 0 ] || as_root=(fakeroot)
dpkg=("${as_root[@]}" dpkg "--root=$root" --force-not-root --force-script-chrootless --force-bad-path --log=/dev/null)
if has dpkg 'dpkg -i' && has "${dpkg[0]}" 'dpkg -i'; then
    mkdir -p "$root/var/lib/dpkg/info" "$root/var/lib/dpkg/updates"
    dpkg-query --status libc6:amd64 >"$root/var/lib/dpkg/status"
    ends 'dpkg -i' 0 "${dpkg[@]}" -i "$folder"/once/*.deb
    tells 'what is installed' "$(printf "%s $version amd64 ii \n" "${packages[@]}")" 0 dpkg-query "--admindir=$root/var/lib/dpkg" -W \
        -f '${Package} ${Version} ${Architecture} ${db:Status-Abbrev}\n' "${packages[@]}"
    tells 'dpkg --verify' '' 0 "${dpkg[@]}" --verify "${packages[@]}"
else
    for package in "${packages[@]}"; do
        data_of "$package" | tar -xzf - -C "$root"
    done
fi
if has dpkg-deb 'what dpkg-deb says'; then
    ends 'dpkg-deb reads each' 0 sh -c 'for it; do dpkg-deb -I "$it" && dpkg-deb -c "$it" || exit; done' sh "$folder"/once/*.deb
    tells 'the library that headers need' "libtmwatch0 (= $version)" 0 dpkg-deb -f "$folder/once/libtmwatch-dev_${version}_amd64.deb" Depends
    for package in tmwatch libtmwatch0; do
        tells "the C library that $package needs, by README.md" "$(sed -n 's/.* need \(libc6\) \([0-9.]*\) or newer.*/\1 (>= \2)/p' "$top/README.md")" 0 \
            dpkg-deb -f "$folder/once/${package}_${version}_amd64.deb" Depends
    done
fi
library=$root/usr/lib/x86_64-linux-gnu pages=$root/usr/share/tmwatch
# What a package has, but for copyrights and the like.
held() {
    data_of "$1" | tar -tzf - | grep -v '/$\|/share/doc/' | sed 's|^\./||' | LC_ALL=C sort
}
tells 'the shared library alone' "usr/lib/x86_64-linux-gnu/libtmwatch.so.0
usr/lib/x86_64-linux-gnu/libtmwatch.so.$version
usr/share/lintian/overrides/libtmwatch0" 0 held libtmwatch0
tells 'what programs in C are built from' "$(printf 'usr/include/%s\n' tmwatch.h tmwatch/{kept,memory,recorder,rounds,store,watched}.h \
    tmwatch_bench.h tmwatch_bench.hpp tmwatch_permits.h)
$(printf 'usr/lib/x86_64-linux-gnu/%s\n' cmake/tmwatch/tmwatch-config{-version,}.cmake libtmwatch.a libtmwatch.so libtmwatch_{bench,steps}.a)
$(printf 'usr/lib/x86_64-linux-gnu/pkgconfig/%s.pc\n' tmwatch tmwatch_bench tmwatch_steps)
usr/share/man/man3/libtmwatch.3.gz" 0 held libtmwatch-dev
tells 'what the program has among libraries' usr/lib/python3/dist-packages/tmwatch_store.py 0 sh -c 'grep ^usr/lib/ <<END
$1
END' sh "$(held tmwatch)"
# The archive has the same files, in Debian's folders for one processor or in lib.
for part in bin include lib/python3 share/{man,bash-completion,zsh,fish,tmwatch}; do
    ends "tar and dpkg install the same $part" 0 diff -r --no-dereference "$root/usr/$part" "$prefix/$part"
done
ends 'tar and dpkg install the same libraries' 0 diff -r --no-dereference -x pkgconfig -x cmake -x python3 "$library" "$prefix/lib"
tells 'nobody else may write there' '' 0 find "$root/usr" ! -type l -perm /022
# What may be run in the tree may be where it is installed.
ends 'scripts may be run' 0 diff <(cd "$top" && find examples -type f -perm -u+x | sort) <(cd "$pages" && find examples -type f -perm -u+x | sort)
ends 'a script runs' 4 "$pages/examples/ci/bench.sh"
has_told 'a script runs: what is told' '^usage: bench.sh OUT PROGRAM'
tells 'links from /usr/share/doc' '' 0 find "$root/usr/share/doc" -xtype l
ends 'links of the pages' 0 python3 "$top/tests/links.py" "$pages"
ends 'links of the README' 0 grep -q '](docs/C-BENCH.md)' "$pages/README.md"
installed=$root/usr/bin/tmwatch examples=$pages/examples
# The README's first example of a trace, where it is installed.
sed -n '/^    \$ tmwatch judge /,/^$/s/^    \(\$ \)\?//p' "$pages/README.md" | sed -n 1,2p >"$folder/example"
tells 'the first example of the README' "$(sed -n 2p "$folder/example")" 1 env PATH="$root/usr/bin:$PATH" \
    sh -c 'cd "$1" && eval "$2"' sh "$pages" "$(sed -n 1p "$folder/example")"

# The program.
ends 'the program that was built' 0 cmp "$program" "$installed"
tells '--version' "$("$program" --version)" 0 "$installed" --version
ends 'the version of the package' 0 grep -q "^tmwatch $version, " "$folder/told"
tells judge '{"at":4,"events":8,"verdict":"violated"}' 1 "$installed" judge <"$examples/dirty_read.trace"
tells show '{"at":6,"events":6,"verdict":"violated"}
    state  1
    event  thread 0       thread 1
        5                 T1 R 0
        6                    V 0    violates opacity' 1 "$installed" show <"$examples/stale_read.trace"
tells 'judge, by tar' '{"at":4,"events":8,"verdict":"violated"}' 1 "$prefix/bin/tmwatch" judge <"$examples/dirty_read.trace"

# The bench by lines.
ends 'the bench by lines that was built' 0 cmp "$built/bin/tmwatch-bench" "$root/usr/bin/tmwatch-bench"
if has python3 'the bench by lines'; then
    ends 'the bench by lines' 0 "$root/usr/bin/tmwatch-bench" --single-process --schedule steps --rounds 50 -- python3 "$examples/python/memory.py"
    ends 'the bench by lines, a wrong memory' 1 "$prefix/bin/tmwatch-bench" --trace "$folder/left" --single-process -- python3 "$examples/python/memory.py" reads
fi

# The library: its names and links, and programs in C that are linked against it.
soname=$(readlink "$library/libtmwatch.so")
tells 'the links' "$soname"$'\n'"libtmwatch.so.$version" 0 readlink "$library/libtmwatch.so" "$library/$soname"
readelf -W -d "$library/libtmwatch.so" >"$folder/dynamic"
ends 'the soname' 0 grep -q "(SONAME).*\[$soname\]" "$folder/dynamic"
ends 'a soname with a version' 0 grep -qx 'libtmwatch\.so\.[0-9]*' <<<"$soname"

# Compiles an example against what is installed, with these words of pkg-config, and tells whether it loads the shared library.
compile() {
    local name=$1 file=$2 loads=$3
    shift 3
    ends "$name compiles" 0 "$cc" -std=c11 -Wall -Wextra -Werror -O2 -pthread -o "$folder/program" "$examples/c/$file" "$@"
    readelf -W -d "$folder/program" >"$folder/dynamic"
    tells "$name loads the library: $loads" "$loads" $((1 - loads)) grep -c "(NEEDED).*\[$soname\]" "$folder/dynamic"
}

# The names that the linker wraps are those that the archives have.
wrapped=$(sed '/^#/d; s/^[a-z]* //' "$top/packaging/wrapped.txt" | tr ' ' '\n' | LC_ALL=C sort)
tells 'what is wrapped' "$wrapped" 0 sh -c 'nm "$@" | sed -n "s/.* [TW] __wrap_//p" | LC_ALL=C sort' sh "$library"/libtmwatch_{bench,steps}.a

# What pkg-config says of a package in the root, in the prefix, or in the folder that was built.
in_root() {
    PKG_CONFIG_SYSROOT_DIR=$root PKG_CONFIG_ALLOW_SYSTEM_CFLAGS=1 PKG_CONFIG_ALLOW_SYSTEM_LIBS=1 PKG_CONFIG_LIBDIR=$library/pkgconfig \
        pkg-config "$@"
}
in_prefix() {
    PKG_CONFIG_LIBDIR=$prefix/lib/pkgconfig pkg-config "$@"
}
in_built() {
    PKG_CONFIG_LIBDIR=$built/lib/pkgconfig pkg-config "$@"
}
rounds=${ROUNDS:-500}
tells 'no package for pkg-config leads out of its folder' '' 1 grep -F .. "$library/pkgconfig" -r
if has pkg-config 'programs in C'; then
    tells 'what a program in C needs, installed' '-ltmwatch_bench -pthread -ltmwatch' 0 env "PKG_CONFIG_LIBDIR=$library/pkgconfig" \
        sh -c 'echo $(pkg-config --cflags --libs tmwatch_bench | sed "s/ -Wl,--wrap=pthread_mutex_lock,[^ ]*//")'
    for at in in_root in_prefix in_built; do
        tells "pkg-config, $at" "$version"$'\n'"$version"$'\n'"$version" 0 "$at" --modversion tmwatch tmwatch_bench tmwatch_steps
        read -r -a cflags < <("$at" --cflags tmwatch)
        read -r -a libs < <("$at" --libs tmwatch)
        read -r -a bench < <("$at" --libs tmwatch_bench)
        folder_of=$library
        [ "$at" = in_root ] || folder_of=$("$at" --variable=libdir tmwatch)
        # (the system's loader knows no folder but its own: elsewhere pkg-config names the archive)
        shared=0 loader=()
        [ "$at" != in_root ] || shared=1 loader=(env "LD_LIBRARY_PATH=$folder_of")
        compile "an audited bank, $at, by pkg-config" audit.c "$shared" "${cflags[@]}" "${libs[@]}"
        ends "an audited bank, $at, by pkg-config" 0 "${loader[@]}" "$folder/program" "$rounds"
        ends "a broken audited bank, $at, by pkg-config" 1 "${loader[@]}" "$folder/program" "$rounds" broken
        compile "an audited bank, $at, static" audit.c 0 "${cflags[@]}" "$folder_of/libtmwatch.a"
        ends "an audited bank, $at, static" 0 "$folder/program" "$rounds"
        ends "a broken audited bank, $at, static" 1 "$folder/program" "$rounds" broken
        compile "a memory on the bench, $at, by pkg-config" norec.c "$shared" "${cflags[@]}" "${bench[@]}"
        ends "a memory on the bench, $at, by pkg-config" 0 "${loader[@]}" "$folder/program" --rounds "$rounds"
        compile "a memory on the bench, $at, static" norec.c 0 "${cflags[@]}" "$folder_of/libtmwatch_bench.a" "$folder_of/libtmwatch.a"
        ends "a memory on the bench, $at, static" 0 "$folder/program" --rounds "$rounds"
    done
fi

# A project of CMake finds the libraries in the root and in the prefix, and its programs start.
cmake_project() {
    mkdir -p "$folder/project"
    cat >"$folder/project/CMakeLists.txt" <<END
cmake_minimum_required(VERSION 3.13)
project(try C)
find_package(tmwatch ${2:-$version} CONFIG REQUIRED)
set(CMAKE_C_FLAGS "-O2 -Wall -Werror")
add_executable(audit "$examples/c/audit.c")
target_link_libraries(audit tmwatch::tmwatch)
add_executable(norec "$examples/c/norec.c")
target_link_libraries(norec tmwatch::tmwatch_bench)
target_compile_definitions(norec PRIVATE TMWATCH_PAUSES)
add_executable(marked "$examples/c/norec.c")
target_link_libraries(marked tmwatch::tmwatch_steps)
target_compile_options(marked PRIVATE -fsanitize=thread)
END
    rm -rf "$folder/cmake"
    cmake -DCMAKE_C_COMPILER="$cc" -DCMAKE_PREFIX_PATH="$1" -S "$folder/project" -B "$folder/cmake" && cmake --build "$folder/cmake"
}
if has cmake 'projects of CMake'; then
    for at in "$root/usr" "$prefix" "$built"; do
        ends "CMake, ${at##*/}" 0 cmake_project "$at"
        ends "CMake, ${at##*/}: a watch" 0 "$folder/cmake/audit" "$rounds"
        ends "CMake, ${at##*/}: a bench" 0 "$folder/cmake/norec" --rounds "$rounds"
        ends "CMake, ${at##*/}: steps" 0 "$folder/cmake/marked" --schedule steps --rounds "$rounds"
        has_told "CMake, ${at##*/}: steps are seen" '"context_switches":[1-9].*"stalls":0,'
        tells "CMake, ${at##*/}: what is wrapped" "$wrapped" 0 sh -c 'grep -o -e "--wrap=[^, ]*" "$1" | cut -d= -f2 | LC_ALL=C sort' \
            sh "$folder/cmake/CMakeFiles/marked.dir/link.txt"
    done
    ends 'CMake, a later version' 1 cmake_project "$prefix" 99
fi

# The man pages: no warning, and the words of the program and the library.
for page in man1/tmwatch.1 man1/tmwatch-bench.1 man3/libtmwatch.3; do
    gunzip -c "$root/usr/share/man/$page.gz" >"$folder/${page#*/}"
    if has man "man -l ${page#*/}"; then
        tells "man -l ${page#*/} warns of nothing" '' 0 sh -c 'LC_ALL=C.UTF-8 man --warnings -E UTF-8 -l -Tutf8 -Z "$1" 2>&1 >/dev/null' \
            sh "$root/usr/share/man/$page.gz"
        MANWIDTH=80 LC_ALL=C man -l "$root/usr/share/man/$page.gz" >"$folder/rendered"
        ends "man -l ${page#*/}" 0 grep -q "^ *tmwatch $version .*([13])" "$folder/rendered"
    fi
    if has mandoc "mandoc -T lint ${page#*/}"; then
        tells "mandoc -T lint ${page#*/}" '' 0 mandoc -T lint -W warning "$folder/${page#*/}"
    fi
done

# Of the help of a command, or of the program: the options of a list, each with its text, or the commands.
helped() {
    "$installed" ${1:+"$1"} --help | sed -n "/^$2:/,/^\$/s/^  *//p" | tr -d '<>' | tr -s ' '
}

page=$folder/tmwatch.1
awk '/^\.SS / { name = $2; getline; print name " " $0 }' "$page" >"$folder/commands"
helped '' Commands >"$folder/wanted"
ends 'the commands of tmwatch.1' 0 diff "$folder/wanted" "$folder/commands"
ends 'some commands' 0 test "$(wc -l <"$folder/commands")" -ge 5
mapfile -t commands < <(cut -d' ' -f1 "$folder/wanted")
entries "$page" '.SH OPTIONS' | sed 's/ ,/,/' >"$folder/options"
ends 'the options of tmwatch.1' 0 diff <(helped '' Options) "$folder/options"
grep -- --help "$folder/options" >"$folder/help"
for command in "${commands[@]}"; do
    ends "the options of $command in tmwatch.1" 0 diff <(helped "$command" Options) \
        <(entries "$page" ".SS $command" | cat - "$folder/help")
done
# The first example of the page, with what it prints, which begins after the command line.
sed -n '/^\.EX/,/^\.EE/{/^\.E/d;s/\\-/-/g;s/\\e/\\/g;p}' "$page" | sed -n '1,/^\$ tmwatch/{/^\$ tmwatch/!p}' >"$folder/example"
ends 'the example of tmwatch.1' 0 diff <(sed 1d "$folder/example") \
    <(PATH=$root/usr/bin:$PATH sh -c "$(sed -n '1s/^\$ //p' "$folder/example")")
ends 'an example that prints' 0 test "$(wc -l <"$folder/example")" -eq 2
while read -r path; do
    ends "$path is there" 0 test -e "$root$path"
done < <(grep -ho '/usr/[A-Za-z0-9_./-]*' "$folder"/*tmwatch.[13] | sort -u)
ends 'the exit status in tmwatch.1' 0 diff <(helped '' 'Exit status' | sed '/^[0-9] /!d') <(entries "$page" '.SH EXIT STATUS')

# The options of the bench by lines: each with its text.
"$root/usr/bin/tmwatch-bench" --help | sed -n 's/^  --/--/p' | tr -s ' ' >"$folder/benched"
ends 'the options of tmwatch-bench.1' 0 diff "$folder/benched" <(entries "$folder/tmwatch-bench.1" '.SH OPTIONS' | sed 's/ ,/,/')
ends 'some options of tmwatch-bench' 0 test "$(wc -l <"$folder/benched")" -ge 30

page=$folder/libtmwatch.3
# The prototypes of the page, which have to be those of the headers, and are all that the libraries have.
sed -n '/^\.SH SYNOPSIS/,/^\.fi/s/^\.B "\?\([^"]*\)"\?$/\1/p' "$page" >"$folder/prototypes.c"
ends 'the prototypes of libtmwatch.3' 0 "$cc" -std=c11 -Wall -Wextra -Werror "-I$root/usr/include" -c -o "$folder/prototypes.o" \
    "$folder/prototypes.c"
{
    nm -D --defined-only "$library/libtmwatch.so" | cut -d' ' -f3
    # (those of tmwatch_step_, tmwatch_lock_ and __wrap_ are there for libtmwatch_steps.a, the package in Rust and the linker)
    nm -g --defined-only "$library/libtmwatch_bench.a" | sed -n 's/.* T //p' | grep -v '^tmwatch_step_\|^tmwatch_lock_\|^__wrap_'
    # (two functions are there for the others)
    awk '/^static inline/ && !/_(look|enter)\(/ { sub(/\(.*/, ""); sub(/.*[ *]/, ""); print }' "$root/usr/include/tmwatch_permits.h"
} | sort >"$folder/wanted"
ends 'the functions of libtmwatch.3' 0 diff "$folder/wanted" \
    <(sed -n 's/^[a-z].* \**\(tmwatch_[a-z_]*\)(.*/\1/p' "$folder/prototypes.c" | sort)
ends 'each function has words in libtmwatch.3' 0 diff "$folder/wanted" \
    <(sed -n '/^\.SH DESCRIPTION/,$p' "$page" | grep -o 'tmwatch_[a-z_]*[ "]*(' | tr -d ' "(' | sort -u)
ends 'the statuses of libtmwatch.3' 0 diff <(entries "$page" '.SH RETURN VALUE') \
    <(sed -n '/^enum tmwatch_status/,/^}/s/^ *\(TMWATCH_[A-Z_]*\) = .*\/\* \(.*\) \*\/$/\1 \2/p' "$root/usr/include/tmwatch.h")

# The completions: what each shell offers is what the program takes.
# Words in one line, sorted.
in_line() {
    tr ' ' '\n' | sort | xargs -r
}

# The long options of a command, or of the program; those that take a value; and the values of one of these, if the program has a list.
options_of() {
    helped "$1" Options | grep -o -- '--[a-z-]*' | in_line
}
taking_of() {
    helped "$1" Options | sed -n 's/^\(--[a-z-]*\) [A-Z][A-Z]* .*/\1/p'
}
values_of() {
    { "$installed" "$1" "$2" '?' 2>&1 || true; } | sed -n 's/.*\[possible values: \(.*\)\]$/\1/p' | tr -d , | in_line
}

# What a shell offers for the last of these words, in one line.
by_bash() {
    bash --norc -c '. "$0" && name=$(complete -p tmwatch) && name=${name#complete -F } && COMP_WORDS=("$@") && COMP_CWORD=$(($# - 1)) &&
        "${name% *}" tmwatch "${COMP_WORDS[COMP_CWORD]}" "${COMP_WORDS[COMP_CWORD - 1]}" && echo "${COMPREPLY[@]}"' \
        "$root/usr/share/bash-completion/completions/tmwatch" "$@" | in_line
}
by_zsh() {
    zsh -f "$top/tests/offered.zsh" "$root/usr/share/zsh/vendor-completions" "$*" | in_line
}
by_fish() {
    fish --no-config -c 'source $argv[1]; complete -C "$argv[2]"' "$root/usr/share/fish/vendor_completions.d/tmwatch.fish" "$*" |
        cut -f1 | in_line
}

# Compares what this shell offers with what the program takes: commands, options and values.
compare_offered() {
    local by=by_$1 command option
    tells "$1: commands" "$(printf '%s\n' "${commands[@]}" | in_line)" 0 no_options "$("$by" tmwatch '')"
    tells "$1: options" "$(options_of '')" 0 "$by" tmwatch --
    tells "$1: a window's numbers" '' 0 "$by" tmwatch judge --window ''
    for command in "${commands[@]}"; do
        tells "$1: options of $command" "$(options_of "$command")" 0 "$by" tmwatch "$command" --
        for option in $(taking_of "$command"); do
            if [ -n "$(values_of "$command" "$option")" ]; then
                tells "$1: values of $command $option" "$(values_of "$command" "$option")" 0 "$by" tmwatch "$command" "$option" ''
            fi
        done
    done
}
no_options() {
    tr ' ' '\n' <<<"$*" | sed '/^-/d' | in_line
}
ends 'the criteria are listed' 0 test "$(values_of judge --criterion)" = 'both opacity strict'
compare_offered bash
tells 'bash: an option after =' 'strict' 0 by_bash tmwatch judge --criterion = s
tells 'bash: all values after =' 'opacity strict' 0 by_bash tmwatch show --criterion =
tells 'bash: an option is given once' '--first --help --states --window' 0 by_bash tmwatch judge --summary --criterion = both ''
tells 'bash: a beginning' '--trace --trace-only' 0 by_bash tmwatch drive --tr
helped '' Commands | cut -d' ' -f2- >"$folder/texts"
for command in '' "${commands[@]}"; do
    helped "$command" Options | sed 's/ \[default: .*//; s/^\(-., \)\?--[a-z-]* \([A-Z][A-Z]* \)\?//'
done | sort -u >>"$folder/texts"
# Prints each text of the help that a file has not.
lacks() {
    while read -r text; do
        grep -qF -- "$text" "$1" || echo "$text"
    done <"$folder/texts"
}
ends 'the texts of the help' 0 test "$(wc -l <"$folder/texts")" -ge 20
for shell in zsh fish; do
    file=$root/usr/share/zsh/vendor-completions/_tmwatch
    [ "$shell" = zsh ] || file=$root/usr/share/fish/vendor_completions.d/tmwatch.fish
    tells "$shell: the texts of the help" '' 0 lacks "$file"
    if has "$shell" "completion by $shell"; then
        ends "$shell reads it" 0 "$shell" -n "$file"
        compare_offered "$shell"
    fi
done

# The bench by lines: what each shell offers is what its help lists.
benched() {
    PATH="$root/usr/bin:$PATH" bash --norc -c '. "$0" && COMP_WORDS=("$@") && COMP_CWORD=$(($# - 1)) &&
        _tmwatch_bench "$1" "${COMP_WORDS[COMP_CWORD]}" "${COMP_WORDS[COMP_CWORD - 1]}" && echo "${COMPREPLY[@]}"' \
        "$root/usr/share/bash-completion/completions/tmwatch-bench" tmwatch-bench "$@" | in_line
}
listed=$(grep -oE -- '^--[a-z-]+|--version' "$folder/benched" | in_line)
tells 'bash: options of tmwatch-bench' "$(in_line <<<"-- $listed")" 0 benched --
tells 'bash: schedules' 'all permits rounds steps' 0 benched --schedule ''
tells 'bash: values' 'small wide' 0 benched --values ''
tells 'bash: a command for tmwatch-bench' '' 0 benched --setup ''
tells 'bash: a program' '' 0 benched --single-process -- --
if has zsh 'completion of tmwatch-bench by zsh'; then
    by_zsh_benched() {
        PATH="$root/usr/bin:$PATH" by_zsh tmwatch-bench --
    }
    tells 'zsh: options of tmwatch-bench' "$listed" 0 by_zsh_benched
fi
if has fish 'completion of tmwatch-bench by fish'; then
    tells 'fish: options of tmwatch-bench' "$listed" 0 env "PATH=$root/usr/bin:$PATH" sh -c 'fish --no-config -c '\''source $argv[1]
        complete -C "tmwatch-bench --"'\'' "$1" | cut -f1 | sort | xargs' sh "$root/usr/share/fish/vendor_completions.d/tmwatch-bench.fish"
fi

# What packaging/Dockerfile makes, in a root of this machine's files.
slim=$folder/slim home=/root/tmwatch apart=(unshare --mount)
[ "$(id -u)" -eq 0 ] || apart=(unshare --map-root-user --mount)
in_slim() {
    "${apart[@]}" sh -c 'mount --rbind /dev "$0/dev" && mount --rbind /proc "$0/proc" && exec chroot "$0" env -i \
        PATH=/usr/sbin:/usr/bin:/sbin:/bin HOME=/root LC_ALL=C.UTF-8 "$@"' "$slim" "$@"
}

# Whether there is such a root, with what the image gets from Debian. If not, a line says why.
has_slim() {
    local packages
    has unshare 'a slim image' && has dpkg-query 'a slim image' && has python3 'a slim image' || return
    read -r -a packages < <(sed -n 's/.*--no-install-recommends \([^&]*\) &&.*/\1/p' "$top/packaging/Dockerfile")
    # (PERFORMANCE.md takes the time of a run)
    if ! { "$top/tests/slim.py" "$slim" "${packages[@]}" time && in_slim ldconfig; } >"$folder/told" 2>&1; then
        echo "a slim image: skipped, since it can't be made here: $(tail -n 1 "$folder/told")"
        return 1
    fi
}

# Runs the commands of a page in a folder of the image, and compares what they print with what the page shows.
page_holds() {
    local page=$slim/usr/share/tmwatch/$1
    python3 "$top/tests/shown.py" "$page" script >"$slim/tmp/script"
    in_slim sh -c 'mkdir -p "$0" && cd "$0" && bash /tmp/script /tmp/out' "$2"
    python3 "$top/tests/shown.py" "$page" compare "$slim/tmp/out"
    rm -r "$slim/tmp/out"
}
if has_slim; then
    read -r files to < <(sed -n 's/^COPY //p' "$top/packaging/Dockerfile")
    # shellcheck disable=SC2086
    (mkdir -p "$slim/$to" && cd "$folder/once" && cp $files "$slim/$to")
    while read -r command; do
        ends "Dockerfile: $command" 0 in_slim sh -c "$command"
    done < <(sed -n '/apt-get/d; s/^RUN //p' "$top/packaging/Dockerfile")
    tells 'the image begins with the pages' "WORKDIR $home" 0 grep WORKDIR "$top/packaging/Dockerfile"
    ends 'a slim image leaves out' 2 in_slim ls /usr/share/doc/tmwatch/changelog.gz /usr/share/man/man1/tmwatch.1.gz
    ends 'a slim image has no kit' 127 in_slim sh -c 'rt version'
    ends "a module on Python's path" 0 in_slim sh -c 'cd / && python3 -c "import tmwatch_store"'
    # What pages take as yours: packages and a folder, a run and its recorder, a history.
    cp "$folder"/once/* "$slim/$home" && mkdir "$slim/$home/PREFIX"
    cp "$pages/examples/two_writers.trace" "$slim/$home/run.trace"
    printf '%s\n' '#!/bin/sh' 'cat run.trace' >"$slim/$home/record" && chmod +x "$slim/$home/record"
    cp "$slim/$home/record" "$slim/usr/bin/producer"
    for type in invoke ok; do
        echo "{:type :$type, :process 0, :f :txn, :value [[:w 7 1] [:w 9 1]]}"
    done >"$slim/$home/history.edn"
    # (README.md first: there the packages are installed again)
    while read -r page; do
        ends "$page, in a slim image" 0 page_holds "$page" $home
    done < <(cd "$pages" && grep -l '^    \$ ' README.md docs/*.md)
fi

# What lintian finds, and what is left when the package goes.
if has lintian lintian; then
    ends lintian 0 env LC_ALL=C.UTF-8 lintian --fail-on error,warning "$folder"/once/*.deb
    grep '^[A-Z]:' "$folder/output" || true
fi
if [ -e "$root/var" ]; then
    ends 'dpkg -r' 0 "${dpkg[@]}" -r "${packages[@]}"
    tells 'nothing is left' '' 0 find "$root" -mindepth 1 '(' ! -path "$root/var*" -o -name '*tmwatch*' ')'
    ends 'dpkg has forgotten them' 1 dpkg-query "--admindir=$root/var/lib/dpkg" -W "${packages[@]}"
fi
end_rows
