#!/usr/bin/env bash
# Shows that the calls of the ring cannot wait for a `Mutex`: to lock one, a function needs a value that permits waiting, and these calls
# have none. (A loop over `try_lock` has a bound, so it does not wait forever.) Nothing is proved.
#
#   tests/locks.sh
#
# In a copy of the crates, the bodies of `record`, `take`, `meet`, `meet_writers` and `settle` begin with a lock. The compiler must refuse
# each of them, and its message must name the lock. Prints a line for each test case, and 'N passed, M failed' as the last line. The exit
# status is 1 if a test case failed.
set -eu
# shellcheck source=tests/common.sh
. "$(dirname "${BASH_SOURCE[0]}")/common.sh"
cp "$top/crates.txt" "$top/HANDLES" "$folder/"
tar c -C "$top" --exclude=out --exclude=must-fail crates | tar x -C "$folder"
ring=$folder/crates/tmw_ring/src

# Puts a lock into the first line of a call's body: its name, its file, and what the call could pass as a value that may wait.
lock() {
    awk -v name="$1" -v handle="$3" '
        { print }
        $0 ~ "pub fn " name "\\(" { inside = 1 }
        inside && /^    {$/ {
            print "let lock = std::sync::Mutex::new(()); let _held = lock.lock(" handle ");"
            inside = 0
            locked = 1
        }
        END { exit !locked }' "$ring/$2" >"$folder/locked"
    cp "$folder/locked" "$ring/$2"
}

# Compiles the ring with a crate that stands on it, and prints the compiler's errors, without their lines.
compile() {
    (cd "$folder/crates/test_ring" && rt try --test) 2>&1 | sed -n 's/^.*src\/\([a-z]*\.rt\):[0-9:]* error\(.*\)$/\1\2/p' | LC_ALL=C sort
}

is_refused() {
    lock record record.rt self
    lock take take.rt self
    lock meet meet.rt self
    lock meet_writers meet.rt self
    lock settle settle.rt '&self'
    compile | diff - <(printf '%s[unsatisfied-bound]: the trait bound `Ring: Wait` is not satisfied\n' meet.rt meet.rt record.rt settle.rt take.rt)
}

# Nor can the ring be made such a value.
is_no_handle() {
    lock record record.rt self
    echo 'impl std::sync::Wait for Ring {}' >>"$ring/record.rt"
    compile | diff - <(echo 'record.rt[invalid-builtin-impl]: an impl of this trait needs the same bound on a parameter of the block')
}

ends 'a lock in record, take, meet, meet_writers, settle' 0 is_refused
cp "$top"/crates/tmw_ring/src/*.rt "$ring/"
ends 'a ring as what may wait' 0 is_no_handle
end_rows
