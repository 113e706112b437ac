#!/usr/bin/env bash
# Builds and tests the Rust package in bindings/rust with the library for C, offline.
#
#   tests/bindings.sh
#
# Prints a line for each test case, and 'N passed, M failed' as the last line. The exit status is 1 if a test case failed. Without cargo,
# nothing is tested: a line says so, and the status is 0.
# Environment: CARGO (cargo), BUILT (tests/common.sh).
set -eu
# shellcheck source=tests/common.sh
. "$(dirname "${BASH_SOURCE[0]}")/common.sh"
cargo=${CARGO:-cargo}
has "$cargo" tests/bindings.sh || exit 0
# (rustup's stands for one that it finds below HOME)
if ! "$cargo" --version >"$folder/told" 2>&1; then
    echo "tests/bindings.sh: skipped, since $cargo runs nothing: $(head -n 1 "$folder/told")"
    exit 0
fi
use_library
library=$(cd "$built/lib" && pwd)
# Nothing is written into the repository's folder.
export CARGO_TARGET_DIR=$folder/target RUSTFLAGS=-Dwarnings RUSTDOCFLAGS=-Dwarnings
cd "$top/bindings/rust"

ends 'the tests' 0 env TMWATCH_LIB="$library" "$cargo" test --offline --locked
grep '^test ' "$folder/output" || true
# (what was built before is no longer right)
ends 'a library that is not there' 101 env TMWATCH_LIB="$folder/none" "$cargo" build --offline --locked
has_told 'a library that is not there: what is told' 'libtmwatch_bench.a and .* set TMWATCH_LIB to FOLDER/lib'
# (archives alone)
mkdir "$folder/copied" && cp "$library"/*.a "$folder/copied"
for _ in first then; do
    ends 'a library that has changed' 0 env TMWATCH_LIB="$folder/copied" "$cargo" test --offline --locked --no-run --test leaks
    has_told 'a library that has changed: it is built' Compiling
    sleep 1 && touch "$folder/copied"
done
ends 'the tests, optimized' 0 env TMWATCH_LIB="$library" "$cargo" test --offline --locked --release
ends 'the tests, each access a step' 0 env TMWATCH_LIB="$library" "$cargo" test --offline --locked --release --features steps
ends 'the pages, each access a step' 0 env TMWATCH_LIB="$library" "$cargo" doc --offline --locked --features steps
ends 'the pages' 0 env TMWATCH_LIB="$library" "$cargo" doc --offline --locked
ends 'a program on the bench' 0 env TMWATCH_LIB="$library" "$cargo" run --offline --locked --release --example lock -- --schedule steps \
    --rounds 500
has_told 'a program on the bench: no stall' '"rounds":500,"stalls":0,'
ends 'a program on the bench: each wait is seen' 1 sh -c 'nm -D "$1" | grep __real_sched_yield' sh "$folder/target/release/examples/lock"
# (each pause is a step)
ends 'a program of one thread' 0 env TMWATCH_LIB="$library" "$cargo" run --offline --locked --release --example lock -- --schedule steps --rounds 20 \
    --threads 1 --aborts 50
has_told 'a program of one thread: its steps' '"steps":325,'
# A memory that uses tmwatch::sync, by the orders of C++20: the right one, and ones with an order too weak, whose lines are told.
in_order() {
    TMWATCH_LIB=$library CARGO_PROFILE_RELEASE_DEBUG=1 "$cargo" run --offline --locked --release --example sequence --features steps -- \
        --schedule steps --orders c++ "$@"
}
ends 'a sequence lock by the orders of C++20' 0 in_order --rounds 2000
has_told 'a sequence lock by the orders of C++20: no stall' '"rounds":2000,"stalls":0,'
# (the copy is linked as another's program is, without the linker's words)
cp -r "$top/bindings/rust" "$folder/rust"
cd "$folder/rust"
sed -i 's/println!("cargo:rustc-link-arg-{kind}={}", wraps(&folder));/let _ = (kind, wraps(\&folder));/' build.rs
ends 'no words for the linker: planted' 1 cmp -s "$top/bindings/rust/build.rs" build.rs
ends 'a mutex of tmwatch::sync without them' 0 env TMWATCH_LIB="$library" "$cargo" test --offline --locked --release --features steps --test sync \
    orders_are_seen
for change in 's/sequence.load(Acquire)/sequence.load(Relaxed)/' 's/^        fence(Acquire);//' 's/^        fence(Release);//' \
    's/snapshot + 2, Release/snapshot + 2, Relaxed/'; do
    sed "$change" "$top/bindings/rust/examples/sequence.rs" >examples/sequence.rs
    ends "$change: planted" 1 cmp -s "$top/bindings/rust/examples/sequence.rs" examples/sequence.rs
    ends "$change: found" 1 in_order
    cp "$folder/output" "$folder/told"
    ends "$change: no word on locks, since there is none" 1 grep -q 'wrapped\|untracked\|of pthread' "$folder/told"
    cp "$folder/told" "$folder/output"
    if has addr2line 'lines of the source'; then
        has_told "$change: the lines" -E "^  stale load: thread [0-3] at sequence.rs:[0-9]+ .* missed thread [0-3]'s store at sequence.rs:"
    fi
done
cd "$top/bindings/rust"
# Each atomic access as a step, which a nightly compiler can do, or this one if it is told to be one.
steps="-Zsanitizer=thread -Zexternal-clangrt -Cunsafe-allow-abi-mismatch=sanitizer -Clink-arg=$library/libtmwatch_steps.a"
by_steps() {
    TMWATCH_LIB=$library RUSTC_BOOTSTRAP=1 RUSTFLAGS="$steps -Clink-arg=$library/libtmwatch_bench.a" "$cargo" "$1" --offline --locked \
        --release --example lock --target x86_64-unknown-linux-gnu "${@:2}"
}
if by_steps build >"$folder/output" 2>&1; then
    ends 'each access a step' 0 by_steps run -- --schedule steps --rounds 500 --orders x86
    has_told 'each access a step: no stall' '"rounds":500,"stalls":0,'
else
    echo "each access a step: skipped, since the compiler has it not: $(tail -n 1 "$folder/output")"
fi
if command -v pkg-config >/dev/null; then
    ends 'by the package' 0 env -u TMWATCH_LIB PKG_CONFIG_PATH="$library/pkgconfig" "$cargo" build --offline --locked
    ends 'a package that is not there' 101 env -u TMWATCH_LIB PKG_CONFIG_PATH="$folder" PKG_CONFIG_LIBDIR="$folder" "$cargo" build --offline --locked
fi
if "$cargo" fmt --version >/dev/null 2>&1; then
    ends 'the form' 0 "$cargo" fmt --check
fi
if "$cargo" clippy --version >/dev/null 2>&1; then
    ends 'no hint of clippy' 0 env TMWATCH_LIB="$library" "$cargo" clippy --offline --locked --all-targets -- -D warnings
    ends 'no hint of clippy, each access a step' 0 env TMWATCH_LIB="$library" "$cargo" clippy --offline --locked --all-targets \
        --features steps -- -D warnings
fi
end_rows
