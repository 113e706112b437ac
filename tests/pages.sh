#!/usr/bin/env bash
# Checks each block of code in README.md and docs/ (pages.py), and the spelling of pages, headers, comments and messages (codespell).
# tests/package.sh runs the commands of the pages.
#
#   tests/pages.sh
#
# Then dialect.py prints habits that make a page hard to read. They are not test cases, because a sentence that is right and natural may stay.
# The last line is 'N passed, M failed', and the exit status is 1 if a test case failed. If codespell is not installed, the spelling is not
# checked. Without python3 or a C compiler nothing is tested: a line says so, and the exit status is 0.
# Environment: CC (cc), BUILT (tests/common.sh).
set -eu
# shellcheck source=tests/common.sh
. "$(dirname "${BASH_SOURCE[0]}")/common.sh"
has python3 tests/pages.sh && has "${CC:-cc}" tests/pages.sh || exit 0
use_library
export BENCH=$built/bin/tmwatch-bench
cd "$top"
for page in README.md docs/*.md; do
    ends "$page" 0 tests/pages.py "$page"
done

# Prints each misspelled word of these files. The exceptions, in lower case, are a unit of Rust, a format, a person and a name in the sources.
misspelled() {
    codespell --ignore-words-list=crate,edn,traiger,upto "$@"
}
if has codespell spelling; then
    ends spelling 0 misspelled ./*.md docs include examples bindings packaging measure bench-c bench-lines tests/*.md tests/long/*.md \
        crates/*/src crates/*/specs
    # (so that the exceptions are not too many)
    ends 'a misspelled word' 65 misspelled - <<<'The verdict is wirtten.'
fi
tests/dialect.py --rates README.md CHANGELOG.md CONTRIBUTING.md docs/*.md bindings/rust/README.md include/*.h* include/tmwatch/*.h bindings/rust/src/*.rs || true
end_rows
