#!/usr/bin/env bash
# Measures the cost of the C library with measure/c_library.c: of recording an event, of judging one, and of the heap after many events.
#
#   measure/c_library.sh [EVENTS]
#
# EVENTS (100,000,000) applies to the last line.
# Environment: CC (gcc), BUILT (tests/common.sh).
set -eu
# shellcheck source=tests/common.sh
. "$(dirname "${BASH_SOURCE[0]}")/../tests/common.sh"
use_library
"${CC:-gcc}" -std=gnu11 -O2 -Wall -Wextra -pthread "-I$built/include" -o "$folder/c" "$top/measure/c_library.c" "$built/lib/libtmwatch.a"
nproc | sed 's/$/ processors/'
"$folder/c" "$@"
