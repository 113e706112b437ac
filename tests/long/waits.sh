#!/usr/bin/env bash
# Runs tests/c_waits.sh with 3,000 rounds of each lock, with gcc and with clang.
#
#   tests/long/waits.sh
#
# Output, exit status and environment are those of that script.
export COMPILERS=${COMPILERS:-gcc clang} ROUNDS=${ROUNDS:-3000}
exec "$(dirname "${BASH_SOURCE[0]}")/../c_waits.sh"
