#!/usr/bin/env bash
# Runs the programs of tmwatch-bench over ssh, with a server of its own on this machine. The same seed must give the same trace as without
# ssh, and a lost connection must be reported as a program that ended.
#
#   tests/long/ssh.sh
#
# Prints a line for each test case, and 'N passed, M failed' as the last line. The exit status is 1 if a test case failed. Without sshd or a
# C compiler, nothing is tested: a line says so, and the status is 0.
# Environment: CC (cc), BUILT (tests/common.sh), TMWATCH_BENCH, the bench (built/bin/tmwatch-bench), PORT (22122).
set -eu
# shellcheck source=tests/common.sh
. "$(dirname "${BASH_SOURCE[0]}")/../common.sh"
cc=${CC:-cc} port=${PORT:-22122} server=/usr/sbin/sshd
if [ ! -x "$server" ] || ! command -v ssh >/dev/null; then
    echo 'tests/long/ssh.sh: skipped, since there is no sshd'
    exit 0
fi
has "$cc" tests/long/ssh.sh || exit 0
if [ -z "${TMWATCH_BENCH:-}" ]; then
    use_library
    TMWATCH_BENCH=$built/bin/tmwatch-bench
fi
cd "$folder"
ends 'a little store compiles' 0 "$cc" -std=c11 -O2 -o "$folder/little" "$top/tests/lines/little.c"
ssh-keygen -q -t ed25519 -N '' -f key
cp key.pub authorized
[ "$(id -u)" -ne 0 ] || mkdir -p /run/sshd
"$server" -D -e -f /dev/null -h "$folder/key" -p "$port" -o ListenAddress=127.0.0.1 -o "AuthorizedKeysFile=$folder/authorized" -o StrictModes=no \
    -o UsePAM=no -o PidFile=none -o MaxStartups=100 >sshd.log 2>&1 &
sshd=$!
trap 'kill $sshd; rm -rf "$folder"' EXIT
client=(ssh -q -F /dev/null -i "$folder/key" -p "$port" -o StrictHostKeyChecking=no -o UserKnownHostsFile=/dev/null "$(id -un)@127.0.0.1")
for _ in $(seq 50); do ! "${client[@]}" true 2>/dev/null || break; sleep 0.1; done
ends 'a connection' 0 "${client[@]}" true

bench() {
    timeout 120 "$TMWATCH_BENCH" --schedule steps --rounds 100 --timeout 30 "$@" >printed 2>said
}
ends 'one program, here' 0 bench --trace here --single-process -- ./little one right
# (this store holds no locks; beside other work an answer may take long)
ends 'one program, by ssh' 0 bench --blocked-after 10000 --trace there --single-process -- "${client[@]}" "$folder/little" one right
ends 'one program: the same trace' 0 cmp here there
ends 'a program for each thread, by ssh' 0 bench -- "${client[@]}" "$folder/little" lock "$folder/registers" right
ends 'a program for each thread, by ssh: waits, and no stall' 0 grep -q '"stalls":0,.*"waits":[1-9]' printed
ends 'a wrong store, by ssh' 1 bench --single-process -- "${client[@]}" "$folder/little" one reads
ends 'a connection that is lost' 4 bench --single-process -- "${client[@]}" 'kill -9 $PPID'
ends 'a connection that is lost: what is said' 0 grep -q '^thread 0, call "X": the program has ended with status 255$' said
end_rows
