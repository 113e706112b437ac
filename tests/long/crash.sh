#!/usr/bin/env bash
# Crashes stores on tmwatch-bench, and judges whether their commits survive. With safe settings, PostgreSQL, Redis and SQLite lose no
# commit; with other settings they do.
#
#   tests/long/crash.sh [NAME..]
#
# NAME is postgres, redis or sqlite. To crash a server, all its processes are killed. To crash SQLite, synced.c simulates a loss of power:
# after it, each file is as it was at its last sync. A test case says how many crashes there were, and the result of the run. With safe
# settings, it passes if the run is opaque so far after ten crashes; with others, if the run is violated.
#
# The last line is 'N passed, M failed'. The exit status is 1 if a test case failed. A store whose packages are missing is skipped: a line
# says so.
# Environment: CRASHES (10), BUILT (tests/common.sh), TMWATCH_BENCH, the bench (built/bin/tmwatch-bench), CC (cc).
set -eu
# shellcheck source=tests/common.sh
. "$(dirname "${BASH_SOURCE[0]}")/../common.sh"
least=${CRASHES:-10}
# (of a crash, with four threads)
rounds=60
if [ -z "${TMWATCH_BENCH:-}" ]; then
    use_library
    TMWATCH_BENCH=$built/bin/tmwatch-bench
fi
chmod 711 "$folder"
export PYTHONDONTWRITEBYTECODE=1
names=" ${*:-postgres redis sqlite} "

# Runs a row: its name, whether it is safe, and the words of the bench.
crashes() {
    local name=$1 safe=$2 status=0 many
    shift 2
    timeout 600 "$TMWATCH_BENCH" --schedule rounds --timeout 60 --seconds 240 --rounds $((least * rounds)) --trace "$folder/trace" "$@" \
        >"$folder/printed" 2>"$folder/said" || status=$?
    many=$(sed -n 's/.*"crashes":\([0-9]*\).*/\1/p' "$folder/printed")
    case $safe:$status in
    safe:0) [ "${many:-0}" -ge "$least" ] && status=passed || status=FAILED ;;
    lossy:1) status=passed ;;
    *) status=FAILED ;;
    esac
    row '%-40s %4d crashes, %s  %s' "$name" "${many:-0}" "$(sed -n 's/.*\("verdict".*\)}/\1/p; s/.*\("fault".*\)}/\1/p' "$folder/printed" | head -n 1)" $status
    [ $status = passed ] || tail -n 5 "$folder/said"
}

# PostgreSQL: synchronous_commit. (With two registers transactions that abort may read what no order explains.)
postgres() {
    local programs user='' data=$folder/postgres start
    programs=$(dirname "$(printf '%s\n' /usr/lib/postgresql/*/bin/initdb | tail -n 1)")
    [ "$(id -u)" -ne 0 ] || user='setpriv --reuid postgres --regid postgres --clear-groups'
    rm -rf "$data"
    mkdir "$data"
    [ -z "$user" ] || chown postgres "$data"
    start="cd '$data' && $user $programs/pg_ctl -D $data/files -l $data/log -w -t 60 -o '-c listen_addresses= -c unix_socket_directories=$data -c synchronous_commit=$1' start >&2"
    crashes "PostgreSQL, synchronous_commit=$1" "$2" --registers 1 \
        --setup "cd '$data' && $user $programs/initdb -D $data/files -A trust -U tmwatch >&2 && $start && psql -qX -h '$data' -U tmwatch postgres <'$top/examples/field/registers.sql'" \
        --crash "server=\$(head -n 1 $data/files/postmaster.pid); kill -9 \$server \$(pgrep -P \$server); sleep 0.1; rm -f $data/files/postmaster.pid $data/.s.*; $start" \
        --teardown "$user $programs/pg_ctl -D $data/files -m immediate stop >&2" -- \
        /usr/bin/python3 "$top/examples/python/dbapi.py" postgres "host=$data user=tmwatch dbname=postgres" SERIALIZABLE
}

# Redis: whether it appends each write to a file, and syncs that. (WATCH alone would be violated by what it lets doomed transactions read: one
# thread a round is enough for the look.)
redis() {
    local data=$folder/redis cli="redis-cli -s '$folder/redis/socket'" start
    rm -rf "$data"
    mkdir "$data"
    start="redis-server --port 0 --unixsocket '$data/socket' --pidfile '$data/pid' --save '' --appendonly $1 --appendfsync always --dir '$data' --daemonize yes >&2; until $cli ping >&2; do sleep 0.1; done"
    rounds=300 crashes "Redis, appendonly $1" "$2" --threads 1 --setup "$start; $cli mset 0 0 1 0 2 0 3 0 4 0 5 0 6 0 7 0 >&2" \
        --crash "kill -9 \$(cat '$data/pid'); sleep 0.1; rm -f '$data/socket'; $start" --teardown "$cli shutdown nosave" -- \
        ruby "$top/examples/field/redis/registers.rb" "$data/socket" watch
}

# SQLite: synchronous.
sqlite() {
    local data=$folder/sqlite
    rm -rf "$data"
    mkdir "$data"
    crashes "SQLite, WAL, synchronous=$1" "$2" \
        --setup "python3 '$top/examples/python/sqlite.py' setup '$data/registers.db' WAL && cp '$data/registers.db' '$data/registers.db.synced'" \
        --crash "cd '$data' && for it in registers.db registers.db-wal; do if [ -e \$it.synced ]; then cp \$it.synced \$it; else rm -f \$it; fi; done; rm -f registers.db-shm" -- \
        env "LD_PRELOAD=$folder/synced.so" "SYNCHRONOUS=$1" /usr/bin/python3 "$top/examples/python/sqlite.py" "$data/registers.db" BEGIN
}

if [[ $names = *' postgres '* ]]; then
    if /usr/bin/python3 -c 'import psycopg2' 2>/dev/null && ls /usr/lib/postgresql/*/bin/initdb >/dev/null 2>&1; then
        postgres on safe
        postgres off lossy
    else
        echo 'PostgreSQL: skipped, since postgresql or python3-psycopg2 is missing'
    fi
fi
if [[ $names = *' redis '* ]] && has redis-server Redis && has ruby Redis; then
    redis yes safe
    redis no lossy
fi
if [[ $names = *' sqlite '* ]] && has "${CC:-cc}" SQLite; then
    "${CC:-cc}" -O2 -Wall -Wextra -shared -fPIC -o "$folder/synced.so" "$top/tests/long/synced.c"
    sqlite FULL safe
    sqlite OFF lossy
fi
end_rows
