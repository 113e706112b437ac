#!/usr/bin/env bash
# Runs the systems of examples/field with tmwatch-bench, and prints the table of docs/FIELD.md. Servers are started in folders of their own,
# on sockets, and ended.
#
#   tests/long/field.sh [NAME..]
#
# NAME is a folder of examples/field. Without one, all are run. Up to three registers are used, or more if the seed chooses so, or one if
# the test case says (1). A test case prints the round in which a run with default options was violated, or after how many it was opaque so
# far, and its seconds; whether the options of a deterministic reproducer gave the same trace, or `-` if there is none; under which criteria
# the plain definitions (whole.py) find another run violated, which uses --schedule steps and continues after a violation; and, of a hundred
# transactions of that run, how many overlapped one of another thread and how many were forced to abort. It fails if not exactly the
# expected runs are violated, if no transactions overlapped, or if the bench has a fault. A system is skipped if a package of Debian is
# missing: a line names it.
#
# The last line is 'N passed, M failed'. The exit status is 1 if a test case failed, and 2 for another name.
# Environment: ROUNDS (1000), of a run; SECONDS_EACH (120), at most; BUILT (tests/common.sh), TMWATCH_BENCH, the bench
# (built/bin/tmwatch-bench); DRAWN, a folder for the trace of each test case that is violated.
set -eu
# shellcheck source=tests/common.sh
. "$(dirname "${BASH_SOURCE[0]}")/../common.sh"
rounds=${ROUNDS:-1000} seconds=${SECONDS_EACH:-120} field=$top/examples/field
systems=' ghc clojure postgres redis lmdb rocksdb bdb jdbc mariadb sqlite firebird mnesia multiverse tarantool prolog tdb '
for name; do
    case $systems in *" $name "*) ;; *) echo "$name: no system" >&2 && exit 2 ;; esac
done
names=${*:+ $* }
if [ -z "${TMWATCH_BENCH:-}" ]; then
    use_library
    export TMWATCH_BENCH=$built/bin/tmwatch-bench
fi
[ -z "${DRAWN:-}" ] || mkdir -p "$DRAWN"

# The version of a package, or of the last that fits a pattern, without Debian's own part.
version_of() {
    dpkg-query -W -f '${Version}\n' "$1" 2>/dev/null | sed 's/^[0-9]*://; s/[-+].*//; s/\(\.[0-9]*\)\?\.ds[0-9]*$//' | grep . | tail -n 1
}

# Begins the rows of a system, if it is wanted: its folder, its name and its version.
system() {
    case ${names:-$systems} in *" $1 "*) ;; *) return 1 ;; esac
    system="$2 $3"
}

# A number of what was printed, or 0.
number() {
    sed -n "s/.*\"$1\":\([0-9]*\).*/\1/p" "$folder/printed" | grep . || echo 0
}

# Runs the row's command by these words of the bench: its status is in `status`, its seconds in `took`.
bench() {
    local began=$EPOCHREALTIME
    status=0
    timeout $((seconds + 60)) "${command[@]}" --seconds "$seconds" --timeout 30 "$@" >"$folder/printed" 2>"$folder/said" || status=$?
    took=$(since "$began")
    tail -n 5 "$folder/said" >>"$folder/ends"
}

# What came of a run: `*` if it was violated, its rounds, and its seconds.
told() {
    case $status in
    0) printf '%s' "$(number rounds) $took" ;;
    1) printf '%s' "*$(number rounds) $took" ;;
    *) printf 'fault %s' "$took" ;;
    esac
}

# Whether the options that reproduce the run give the same trace.
repeats() {
    local words
    words=$(sed -n 's/.*"reproduce":"\(.*\)"}$/\1/p' "$folder/printed")
    [ -n "$words" ] || { echo - && return; }
    # shellcheck disable=SC2086
    bench $words --trace "$folder/again"
    cmp -s "$folder/trace" "$folder/again" && echo yes || echo no
}

# By which criteria the plain definitions find the whole run violated.
violated_by() {
    local criterion found=
    for criterion in opacity strict; do
        [ "$(timeout 300 python3 "$top/tests/long/whole.py" $criterion <"$folder/whole")" = none ] || found+=${found:+,}$criterion
    done
    echo "${found:--}"
}

# A row: the level, whether a run has to be violated (all, none, any), by which criteria a whole run may be, and the command.
record() {
    local level=$1 wanted=$2 criteria=$3 by_default again found all passes=passed
    command=("${@:4}")
    : >"$folder/ends"
    bench --rounds "$rounds" --trace "$folder/trace"
    if [ $status -eq 77 ]; then
        printf '%-20s %-34s skipped: %s\n' "$system" "$level" "$(<"$folder/said")"
        return
    fi
    by_default=$(told)
    [ $status -ne 1 ] || [ -z "${DRAWN:-}" ] || cp "$folder/trace" "$DRAWN/$(tr -cs '[:alnum:].\n' - <<<"$system $level").trace"
    again=$(repeats)
    bench --schedule steps --rounds $((rounds / 10)) --full-trace "$folder/whole"
    all=$(number transactions)
    found=$(violated_by)
    case $wanted:$by_default in all:\** | none:[0-9]* | any:[0-9*]*) ;; *) passes=FAILED ;; esac
    case ,$criteria, in *",$found,"* | *,any,*) ;; *) passes=FAILED ;; esac
    [ "$(number concurrent)" -gt 0 ] || passes=FAILED
    # (words, and no names of files)
    set -f
    # shellcheck disable=SC2086
    row '%-20s %-34s %6s %6s %5s %-15s %3d %3d %s' "$system" "$level" $by_default "$again" "$found" \
        $((100 * $(number concurrent) / (all + !all))) $((100 * $(number forced_aborts) / (all + !all))) $passes
    set +f
    [ $passes = passed ] || cat "$folder/ends"
}

printf '%-20s %-34s %13s %5s %-15s\n' '' '' 'by default' '' 'whole run'
printf '%-20s %-34s %6s %6s %5s %-15s %3s %3s\n' system level round sec same 'violated by' met back
one=(--registers 1)
if system ghc 'GHC STM' "$(version_of ghc)"; then
    record atomically all opacity "$field/ghc/run"
fi
if system clojure Clojure "$(version_of clojure)"; then
    record deref all any "$field/clojure/run" deref
    record 'deref (1)' none - "$field/clojure/run" deref "${one[@]}"
    record ensure none - "$field/clojure/run" ensure
fi
if system postgres PostgreSQL "$(version_of 'postgresql-[0-9]*')"; then
    record 'READ COMMITTED' all any "$field/postgres/run" 'READ COMMITTED'
    record 'REPEATABLE READ' all any "$field/postgres/run" 'REPEATABLE READ'
    record 'REPEATABLE READ (1)' none - "$field/postgres/run" 'REPEATABLE READ' "${one[@]}"
    record SERIALIZABLE any any "$field/postgres/run" SERIALIZABLE
    record 'SERIALIZABLE, locks waited for' any any env LOCKS=0 "$field/postgres/run" SERIALIZABLE
fi
if system redis Redis "$(version_of redis-server)"; then
    record 'no WATCH' all any "$field/redis/run" plain
    record WATCH all opacity "$field/redis/run" watch
fi
if system lmdb LMDB "$(version_of liblmdb0)"; then
    record transaction none - "$field/lmdb/run"
fi
if system rocksdb RocksDB "$(version_of librocksdb-dev)"; then
    record 'locking, GetForUpdate' none - "$field/rocksdb/run" 'locking update'
    record 'optimistic, GetForUpdate' all opacity "$field/rocksdb/run" 'optimistic update'
    record 'optimistic, snapshot' all any "$field/rocksdb/run" 'optimistic snapshot'
    record 'optimistic, snapshot (1)' none - "$field/rocksdb/run" 'optimistic snapshot' "${one[@]}"
fi
if system bdb 'Berkeley DB' "$(version_of libdb5.3)"; then
    record serializable none - "$field/bdb/run" serializable
    record snapshot all any "$field/bdb/run" snapshot
    record 'snapshot (1)' none - "$field/bdb/run" snapshot "${one[@]}"
fi
if system jdbc H2 "$(version_of libh2-java)"; then
    record SERIALIZABLE all any "$field/jdbc/run" h2 SERIALIZABLE
    # (reads, another's commit and a roll-back: the more of each, the more stale reads)
    often=("${one[@]}" --writes 17 --aborts 50)
    record 'SERIALIZABLE (1)' all any "$field/jdbc/run" h2 SERIALIZABLE "${often[@]}"
    record 'SERIALIZABLE, no reuse (1)' none - env 'OPTIONS=;OPTIMIZE_REUSE_RESULTS=FALSE' "$field/jdbc/run" h2 SERIALIZABLE "${often[@]}"
fi
if system jdbc HSQLDB "$(version_of libhsqldb-java)"; then
    record 'locks, SERIALIZABLE' none - env 'OPTIONS=;hsqldb.tx=locks' "$field/jdbc/run" hsqldb SERIALIZABLE
    record 'mvcc, SERIALIZABLE' all any env 'OPTIONS=;hsqldb.tx=mvcc' "$field/jdbc/run" hsqldb SERIALIZABLE
    record 'mvcc, SERIALIZABLE (1)' none - env 'OPTIONS=;hsqldb.tx=mvcc' "$field/jdbc/run" hsqldb SERIALIZABLE "${one[@]}"
fi
if system jdbc Derby "$(version_of libderby-java)"; then
    record 'READ COMMITTED' all any "$field/jdbc/run" derby 'READ COMMITTED'
    record SERIALIZABLE none - "$field/jdbc/run" derby SERIALIZABLE
fi
if system mariadb MariaDB "$(version_of mariadb-server)"; then
    record 'REPEATABLE READ' all any "$field/mariadb/run" 'REPEATABLE READ'
    record SERIALIZABLE none - "$field/mariadb/run" SERIALIZABLE
fi
if system sqlite SQLite "$(python3 -c 'import sqlite3; print(sqlite3.sqlite_version)')"; then
    record journal none - "$field/sqlite/run" delete
    record WAL none - "$field/sqlite/run" wal
    record "WAL, Python's defaults" all any "$field/sqlite/run" default
    record 'WAL, shell' none - "$field/sqlite/run" shell
    record 'WAL, Perl' none - "$field/sqlite/run" perl
    record 'WAL, Go' none - "$field/sqlite/run" go
    record read_uncommitted all any "$field/sqlite/run" uncommitted
fi
if system firebird Firebird "$(version_of libfbclient2)"; then
    record 'READ COMMITTED' all any "$field/firebird/run" 'READ COMMITTED RECORD_VERSION'
    record 'READ COMMITTED, no record version' all any "$field/firebird/run" 'READ COMMITTED NO RECORD_VERSION'
    record SNAPSHOT all any "$field/firebird/run" SNAPSHOT
    record 'SNAPSHOT (1)' none - "$field/firebird/run" SNAPSHOT "${one[@]}"
    # (another has to commit between a begin and its first call, which by steps are one)
    stable=("$field/firebird/run" 'SNAPSHOT TABLE STABILITY')
    record 'SNAPSHOT TABLE STABILITY, steps' none - "${stable[@]}" --schedule steps
    record 'SNAPSHOT TABLE STABILITY, permits' all - "${stable[@]}" --schedule permits --threads 8
    record 'SNAPSHOT TABLE STABILITY (1)' none - "${stable[@]}" "${one[@]}"
    ends 'Firebird, write skew without chance' 1 "$field/firebird/run" skew 'SNAPSHOT TABLE STABILITY'
fi
if system mnesia Mnesia "$(version_of erlang-mnesia)"; then
    record transaction none - "$field/mnesia/run" transaction
    record sync_transaction none - "$field/mnesia/run" sync_transaction
    record 'transaction, dirty_read' all any "$field/mnesia/run" dirty_read
    record async_dirty all any "$field/mnesia/run" async_dirty
    record ets all any "$field/mnesia/run" ets
fi
if system multiverse Multiverse "$(version_of libmultiverse-core-java)"; then
    record Serializable none - "$field/multiverse/run" Serializable
    record Snapshot all any "$field/multiverse/run" Snapshot
    record 'Snapshot, read locks' none - env LOCK=Read "$field/multiverse/run" Snapshot
    record RepeatableRead all any "$field/multiverse/run" RepeatableRead
    record 'RepeatableRead, read locks' none - env LOCK=Read "$field/multiverse/run" RepeatableRead
fi
if system tarantool Tarantool "$(version_of tarantool)"; then
    record vinyl none - "$field/tarantool/run" vinyl
    record 'memtx, yielding' all opacity "$field/tarantool/run" memtx
fi
if system prolog SWI-Prolog "$(version_of swi-prolog-nox)"; then
    record transaction/1 all any "$field/prolog/run" unchecked
    record 'transaction/3, reads checked' none - "$field/prolog/run" checked
fi
if system tdb TDB "$(version_of libtdb1)"; then
    record transaction none - "$field/tdb/run" transaction
    record 'reads outside' all any "$field/tdb/run" outside
    record 'no transaction' all any "$field/tdb/run" none
fi
end_rows
