#!/usr/bin/env bash
# Runs examples/many for real: judge-all with GNU parallel, judge.sbatch and hunt.sbatch with Slurm on one node, and summary.
#
#   tests/long/many.sh
#
# 1,000 small traces and 20 large ones are judged in each way, and compared with the output of `judge` for each one separately (many.py).
# Calls and tasks are killed in the middle, lines cut, tasks requeued, arrays submitted again: no verdict may be lost, and none counted
# twice. Searches must stop their arrays and keep a violated trace. Those by seed use a stand-in for the bench in C, whose options and
# report tests/c.sh tests.
#
# The script starts a munged, a slurmctld and a slurmd of its own, with their files in a temporary folder and their ports on loopback, and
# stops them at its end. Debian: apt-get install parallel slurm-wlm munge. Parts whose tools are missing are skipped, and a line says so.
#
# Prints a line for each test case, and then the traces and events a second in each way. The last line is 'N passed, M failed', and the exit
# status is 1 if a test case failed, 2 if the program is not built. After LIMIT seconds it ends by itself, and has failed.
# Environment: LIMIT (540), SMALL (1000), LARGE (20), EVENTS (200000, of a large trace), CC (cc).
# shellcheck disable=SC2016 # (what stands in single quotes is for other shells)
set -eu
[ -n "${BOUNDED:-}" ] || BOUNDED=1 exec timeout -k 30 "${LIMIT:-540}" "${BASH_SOURCE[0]}" "$@"
# shellcheck source=tests/common.sh
. "$(dirname "${BASH_SOURCE[0]}")/../common.sh"
small=${SMALL:-1000} large=${LARGE:-20} events=${EVENTS:-200000} processors=$(nproc) many=$top/examples/many last=true daemons=()
trap '[ "${#daemons[@]}" -eq 0 ] || stop_slurm; rm -rf "$folder"' EXIT
trap 'echo "many.sh: not done after ${LIMIT:-540} seconds, 1 failed" >&2; exit 1' TERM
[ -x "$program" ] || { echo 'many.sh: the program is not built: ./build' >&2 && exit 2; }
unset OPTIONS MANY OUT CHUNK
export TMWATCH=$program PATH=$PATH:/usr/sbin
cd "$folder"

# Compares the verdicts in a folder with those of the runs of a kind. So many of its lines may be repeated.
compare() {
    python3 "$top/tests/long/many.py" compare "$1.expected" "$2" "$many/summary" "${3:-0}"
}

# Waits until a text is true as a command, for so many seconds at most.
wait_for() {
    local tenths=$((10 * $1))
    until eval "$2" >/dev/null 2>&1; do
        [ $((tenths -= 1)) -gt 0 ] || return 1
        sleep 0.1
    done
}

# Whether a call ends with this status, writes so many verdicts, and says these words.
says() {
    local status=0
    "${@:4}" >told 2>&1 || status=$?
    cat told
    [ "$status" -eq "$1" ] && [ "$(grep -c '^{"run":' told)" -eq "$2" ] && grep -qF "$3" told
}

# The runs, whose names have spaces, quotes and backslashes.
"${CC:-cc}" -O2 -o traces "$top/measure/traces.c"
mkdir -p small large few cuts none tabs broken workloads slurm/{state,spool}
cp "$top"/examples/*.trace small
cp "$top/examples/hunt.json" workloads
printf 'opacity-trace 1 1\n0 R 0\n0 V' >small/cut.trace
printf 'opacity-trace 1 9\n0 R 0\n' >small/header.trace
printf 'opacity-trace 1 1\n0 R 1\n' >"small/mal\"formed' \\.trace"
names=('calm ' 'calm"' "calm\\n'" calm.)
for k in $(seq $((small - $(find small -name '*.trace' | wc -l)))); do ./traces calm "$k" 200 >"small/${names[k % 4]}$k.trace"; done
for k in $(seq "$large"); do ./traces calm "$k" "$events" >"large/$k.trace"; done
printf '0 R 0\n0 V 1000000007\n' >>large/1.trace # a value that no transaction has written
find small -name '*.trace' | LC_ALL=C sort | head -n 100 | xargs -d '\n' cp -t few
for kind in small large few; do
    find $kind -name '*.trace' | LC_ALL=C sort >$kind.list
    python3 "$top/tests/long/many.py" expect "$program" $kind/*.trace >$kind.expected
done
ends 'verdicts of each kind' 0 test "$(grep -oE 'opaque so far|violated|undecided|malformed|fault' small.expected | sort -u | wc -l)" -eq 5

# One trace, one line; and programs in the place of `tmwatch`.
printf '#!/bin/sh\nkill -9 $$\n' >killed
printf '#!/bin/sh\ncat >/dev/null; echo "{\\"fault\\":\\"memory\\"}"; exit 4\n' >poor
printf '#!/bin/sh\ncat >/dev/null; printf "{\\"events\\":2,\\"verd"; kill -9 $$\n' >cutting
printf '#!/bin/sh\nsleep 0.05\nexec "%s" "$@"\n' "$program" >slow
chmod +x killed poor cutting slow
one=$many/judge-one good=large/2.trace tab=$'a\tb' wrong=$'\377'
cp $good "$tab"
cp $good "$wrong"
ends 'a control character in a name is refused' 0 says 1 1 'a control character' "$one" "$tab" $good
ends 'a name that is not UTF-8 is refused' 0 says 1 1 'not UTF-8' "$one" "$wrong" $good
ends 'a trace that is not there is told' 0 says 1 1 unreadable "$one" nothing $good
TMWATCH=$folder/cutting ends 'a cut report gives no verdict' 0 says 1 0 'status 137' "$one" $good
TMWATCH=$folder/poor ends 'out of memory gives no verdict' 0 says 1 0 memory "$one" $good
OPTIONS='--criterion both' ends 'two lines of report give no verdict' 0 says 1 0 'more than one' "$one" $good
OPTIONS='--criterion strict --first' ends 'options reach judge' 0 says 0 1 '"criterion":"strict"' "$one" $good
{ head -n 1 large.expected && grep -v '"opaque so far"' small.expected; } >cuts.expected
ends 'no cut of a line counts' 0 python3 "$top/tests/long/many.py" cuts cuts.expected "$many/summary" cuts
ends 'an empty folder is not opaque so far' 1 "$many/summary" none

# Judges the small and the large runs by a way: its name, and a command that reads $kind.list and fills $out.
way() {
    local kind out began
    printf '%-26s' "$1" >>table
    for kind in small large; do
        out="$1, $kind" began=$EPOCHREALTIME
        mkdir "$out"
        ends "$out" 0 eval "$2"
        printf ' %s' "$(since "$began")" >>table
        ends "$out: the verdicts" 0 compare $kind "$out"
    done
    echo >>table
}

# Judges the few on two hosts, by a stand-in for ssh: `ssh OPTION.. HOST COMMAND` runs the command here, but `down` does not answer.
by_hosts() {
    printf '%s\n' '#!/bin/sh' 'while [ "${1#-}" != "$1" ]; do shift; done' '[ "$1" != down ] || exit 255' shift '[ "$1" != -- ] || shift' \
        'unset TMWATCH OPTIONS' 'cd / && exec sh -c "$*"' | install /dev/stdin ssh
    PARALLEL_SSH=$folder/ssh OUT="$1 out" CHUNK=7 "$many/judge-all" "2/$1" 2/second <few.list
    [ "$(sed 1d "$1 out/joblog" | cut -f 2 | sort -u | xargs)" = "$2" ]
    compare few "$1 out"
}

# Kills a call in the middle three times, and calls again until all have a verdict.
kill_and_call_again() {
    for k in 1 2 3; do
        TMWATCH=$folder/slow setsid "$many/judge-all" : : <few.list &
        pid=$!
        wait_for 30 '[ $(cat "$OUT"/*.jsonl | wc -l) -ge $((k * 15)) ]'
        # (this call's process group; what parallel has begun has one of its own, and ends soon)
        kill -9 -- -$pid
        wait $pid || true
        wait_for 5 'flock -n "$OUT/lock" true'
        [ $k -ne 2 ] || truncate -s -9 "$OUT/joblog"
        [ $k -ne 3 ] || truncate -s -9 "$OUT/verdicts.jsonl"
    done
    [ "$("$many/summary" --left "$OUT" | wc -l)" -gt 20 ]
    "$many/judge-all" : : <few.list
    compare few "$OUT" 40
}

way 'one after another' 'xargs -d "\n" "$one" <$kind.list >"$out/all.jsonl"'
way "xargs -P $processors" 'xargs -d "\n" -n 1 -P "$processors" "$one" <$kind.list >"$out/all.jsonl"'
if has parallel 'GNU parallel' && parallel --version | grep -q '^GNU parallel'; then
    way "parallel, $processors at a time" 'OUT=$out "$many/judge-all" : : <$kind.list'
    way 'with CHUNK=5' 'OUT=$out CHUNK=5 "$many/judge-all" : : <$kind.list'
    ends 'two hosts' 0 by_hosts first 'first second'
    ends 'a host that is down' 0 by_hosts down second
    for chunk in 1 5; do OUT=again.$chunk CHUNK=$chunk ends "killed three times, and called again, $chunk a job" 0 kill_and_call_again; done
    export OUT=failing
    TMWATCH=$folder/killed ends 'what fails' 0 says 1 0 '100 without a verdict' "$many/judge-all" : <few.list
    ends '.. is judged by the next call' 0 "$many/judge-all" : <few.list
    TMWATCH=$folder/killed ends '.. and by no later one' 0 "$many/judge-all" : <few.list
    ends '.. and has its verdicts' 0 compare few failing
    ends 'another list is refused' 0 says 4 0 'another list' "$many/judge-all" : <large.list
    CHUNK=3 ends 'another CHUNK is refused' 0 says 4 0 'with CHUNK=1' "$many/judge-all" : <few.list
    ends 'a list with a tab is refused' 0 says 4 0 'control character' "$many/judge-all" : <<<"$tab"
fi

# Starts a daemon with these words.
start() {
    setsid "$@" >"slurm/$1.log" 2>&1 &
    daemons+=($!)
}

start_slurm() {
    ports=$(python3 -c 'import socket; print(*(it.getsockname()[1] for it in [socket.create_server(("127.0.0.1", 0)) for _ in range(2)]))')
    (umask 077 && head -c 1024 /dev/urandom >slurm/key)
    export SLURM_CONF=$folder/slurm/slurm.conf
    printf '%s\n' ClusterName=many "SlurmctldHost=$(hostname -s)(127.0.0.1)" "SlurmctldPort=${ports% *}" "SlurmdPort=${ports#* }" \
        CommunicationParameters=NoInAddrAny,NoCtldInAddrAny "AuthInfo=socket=$folder/slurm/socket,cred_expire=5" \
        "SlurmUser=$(id -un)" "SlurmctldPidFile=$folder/slurm/slurmctld.pid" "StateSaveLocation=$folder/slurm/state" \
        "SlurmdUser=$(id -un)" "SlurmdPidFile=$folder/slurm/slurmd.pid" "SlurmdSpoolDir=$folder/slurm/spool" \
        ProctrackType=proctrack/linuxproc SelectType=select/cons_tres SelectTypeParameters=CR_CPU SlurmdParameters=config_overrides \
        KillWait=5 "NodeName=$(hostname -s) NodeAddr=127.0.0.1 CPUs=$((processors > 2 ? processors : 2))" \
        'PartitionName=many Nodes=ALL Default=YES State=UP' >"$SLURM_CONF"
    start munged --foreground --force --key-file="$folder/slurm/key" --socket="$folder/slurm/socket" --pid-file="$folder/slurm/pid" \
        --seed-file="$folder/slurm/seed"
    wait_for 10 '[ -S slurm/socket ]'
    start slurmctld -D
    start slurmd -D
    wait_for 30 'sinfo --noheader --format=%T | grep -qx idle' || { echo 'Slurm starts: FAILED' && tail -n 5 slurm/*.log && return 1; }
}

stop_slurm() {
    scancel --user="$(id -un)" 2>/dev/null || true
    wait_for 10 '[ -z "$(squeue --noheader 2>&1)" ]' || true
    kill "${daemons[@]}" 2>/dev/null || true
    wait_for 10 '! kill -0 "${daemons[@]}"' || kill -9 "${daemons[@]}"
}

# Submits with these words. The job's number is then in `job`.
submit() {
    job=$(sbatch --parsable --output="$folder/slurm/%A.%a.out" "$@")
}

# Waits until no task of the job is left, and compares how many of its records are in which state.
finish() {
    wait_for 120 '[ -z "$(squeue --noheader --jobs="$job" 2>&1)" ]'
    states=$(scontrol --oneliner show job "$job" | grep -o 'JobState=[A-Z]*' | sed 's/.*=//' | sort | uniq -c | xargs)
    echo "$states"
    [[ $states =~ ^($1)$ ]]
}

# Submits an array, which has to come to these states.
array() { submit "${@:2}" && finish "$1"; }

# In the middle a task is requeued, and its last line cut, as a crash of the machine may; then the other one is killed. The array, submitted
# again with other tasks, judges what is left.
requeue_and_submit_again() {
    TMWATCH=$folder/slow submit --array=1-2 "$many/judge.sbatch" few requeued
    wait_for 30 '[ $(cat requeued/*.jsonl | wc -l) -ge 30 ]'
    own=requeued/$job.2.jsonl
    scontrol requeue "${job}_2"
    wait_for 10 'squeue --noheader --format=%T --jobs="${job}_2" | grep -x PENDING'
    sleep 0.5
    cp "$own" before
    truncate -s -9 "$own"
    scancel --signal=KILL --full "${job}_1"
    finish '1 CANCELLED 1 COMPLETED'
    scontrol show job "${job}_2" | grep 'Restarts=1'
    head -n -1 before | cmp - <(head -n $(($(wc -l <before) - 1)) "$own")
    "$many/summary" --left requeued >left
    [ "$(wc -l <left)" -gt 10 ]
    sed -n 2~2p requeued/list | grep -cxFf left | grep -x 0 # (each second run is task 2's)
    array '[0-9]+ COMPLETED' --array=0-9:3 "$many/judge.sbatch" few requeued
    compare few requeued
}

# A trace without a verdict makes its task fail, and no other. The array is submitted from the repository's folder.
one_fails() {
    cp few/calm* broken
    ln -s nothing broken/none.trace
    (unset MANY && cd "$top" && array '1 COMPLETED 1 FAILED' --array=1-2 examples/many/judge.sbatch "$folder/broken" "$folder/broken.out")
    [ "$("$many/summary" --left broken.out)" = "$folder/broken/none.trace" ]
    grep -h unreadable slurm/*.out
}

# Whether an array fails, and says these words.
refuses() {
    array '[0-9]+ FAILED' "${@:2}"
    grep -h "$1" "slurm/$job".*.out
}

# Submits an array of hunts, two tasks at a time, which has to come to these states.
hunt() {
    array "$1" --cpus-per-task=$((processors > 2 ? processors / 2 : 1)) --array="$2" "$many/hunt.sbatch" "${@:3}"
}

# Task 1 would run for a minute. Task 2 finds a violation meanwhile. When it runs again, as if it had been killed after that, it stops the
# hunt anew, and no later task runs.
hunt_seeds() {
    hunt '[0-9]+ CANCELLED [1-9] COMPLETED' 1-30 seeds seed ./bench dirty_read
    scontrol --oneliner show job "${job}_1" | grep JobState=CANCELLED
    says 1 1 '       1 violated' "$many/summary" seeds
    cp told found
    says 1 0 '"verdict":"violated"' "$program" judge <'seeds/seed 2.found/trace'
    rm seeds/stopped
    hunt '1 COMPLETED' 2 seeds seed ./bench dirty_read
    hunt '2 COMPLETED' 1-3:2 seeds seed ./bench dirty_read
    [ "$(cat "slurm/$job".*.out | grep -c 'not run')" -eq 2 ]
    "$many/summary" seeds | diff - found
}

hunt_workloads() {
    sed 's/"R 0","R 1"/"R 1","R 0"/' "$top/examples/hunt.json" >'workloads/hunt again.json'
    hunt '[0-9]+ CANCELLED.*' 1-40 torn workload workloads --memory torn --rounds 100000
    [ -e torn/stopped ]
    for found in torn/*.found; do
        diff <("$program" judge <"$found/trace") <(sed 's/"run":"[^"]*",//' "$found/line.jsonl")
    done
    says 1 "$(find torn -name '*.found' | wc -l)" '"verdict":"violated"' "$many/summary" torn
}

if has munged Slurm && has slurmctld Slurm && has slurmd Slurm && has sbatch Slurm && check start_slurm; then
    export MANY=$many
    way "Slurm, $((2 * processors)) tasks" 'array "[0-9]+ COMPLETED" --array=1-$((2 * processors)) "$many/judge.sbatch" $kind "$out"'
    ends 'a task that is requeued, one that is killed, and the array again' 0 requeue_and_submit_again
    ends 'a task whose trace gets no verdict fails' 0 one_fails
    cp $good $'tabs/a\nb.trace'
    ends 'a name with a line feed is refused' 0 refuses 'control character' --array=1 "$many/judge.sbatch" tabs tabs.out
    ends 'an array with gaps is refused' 0 refuses gaps --array=1,2,5 "$many/judge.sbatch" few gap.out
    ends "another folder's verdicts are refused" 0 refuses 'another folder' --array=1 "$many/judge.sbatch" large requeued
    # (in the place of a memory on the bench in C)
    printf '%s\n' '#!/bin/sh' '[ "$3" != 1 ] || { : >running && exec sleep 60; }' \
        'until [ -e running ]; do sleep 0.1; done' 'cp "small/$1.trace" "$5"' 'exec "$TMWATCH" judge <"$5"' | install /dev/stdin bench
    ends 'a hunt by seeds stops at the first violation, for good' 0 hunt_seeds
    ends 'a hunt that finds nothing' 0 hunt '3 COMPLETED' 2-4 opaque seed ./bench own_write
    ends '.. has a line a task' 0 says 0 0 '       3 opaque so far' "$many/summary" opaque
    ends 'a hunt whose bench is killed' 0 hunt '2 FAILED' 1-2 lineless seed ./killed
    ends '.. leaves no line' 0 says 1 0 '       0 runs' "$many/summary" lineless
    ends 'a hunt by workloads' 0 hunt_workloads
fi

printf '%s\n%-26s %12s %12s %18s\n' "$small traces of some 200 events, $large of $events, on $processors processors" \
    '' 'small a s' 'large a s' 'M events a s'
awk -v small="$small" -v large="$large" -v events="$events" '{
    printf "%s %12.0f %12.1f %18.1f\n", substr($0, 1, 26), small / $(NF - 1), large / $NF, large * events / $NF / 1e6
}' table
end_rows
