#!/usr/bin/env bash
#SBATCH --job-name=tmwatch-hunt
#SBATCH --ntasks=1
#SBATCH --cpus-per-task=4
#SBATCH --requeue
#SBATCH --open-mode=append
# Hunts for a violation by a job array of Slurm, another run a task, until one task has found it.
#
#   sbatch --array=1-500 examples/many/hunt.sbatch OUT seed PROGRAM [OPTION]..
#   sbatch --array=1-500 examples/many/hunt.sbatch OUT workload FOLDER [OPTION]..
#
# `seed`: PROGRAM is a memory on the bench in C (examples/c/norec.c); a task passes it its own number as --seed.
# `workload`: a task runs `tmwatch bench OPTION..` on one of the *.json in FOLDER, which are taken in turn.
#
# Each run writes a line of JSON into OUT, {"run":"seed 17",..}: `summary OUT` counts them. The first violated run stops the array: its
# other tasks are cancelled, and OUT takes no further run. It leaves the folder OUT/NAME.found with its trace and its line; a task that
# finds a violation at the same time may leave another. A task that is requeued runs again, unless it has its line.
#
# A task fails if its run gave no verdict; its output says why.
# Environment: TMWATCH, the program (./tmwatch of the folder that you submit from).
set -eu -o pipefail
export LC_ALL=C

refuse() {
    echo "hunt.sbatch: $1" >&2
    exit 4
}

[ $# -ge 3 ] || refuse 'usage: sbatch --array=1-TASKS hunt.sbatch OUT seed PROGRAM | workload FOLDER [OPTION]..'
out=$1 kind=$2 what=$3
shift 3
task=${SLURM_ARRAY_TASK_ID:-1} array=${SLURM_ARRAY_JOB_ID:-${SLURM_JOB_ID:-0}}
mkdir -p "$out"
case $kind in
seed) name="seed $task" ;;
workload)
    files=("$what"/*.json)
    [ -e "${files[0]}" ] || refuse "no *.json in $what"
    workload=${files[$((task % ${#files[@]}))]}
    name="$(basename "$workload") $task"
    case $name in *[!\ -~]* | *[\"\\]*) refuse "a name with a quote, a backslash or more than ASCII: $workload" ;; esac
    ;;
*) refuse "neither seed nor workload: $kind" ;;
esac
found=$out/$name.found line=$out/$array.$task.jsonl

# Cancels the array's other tasks. A task that begins meanwhile sees OUT/stopped.
stop_others() {
    local others
    : >"$out/stopped"
    [ -n "${SLURM_ARRAY_JOB_ID:-}" ] || return 0
    others=$(squeue --noheader --array --format=%F_%K --jobs="$array") || echo "hunt.sbatch: running tasks go on: squeue failed" >&2
    grep -vxF "${array}_$task" <<<"$others" | xargs -r scancel || true
}

# This task was killed after it had found something.
if [ -e "$found" ]; then
    stop_others
    exit 0
fi
[ ! -e "$line" ] || exit 0
if [ -e "$out/stopped" ]; then
    echo "hunt.sbatch: $name: not run, since a run of $out is violated"
    exit 0
fi

run=$(mktemp -d)
trap 'rm -rf "$run"' EXIT
status=0
case $kind in
seed)
    "$what" "$@" --seed "$task" --trace "$run/trace" >"$run/told" || status=$?
    ;;
workload)
    "${TMWATCH:-${SLURM_SUBMIT_DIR:-.}/tmwatch}" bench "$@" --trace <"$workload" >"$run/told" || status=$?
    sed '/^{/,$d' "$run/told" >"$run/trace"
    ;;
esac
report=$(grep -m 1 '^{' "$run/told") || true
case $status:$report in
[0-3]:'{'*'"verdict":'*'}') ;;
*) refuse "$name: no verdict: status $status $report" ;;
esac

# What is moved is there whole or not at all, whenever the task is killed.
if [ "$status" -eq 1 ]; then
    rm -rf "$found.new"
    mkdir "$found.new"
    cp "$run/trace" "$found.new/trace"
    printf '{"run":"%s",%s\n' "$name" "${report#?}" >"$found.new/line.jsonl"
    mv "$found.new" "$found"
    stop_others
else
    printf '{"run":"%s",%s\n' "$name" "${report#?}" >"$line.new"
    mv "$line.new" "$line"
fi
