#!/usr/bin/env bash
#SBATCH --job-name=tmwatch-judge
#SBATCH --ntasks=1
#SBATCH --cpus-per-task=1
#SBATCH --requeue
#SBATCH --open-mode=append
# Judges a folder of traces by a job array of Slurm, a chunk a task.
#
#   sbatch --array=1-20 examples/many/judge.sbatch FOLDER OUT
#
# The first task writes OUT/list, the *.trace of FOLDER at that time. Each task takes every so many-th, and appends a line of JSON a trace
# (judge-one) to a file of its own in OUT: `summary OUT` counts them. A task that is requeued, and the whole array submitted again with any
# number of tasks, judge only what has no verdict yet.
#
# A task fails if one of its traces got no verdict; its output says why.
# Environment: MANY, this script's folder (examples/many of the folder that you submit from); TMWATCH and OPTIONS as in judge-one.
set -eu -o pipefail
export LC_ALL=C

refuse() {
    echo "judge.sbatch: $1" >&2
    exit 4
}

many=${MANY:-${SLURM_SUBMIT_DIR:-.}/examples/many}
[ -x "$many/judge-one" ] || refuse "no judge-one in $many: submit from the repository's folder, or set MANY"
[ $# -eq 2 ] || refuse 'usage: sbatch --array=1-TASKS judge.sbatch FOLDER OUT'
[ -d "$1" ] || refuse "no folder: $1"
folder=${1%/} out=$2
task=${SLURM_ARRAY_TASK_ID:-1} first=${SLURM_ARRAY_TASK_MIN:-1} step=${SLURM_ARRAY_TASK_STEP:-1} tasks=${SLURM_ARRAY_TASK_COUNT:-1}
[ $(((${SLURM_ARRAY_TASK_MAX:-1} - first) / step + 1)) -eq "$tasks" ] || refuse 'the numbers of the array have gaps'
own=${SLURM_ARRAY_JOB_ID:-${SLURM_JOB_ID:-0}}.$task

mkdir -p "$out"
if [ ! -e "$out/list" ]; then
    # (-print0, since a name may have a line feed)
    if find -H "$folder" -name '*.trace' -print0 | tr '\0\n' '\n\1' | grep -a '[[:cntrl:]]' >&2; then
        refuse 'these names have a control character'
    fi
    find -H "$folder" -name '*.trace' | sort >"$out/list.$own"
    [ -s "$out/list.$own" ] || refuse "no *.trace in $folder"
    # The first one stays.
    ln "$out/list.$own" "$out/list" 2>/dev/null || [ -e "$out/list" ]
    rm "$out/list.$own"
fi
case $(head -n 1 "$out/list") in "$folder"/*) ;; *) refuse "$out has the list of another folder" ;; esac

# Ends a line that was cut when this task was killed.
[ -z "$(tail -c 1 "$out/$own.jsonl" 2>/dev/null)" ] || echo >>"$out/$own.jsonl"
"$many/summary" --left "$out" | LIST=$out/list awk -v tasks="$tasks" -v own=$(((task - first) / step)) '
    BEGIN { while ((getline run < ENVIRON["LIST"]) > 0) if (n++ % tasks == own) mine[run] = 1 }
    $0 in mine' | xargs -r -d '\n' "$many/judge-one" >>"$out/$own.jsonl"
