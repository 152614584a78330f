#!/usr/bin/env bash
#SBATCH --job-name=det-check
#SBATCH --output=%x-%A-%a.txt
# sbatch --array=0-LAST slurm_check.sh MANY LIST RESULTS TASKS
#
# A task of a Slurm array. MANY is the folder of these scripts, as Slurm runs a copy of this one
# that is elsewhere. LIST has the name of a record on each line. TASKS is how many tasks share its
# lines, LAST + 1: task K, which SLURM_ARRAY_TASK_ID says, takes every TASKS-th line from line K + 1
# on. With the same TASKS, one task can be run again. It writes RESULTS.K, which is there once the
# task is done.
#
# Ends with 0 if the task's records are all genuine, with 1 if not, with 2 if the words are wrong,
# LIST can't be read or is empty, or K isn't below TASKS, and with 3 if RESULTS.K can't be written.
set -euo pipefail

# Ends the script with a status and a line.
fail() {
    echo "$2" >&2
    exit "$1"
}

[[ $# == 4 && $4 =~ ^[1-9][0-9]*$ ]] || fail 2 "usage: slurm_check.sh MANY LIST RESULTS TASKS"
many=$1 list=$2 results=$3 tasks=$4 task=${SLURM_ARRAY_TASK_ID:-}
[ -f "$many/one_line.sh" ] || fail 2 "$many has no one_line.sh"
[[ -f $list && -r $list && -s $list ]] || fail 2 "$list is no list of records"
[[ $task =~ ^[0-9]+$ ]] || fail 2 "SLURM_ARRAY_TASK_ID is no number: this is a task of an array"
[ "$task" -lt "$tasks" ] || fail 2 "task $task isn't below $tasks, the number of tasks"
# `results.*` doesn't name the lines of a task that was killed.
new=$results-$task.new
{ rm -f -- "$results.$task" && : >"$new"; } 2>/dev/null || fail 3 "can't write $results.$task"
status=0
while IFS= read -r record; do
    bash "$many/one_line.sh" check "$record" || status=1
done < <(awk -v task="$task" -v tasks="$tasks" '(NR - 1) % tasks == task' "$list") >"$new"
mv -- "$new" "$results.$task" || fail 3 "can't write $results.$task"
exit "$status"
