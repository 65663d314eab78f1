#!/usr/bin/env bash
# slurm_words.sh TEXT OUTPUT [TASKS [WORD..]]: counts a text on the nodes of a Slurm cluster, by TASKS tasks, 16 by default.
#
# An array of TASKS tasks: each counts its part of the text, which ends at a line end, by `hashbag_words WORD..` into a new folder, OUTPUT.parts. and
# six letters. A task writes its counts as a whole or not at all. So a task that is requeued writes the same file again. A job that waits for all
# of them sorts the files 1 to TASKS, adds up the sorted rows into OUTPUT and removes the folder. Prints the number of that job. If a task fails, the
# folder stays, for its logs; no later run reads it.
#
# All nodes see TEXT and the folder of OUTPUT by the same names, and have `hashbag_words` on their PATH, or where HASHBAG_WORDS says.
set -eu
text=$(realpath "$1")
output=$(realpath "$2")
tasks=${3:-16}
shift $(($# < 3 ? $# : 3))
program=${HASHBAG_WORDS:-hashbag_words}
parts=$(mktemp -d "$output.parts.XXXXXX")

array=$(sbatch --parsable --requeue --array="1-$tasks" --output="$parts/log.%a" --export=ALL <<JOB
#!/usr/bin/env bash
set -euo pipefail
split -n "l/\$SLURM_ARRAY_TASK_ID/$tasks" $(printf '%q' "$text") | $(printf '%q ' "$program" "$@") -o $(printf '%q' "$parts")/"\$SLURM_ARRAY_TASK_ID".tsv
JOB
)
sbatch --parsable --requeue --dependency="afterok:$array" --kill-on-invalid-dep=yes --output="$output.log" --export=ALL <<JOB
#!/usr/bin/env bash
set -euo pipefail
files=()
for ((task = 1; task <= $tasks; task++)); do files+=($(printf '%q' "$parts")/"\$task".tsv); done
LC_ALL=C sort -T $(printf '%q' "$parts") -o $(printf '%q' "$parts")/sorted "\${files[@]}"
$(printf '%q' "$program") merge --sorted $(printf '%q' "$parts")/sorted -o $(printf '%q' "$output")
rm -rf $(printf '%q' "$parts")
JOB
