#!/usr/bin/env bash
# bash tests/programs/engines.sh [PROGRAM]: counts a text by `engines/slurm_words.sh` and `engines/dask_words.py`, over the program `hashbag_words` and
# stand-ins for `sbatch` and for the module `distributed`. Runs that failed come before good ones, also of more tasks. Other programs count the text.
# The program is proved and compiled first, unless it is named. The last line is 'engines: ok' or says what is wrong.
. "$(dirname "$0")/lib.sh"
engines=$(cd "$(dirname "$0")/../../engines" && pwd) || exit 1
script=$engines/slurm_words.sh
begin hashbag_words "$@"

# `sbatch` as far as the script uses it: runs the job, or each task of its array in turn, and prints the number of the job: ten times as many as its
# tasks, or 00. A job that needs others to end with status 0 isn't run unless they did. Task $LOST isn't run, as if it had ended with status 0.
mkdir ../bin
cat > ../bin/sbatch << 'END'
#!/usr/bin/env bash
set -u
tasks='' needs='' log=/dev/null
for word; do
  case $word in
    --array=1-*) tasks=${word#--array=1-} ;;
    --dependency=afterok:*) needs=${word#--dependency=afterok:} ;;
    --output=*) log=${word#--output=} ;;
    --parsable | --requeue | --kill-on-invalid-dep=yes | --export=ALL) ;;
    *) echo "sbatch: $word isn't known here" >&2; exit 1 ;;
  esac
done
job=${tasks:-0}0 status=0
cat > "$JOBS/$job"
if [ -n "$needs" ] && [ "$(cat "$JOBS/$needs.status")" != 0 ]; then
  status=1
elif [ -z "$tasks" ]; then
  bash "$JOBS/$job" > "$log" 2>&1 || status=1
else
  for ((task = 1; task <= tasks; task++)); do
    [ "$task" = "${LOST-}" ] || SLURM_ARRAY_TASK_ID=$task bash "$JOBS/$job" > "${log//%a/$task}" 2>&1 || status=1
  done
fi
echo "$status" > "$JOBS/$job.status"
echo "$job"
END
chmod +x ../bin/sbatch && mkdir ../jobs
export PATH=$scratch/bin:$PATH JOBS=$scratch/jobs HASHBAG_WORDS=$program

# counts STATUS N WHAT: the job that merges the parts of N tasks ends with this status
counts() {
  bash "$script" text counts.tsv "$2" > ../job || fail "slurm_words.sh: status $?: $3"
  [ "$(cat ../job)" = 00 ] || fail "not the number of the job that merges: $3"
  [ "$(cat ../jobs/00.status)" = "$1" ] || { cat counts.tsv.log; fail "not status $1: $3"; }
}

# is_counted WHAT: the output has the counts of the text, and no folder of this run is left
is_counted() {
  tr -s ' ' '\n' < text | grep . | sort | uniq -c | awk '{ print $2 "\t" $1 }' | sort > ../wanted
  cmp -s counts.tsv ../wanted || { diff counts.tsv ../wanted | head -n 5; fail "other counts: $1"; }
  rm counts.tsv
}

# folders N WHAT: N folders of parts are there, one of each run that failed
folders() {
  [ "$(find . -mindepth 1 -type d | wc -l)" = "$1" ] || { find . -type d; fail "not $1 folders of parts: $2"; }
}

awk 'BEGIN { for (i = 0; i < 4000; i++) { for (j = 0; j < 6; j++) printf "w%d ", (i * i + 7 * j) % 1000; print "" } }' > good
{ head -n 1500 good; printf 'M\374he\n'; tail -n +1501 good; } > text
counts 1 8 "a line that isn't UTF-8"
[ ! -e counts.tsv ] || fail "a failed run wrote its output"
[ "$(find . -name 8.tsv | wc -l)" = 1 ] || fail "no part of the failed run is left"
mv good text
counts 0 4 "fewer tasks, after a run that failed"
is_counted "fewer tasks, after a run that failed"
folders 1 "after a good run"
counts 0 8 "as many tasks as the run that failed"
is_counted "as many tasks as the run that failed"
LOST=2 counts 1 4 "a part that isn't there"
[ ! -e counts.tsv ] || fail "a run wrote its output without a part"
: > text
counts 0 3 "a text without a line"
is_counted "a text without a line"
folders 2 "at the end of Slurm"

# `distributed` as far as the script uses it: a task runs at once, and each third one twice, as if its worker had been lost at the end
mkdir ../modules
cat > ../modules/distributed.py << 'END'
class Future:
    def __init__(self, value):
        self.value = value

    def result(self):
        return self.value


def value_of(given):
    if isinstance(given, list):
        return [value_of(one) for one in given]
    return given.result() if isinstance(given, Future) else given


class Client:
    def __init__(self, scheduler):
        assert scheduler == "tcp://127.0.0.1:8786"
        self.tasks = 0

    def submit(self, function, *given, retries, pure):
        assert retries > 0 and not pure
        self.tasks += 1
        given = [value_of(one) for one in given]
        if self.tasks % 3 == 0:
            function(*given)
        return Future(function(*given))

    def close(self):
        pass
END
dask() { PYTHONPATH=$scratch/modules BLOCK=$1 FAN=$2 python3 "$engines/dask_words.py" tcp://127.0.0.1:8786 counts.tsv text > ../dask 2>&1; }
awk 'BEGIN { for (i = 0; i < 4000; i++) { for (j = 0; j < 6; j++) printf "w%d ", (i * i + 7 * j) % 1000; print "" } }' > text
for how in "10000 3" "1000000 16" "5000 16"; do
  dask $how || { cat ../dask; fail "dask_words.py: status $?: $how"; }
  is_counted "Dask: $how"
done
{ head -n 1500 text; printf 'M\374he\n'; tail -n +1501 text; } > bad && mv bad text
! dask 10000 3 && [ ! -e counts.tsv ] || fail "Dask: a failed run wrote its output"
: > text
dask 10000 3 || fail "Dask: a text without a line"
is_counted "Dask: a text without a line"
echo "engines: ok"
