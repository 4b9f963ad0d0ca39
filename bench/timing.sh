# What the scripts in this folder share; they source it. $folder is a folder that is gone when the script ends.
folder=$(mktemp -d) || exit 1
trap 'rm -rf "$folder"' EXIT
answer=$folder/answer

# needs TOOLS..: ends the script, as skipped, where one of them is missing
needs() {
    local tool
    for tool in "$@"; do
        command -v "$tool" > /dev/null || { echo "$(basename "$0"): skipped, there is no $tool"; exit 0; }
    done
}

# What seconds counts: those of the processor, for the command and for the system on its behalf, which other work on the machine hardly lengthens. A script
# whose commands have several threads counts those that pass, by clock=%R.
clock='%U %S'

# seconds RUNS FILE WORDS..: the least seconds of so many runs of a command or a function with the file as input. What the last run answered is in $answer.
# Where a run fails, so does the call.
seconds() {
    local runs=$1 file=$2 best='' took TIMEFORMAT=$clock
    shift 2
    for _ in $(seq "$runs"); do
        took=$({ time "$@" < "$file" > "$answer" 2>&3; } 3>&2 2>&1) || { echo "$(basename "$0"): $1 fails" >&2; return 1; }
        best=$(awk -v best="$best" '{ took = $1 + $2; print (best == "" || took < best) ? took : best }' <<< "$took")
    done
    echo "$best"
}
