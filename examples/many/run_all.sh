# shellcheck shell=bash
# What check_all.sh and compare_all.sh share; they source it.
#
# run_all LIST RESULTS JOBS COMMAND NAMES: runs a COMMAND of det by GNU parallel, JOBS at a time.
# LIST has the names of records, each with a zero byte after it, and a run takes the next NAMES of
# them. RESULTS gets the line that one_line.sh prints for each run, in the order of LIST, and
# RESULTS.log is the job log of parallel: seconds, status and command of each. Both are emptied
# first. Prints the summary, whose status it returns. That is 3 if a run has no line, as when its
# command was killed.
#
# The scripts end with that status, with 2 if their words are wrong, and with 3 if names can't be
# listed, RESULTS or RESULTS.log can't be written, or there is no GNU parallel.
many=$(cd "$(dirname "${BASH_SOURCE[0]}")" && pwd)
export many

# Ends the script with a status and a line.
fail() {
    echo "$2" >&2
    exit "$1"
}

# Ends the script if one of these is no folder.
need_folders() {
    local folder
    for folder in "$@"; do
        [ -d "$folder" ] || fail 2 "$folder is no folder"
    done
}

# Empties files. Ends the script if one can't be written.
empty_files() {
    local file
    for file in "$@"; do
        { : >"$file"; } 2>/dev/null || fail 3 "can't write $file"
    done
}

# The command that parallel runs. In its words parallel replaces braces, so no path is one of them.
one_line() {
    exec bash "$many/one_line.sh" "$@"
}
export -f one_line

run_all() {
    local list=$1 results=$2 jobs=$3 command=$4 names=$5 count
    empty_files "$results" "$results.log"
    [[ $(parallel --version 2>/dev/null) == GNU* ]] ||
        fail 3 "no GNU parallel here: install the Debian package parallel"
    # The status of parallel says how many commands didn't end with 0. The summary says it better.
    PARALLEL_SHELL=$BASH parallel --null --quote --jobs "$jobs" --keep-order \
        --joblog "$results.log" --arg-file "$list" --max-args "$names" \
        one_line "$command" >"$results" || true
    count=$(tr -cd '\0' <"$list" | wc -c)
    bash "$many/summary.sh" $((count / names)) "$results"
}
