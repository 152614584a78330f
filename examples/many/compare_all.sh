#!/usr/bin/env bash
# compare_all.sh FOLDER FOLDER RESULTS [JOBS]
#
# Compares each file *.rec below one FOLDER with the one of its name below the other, JOBS at a
# time: one for each processor if not given. A name that only one of them has is a read fault. What
# RESULTS, RESULTS.log and the status are is said in run_all.sh.
set -euo pipefail
# shellcheck source-path=SCRIPTDIR
source "$(dirname "${BASH_SOURCE[0]}")/run_all.sh"
[[ $# == [34] ]] || fail 2 "usage: compare_all.sh FOLDER FOLDER RESULTS [JOBS]"
need_folders "$1" "$2"
list=$(mktemp)
trap 'rm -f "$list"' EXIT
find -H "$1" "$2" -type f -name '*.rec' -printf '%P\0' | LC_ALL=C sort -zu |
    while IFS= read -r -d '' name; do
        printf '%s\0' "$1/$name" "$2/$name"
    done >"$list" || fail 3 "can't list $1 and $2"
run_all "$list" "$3" "${4:-100%}" compare 2
