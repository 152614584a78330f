#!/usr/bin/env bash
# check_all.sh FOLDER RESULTS [JOBS]
#
# Checks each file *.rec below FOLDER, JOBS at a time: one for each processor if not given. What
# RESULTS, RESULTS.log and the status are is said in run_all.sh.
set -euo pipefail
# shellcheck source-path=SCRIPTDIR
source "$(dirname "${BASH_SOURCE[0]}")/run_all.sh"
[[ $# == [23] ]] || fail 2 "usage: check_all.sh FOLDER RESULTS [JOBS]"
need_folders "$1"
list=$(mktemp)
trap 'rm -f "$list"' EXIT
find -H "$1" -type f -name '*.rec' -print0 | LC_ALL=C sort -z >"$list" || fail 3 "can't list $1"
run_all "$list" "$2" "${3:-100%}" check 1
