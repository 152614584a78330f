#!/usr/bin/env bash
# compare_workers.sh MANIFEST STIM FOLDER [WORKERS ..]
#
# Records a run with 1 worker and with each other number of WORKERS (at most seven; 2, 4 and 8 if
# none is given) to FOLDER, checks the first record, and compares them all. FOLDER/verdict.txt has
# what det says. FOLDER/page.html shows the records in a browser. It isn't there if det_page or its
# page isn't installed; a line then says so. What an earlier call left in FOLDER is removed first.
#
# Ends with the status of the first command of det that didn't end with 0, with 2 if the words are
# wrong, and with 3 if FOLDER can't be made or cleared.
set -euo pipefail
if [[ $# -lt 3 || $# -gt 10 ]]; then
    echo "usage: compare_workers.sh MANIFEST STIM FOLDER [WORKERS ..], with at most 7 WORKERS" >&2
    exit 2
fi
manifest=$1 stimulus=$2 folder=$3
shift 3
[ $# -gt 0 ] || set -- 2 4 8
mkdir -p -- "$folder" || exit 3
rm -f -- "$folder"/workers-*.rec "$folder/verdict.txt" "$folder/page.html" || exit 3
records=()
for workers in 1 "$@"; do
    record=$folder/workers-$workers.rec
    det record "$manifest" "$stimulus" --workers "$workers" >"$record"
    records+=("$record")
done
# The page comes first, so that it is there also if the records differ. It changes no status.
if command -v det_page >/dev/null; then
    det_page "${records[@]}" -o "$folder/page.html" || true
else
    echo "no page of the records: det_page isn't installed" >&2
fi
{
    det --version
    det check "${records[0]}"
    det compare "${records[@]}"
} 2>&1 | tee "$folder/verdict.txt"
