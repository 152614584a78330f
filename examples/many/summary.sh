#!/usr/bin/env bash
# summary.sh COUNT RESULTS ..
#
# Sums up the lines of one_line.sh, which should be COUNT: how many there are, how many of each
# status, and each line whose status isn't 0, without its hints. Ends with 0 if all are of status 0,
# with 1 if not, with 2 if there is none or the words are wrong, and with 3 and a line on standard
# error if they aren't COUNT.
set -euo pipefail
if [[ $# -lt 2 || ! $1 =~ ^[0-9]+$ ]]; then
    echo "usage: summary.sh COUNT RESULTS .." >&2
    exit 2
fi
cat -- "${@:2}" | LC_ALL=C sort -s -t $'\t' -k1,1n | awk -F '\t' -v wanted="$1" '
    !($1 in count) { kinds[++last] = $1 }
    { count[$1]++ }
    $1 != 0 { lines[++others] = $1 FS $2 FS $3 }
    END {
        print "records " NR
        for (i = 1; i <= last; i++) print "status " kinds[i] " " count[kinds[i]]
        for (i = 1; i <= others; i++) print lines[i]
        fflush()
        if (NR < wanted) print "records without a result: " wanted - NR > "/dev/stderr"
        if (NR > wanted) print "results of no record: " NR - wanted > "/dev/stderr"
        exit (NR != wanted) ? 3 : (NR == 0) ? 2 : (others > 0)
    }'
