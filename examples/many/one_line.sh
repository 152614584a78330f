#!/usr/bin/env bash
# one_line.sh check RECORD, or one_line.sh compare RECORD RECORD ..
#
# Runs one command of det and prints one line of four parts, with tabs between them: det's status,
# the names of the records, the line that det says of them, and its hints. In names that have a tab
# or the end of a line, these are quoted as bash does. Ends with det's status.
set -u
said=$(det "$@" 2>&1)
status=$?
line=${said%%$'\n'*} hints=
# With 0 and 1 the verdict is first. Reports follow, and hints that only name the records.
if [ "$status" -gt 1 ] && [ "$line" != "$said" ]; then
    hints=${said#*$'\n'  }
    hints=${hints//$'\n' /;}
fi
names=${*:2}
[[ $names == *[$'\t\n']* ]] && printf -v names '%q' "$names"
printf '%d\t%s\t%s\t%s\n' "$status" "$names" "$line" "$hints"
exit "$status"
