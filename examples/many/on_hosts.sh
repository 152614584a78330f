#!/usr/bin/env bash
# DET_HOSTS="HOST HOST .." det_lane on_hosts.sh COPIES MANIFEST STIM [-- WORD ..]
#
# A copy of a lane on another host, by ssh. det_lane starts this as `on_hosts.sh record MANIFEST
# STIM --workers K WORD ..`, and copy K, counted from 1 here, runs on host K of DET_HOSTS; after the
# last host the first comes again. The manifest and the stimulus are sent to the host, which only
# needs det.
#
# DET_REMOTE is the path of another program on the hosts, one word. DET_SSH_CONFIG is a file for
# ssh, if not the usual one. DET_SSH_SECONDS is how long a host may take to answer: 10 if not given.
#
# Ends with the status of the program on the host, with 255 if ssh fails, and with 2 if the words
# are wrong or DET_HOSTS has no host.
set -euo pipefail

# Ends the script with a status and a line.
fail() {
    echo "$2" >&2
    exit "$1"
}

# Prints words in quotes, as sh reads them.
quote() {
    local word mark="'" escaped="'\\''"
    for word in "$@"; do
        printf " '%s'" "${word//$mark/$escaped}"
    done
}

[[ $# -ge 5 && $1 == record && $4 == --workers && $5 =~ ^[1-9][0-9]*$ ]] ||
    fail 2 "usage: det_lane on_hosts.sh COPIES MANIFEST STIM [-- WORD ..]"
manifest=$2 stimulus=$3 workers=$5 seconds=${DET_SSH_SECONDS:-10}
read -r -a hosts <<<"${DET_HOSTS:-}"
[ ${#hosts[@]} -gt 0 ] || fail 2 "DET_HOSTS has no host"
host=${hosts[(workers - 1) % ${#hosts[@]}]}
size=$(wc -c <"$manifest")
# The host's sh reads these commands from its standard input. The manifest, which has that size, and
# the stimulus follow. So the user's shell there, which may be another one, reads no word.
commands="folder=\$(mktemp -d) && trap 'rm -rf \"\$folder\"' EXIT"
commands+=" && head -c $size >\"\$folder/manifest\" && cat >\"\$folder/stimulus\""
commands+=" && $(quote "${DET_REMOTE:-det}") record \"\$folder/manifest\" \"\$folder/stimulus\""
commands+=$(quote "${@:4}")
length=$(printf %s "$commands" | wc -c)
# With BatchMode ssh asks nothing. It gives up a host that is silent before or during the copy.
options=(-o BatchMode=yes -o "ConnectTimeout=$seconds")
options+=(-o "ServerAliveInterval=$seconds" -o ServerAliveCountMax=1)
# ssh takes the place of this script, so that det_lane stops it.
exec ssh ${DET_SSH_CONFIG:+-F "$DET_SSH_CONFIG"} "${options[@]}" "$host" \
    "sh -c 'eval \"\$(head -c $length)\"'" \
    < <(printf %s "$commands" && cat -- "$manifest" "$stimulus")
