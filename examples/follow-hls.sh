#!/usr/bin/env bash
# Polls the playlists of a live HLS presentation and gives each snapshot of them to `bridge follow-hls`. After each one that is accepted it
# puts the MPD into the directory <live> by one rename, so that a server never has half of it. It is for a multivariant playlist (master)
# whose variants are video, and whose renditions have names of their own. In the directory served at the base URL, with the master:
#   follow-hls.sh <base> <name of the master> <directory of the MPD> <seconds between polls> <polls> [<form of the MPD> [<command>]]
# The command is `follow-hls`, or `follow-hls-times` for the times of the media files in that directory.
set -euo pipefail
base=$1 master=$2 live=$3 seconds=$4 polls=$5 form=${6-plain} command=${7-follow-hls}
mkdir -p "$live"
exec {lock}> "$live.lock"
flock -n "$lock" || { echo "another one serves $live" >&2; exit 1; }
fetched=$(mktemp -d)
trap 'rm -rf "$fetched"' EXIT

renditions() {
    sed -n "/^#EXT-X-MEDIA:.*TYPE=$1/s/.*URI=\"\([^\"]*\)\".*/\1/p" "$master"
}
mapfile -t tracks < <({
    grep -v '^#' "$master"
    renditions AUDIO
    renditions SUBTITLES
} | awk 'NF && !seen[$0]++')

fetch() {
    for k in "${!tracks[@]}"; do
        curl -sf --max-time 5 -o "$fetched/$k" "$base${tracks[k]}" || return 1
    done
}

# The header has the time and the length of each playlist; the playlists follow in the tracks' order.
round() {
    echo "round $(date -u +%FT%T.%3NZ) $(for k in "${!tracks[@]}"; do wc -c < "$fetched/$k"; done | paste -s -d ' ')"
    for k in "${!tracks[@]}"; do cat "$fetched/$k"; done
}

coproc bridge "$command" "$master" --base="$base" --out="$live-written" --form="$form"
from=${COPROC[0]} to=${COPROC[1]}
for ((poll = 0; poll < polls; poll++)); do
    [ "$poll" = 0 ] || sleep "$seconds"
    fetch || continue
    round >&"$to"
    read -r line <&"$from"
    echo "$line"
    case $line in
    *" ok "*)
        cp "$live-written/live.mpd" "$live/.new"
        mv "$live/.new" "$live/live.mpd"
        ;;
    esac
done
exec {to}>&-
cat <&"$from"
