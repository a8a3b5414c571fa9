#!/usr/bin/env bash
# Translates each MPD of a list, one process of `bridge` each, so many at a time, and keeps a line for each in a log: its status, its name
# and its report, with tabs between. Then it sums the log up. An MPD a/b.mpd gets its playlists in a/b-hls. What the log has as done or as
# rejected isn't done again. In the directory served at the base URL:  archive.sh <base> <list> <log> [<processes>]
set -euo pipefail
base=$1 list=$2 log=$3 processes=${4:-$(nproc)}

touch "$log"
left=$(awk -F '\t' '$1 == 0 || $1 == 1 { print $2 }' "$log" | grep -vxFf - "$list" || true)
# shellcheck disable=SC2016
printf '%s' "$left" | xargs -r -d '\n' -P "$processes" -n 50 bash -c '
    for mpd in "${@:2}"; do
        line=$(bridge hls "$mpd" --base="$1" --out="${mpd%.mpd}-hls") && status=0 || status=$?
        printf "%s\t%s\t%s\n" "$status" "$mpd" "$line"
    done' archive.sh "$base" >> "$log"

awk -F '\t' '
    { status[$2] = $1; report[$2] = $3 }
    END {
        for (mpd in status) {
            all++; runs[status[mpd]]++
            if (status[mpd] == 0) { split(report[mpd], word, /[ =]/); segments += word[7] }
            if (status[mpd] == 1) { split(report[mpd], word, " "); why[word[3] " " word[4] " " word[5]]++ }
        }
        again = all - runs[0] - runs[1]
        printf "%d manifests: %d done with %d segments, %d refused, %d to be tried again\n", all, runs[0], segments, runs[1], again
        for (refusal in why) printf "%7d %s\n", why[refusal], refusal | "sort -k 1,1nr -k 2"
    }' "$log"
