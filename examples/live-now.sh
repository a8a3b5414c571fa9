#!/usr/bin/env bash
# Serves a live MPD as live playlists, and keeps nothing but what it serves. At each poll `bridge hls --now` writes the playlists of what
# the MPD lists at that moment, and `bridge_publish` makes the served ones of them. So it may be killed at any time and started again, here
# or on another machine that has the served folder. It translates the whole window at each poll, where follow.sh translates what is new.
#
# It logs each answer that isn't that of the poll before. SIGTERM ends it after a poll. In the directory served at the base URL:
#   live-now.sh <base> <name of the MPD there> <folder of the playlists> <seconds between polls> [<polls>] [<options>]
# The options and the statuses are those of follow.sh.
set -uo pipefail

say() { echo "$(date -u +%FT%TZ) $*"; }

# Serves what the MPD lists now. The line is that of the first program that failed, or that of bridge_publish.
serve() {
    curl -sf --max-time 5 -o "$live-mpd" "$base$mpd" || { line='no MPD' status=1; return; }
    line=$(bridge hls "$live-mpd" --base="$base" --now="$(date -u +%FT%T.%3NZ)" --out="$live-written")
    status=$?
    [ "$status" != 0 ] || { line=$(bridge_publish "$live-written" "$live" "${options[@]}"); status=$?; }
    case $status in
    0) options=("${once[@]}") ;;
    1) ;;
    *) status=2 ;;
    esac
}

main() {
    local wanted='live-now.sh <base> <MPD> <folder> <seconds> [<polls>] [<options of bridge_publish>]'
    [ $# -ge 4 ] || { echo "usage: $wanted" >&2; exit 2; }
    base=$1 mpd=$2 live=$3 seconds=$4 polls=0
    shift 4
    case ${1--} in -*) ;; *) polls=$1; shift ;; esac
    options=("$@") once=()
    for option; do [ "$option" = --back=yes ] || once+=("$option"); done
    local ending='' line='' told='' status=1 missed=0

    exec {lock}> "$live.lock" || exit 2
    flock -w 5 "$lock" || { echo "another one serves $live" >&2; exit 3; }
    trap 'ending=1' TERM INT
    for ((poll = 0; polls == 0 || poll < polls; poll++)); do
        [ "$poll" = 0 ] || { sleep "$seconds" {lock}>&- & wait $!; }
        [ -z "$ending" ] || break
        serve
        [ "$line" = "$told" ] || [ "$line" = unchanged ] || { say "$line"; told=$line; }
        [[ $line != "ended "* ]] || ending=1
        missed=$((status == 0 ? 0 : missed + 1))
        [ $((missed % 10)) != 0 ] || [ "$missed" = 0 ] || say "nothing served for $missed polls"
    done
    exit "$status"
}

main "$@"
