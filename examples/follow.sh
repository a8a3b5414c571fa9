#!/usr/bin/env bash
# Serves a live MPD as live playlists that go on for as long as the channel does. It polls the MPD and gives each version to
# `bridge follow`, a new one as `mpd` and none as `tick`; after each that is accepted, `bridge_publish` makes the served playlists of those
# that the run wrote.
#
# What a run can't go on with begins a new run with the same MPD: a packager that was started again, versions that were missed, a bridge
# that ended. Sequence numbers of segments and discontinuities go on all the same, since they are those of the served playlists, and so
# they do when this script or the machine is started again. A static version (a packager that ended in order) doesn't end the playlists:
# with --end=yes it does, and the script ends too.
#
# It logs each new run, and each answer that isn't that of the poll before. SIGTERM ends it after a poll. In the directory served at the
# base URL:
#   follow.sh <base> <name of the MPD there> <folder of the playlists> <seconds between polls> [<polls>] [<options>]
# The options are those of bridge_publish: --target=<n>, --end=yes, --back=yes; the last holds for one publication. Statuses: 0 the last
# poll was served, or the channel ended; 1 it wasn't; 2 wrong arguments, or the machine failed; 3 another one serves this folder.
set -uo pipefail

say() { echo "$(date -u +%FT%TZ) $*"; }

# Tells a line, unless it was the last one of its kind: the first word.
report() {
    local kind=$1
    shift
    [ "${told[$kind]-}" = "$*" ] || say "$*"
    told[$kind]=$*
}

# Begins a run of the bridge, in the place of the one before.
begin() {
    stop
    rm -f "$work/accepted"
    bridge follow "$mpd" --base="$base" --out="$live-written" < "$work/to" > "$work/from" {lock}>&- &
    run=$!
    exec {to}> "$work/to" {from}< "$work/from"
}

# Ends the run, if there is one.
stop() {
    [ -n "$run" ] || return 0
    exec {to}>&- {from}<&-
    kill "$run" 2> /dev/null
    wait "$run" 2> /dev/null
    run=
}

# Fetches the MPD if it is another one than the last that was fetched.
fetch() {
    local code
    : > "$work/tag.new"
    code=$(curl -sf --max-time 5 --etag-compare "$work/tag" --etag-save "$work/tag.new" -o "$work/fetched" -w '%{http_code}' \
        "$base$mpd") || return 1
    now=$(date -u +%FT%T.%3NZ)
    [ "$code" = 304 ] || { mv "$work/fetched" "$work/new" && mv "$work/tag.new" "$work/tag"; }
}

frame() {
    if [ "$1" = tick ]; then
        echo "tick $now"
    else
        echo "mpd $now $(wc -c < "$work/new")" && cat "$work/new"
    fi
}

# Gives the run a frame, whose answer is the line. It fails where the run has ended.
ask() {
    frame "$1" 1>&"$to" 2> /dev/null || return 1
    read -r -t 60 line <&"$from" || return 1
    line=${line#frame * }
}

# Whether the answer to a frame asks for a new run: the MPD is one that could begin it, and none that this run may take later.
is_over() {
    case $line in
    *" session 1 ClockBack"* | *" session 8 NotDynamic"*) return 1 ;;
    *" session 9 Ended"*) [ "$1" = mpd ] ;;
    *" session "*) return 0 ;;
    *) return 1 ;;
    esac
}

# Follows what was fetched. It fails where nothing was accepted.
follow() {
    local kind=mpd
    if cmp -s "$work/new" "$work/accepted"; then kind=tick; fi
    if ! ask $kind; then
        line='the run ended'
    elif ! is_over $kind; then
        kind=
    fi
    if [ -n "$kind" ]; then
        say "new run: $line"
        begin
        ask mpd || line='the new run ended'
    fi
    [[ $line == "ok "* ]] || { report follow "$line"; return 1; }
    told[follow]=
    cp "$work/new" "$work/accepted"
}

# Makes the served playlists of those that the run wrote. A served list that ended ends the script.
publish() {
    line=$(bridge_publish "$live-written" "$live" "${options[@]}")
    case $? in
    0) status=0 ;;
    1) status=1 ;;
    *) status=2 ;;
    esac
    [ "$line" = unchanged ] || report publish "$line"
    [ "$status" != 0 ] || options=("${once[@]}")
    [[ $line != "ended "* ]] || ending=1
}

main() {
    local wanted='follow.sh <base> <MPD> <folder> <seconds> [<polls>] [<options of bridge_publish>]'
    [ $# -ge 4 ] || { echo "usage: $wanted" >&2; exit 2; }
    base=$1 mpd=$2 live=$3 seconds=$4 polls=0
    shift 4
    case ${1--} in -*) ;; *) polls=$1; shift ;; esac
    options=("$@") once=()
    for option; do [ "$option" = --back=yes ] || once+=("$option"); done
    declare -gA told=()
    run='' ending='' line='' now='' status=1 missed=0

    exec {lock}> "$live.lock" || exit 2
    flock -w 5 "$lock" || { echo "another one serves $live" >&2; exit 3; }
    work=$(mktemp -d) && mkfifo "$work/to" "$work/from" && touch "$work/tag" || exit 2
    trap 'stop; rm -rf "$work"' EXIT
    trap '' PIPE
    trap 'ending=1' TERM INT
    begin
    for ((poll = 0; polls == 0 || poll < polls; poll++)); do
        [ "$poll" = 0 ] || { sleep "$seconds" {lock}>&- & wait $!; }
        [ -z "$ending" ] || break
        if ! fetch; then
            report fetch "no MPD"
            status=1
        elif told[fetch]=; follow; then
            publish
        else
            status=1
        fi
        missed=$((status == 0 ? 0 : missed + 1))
        [ $((missed % 10)) != 0 ] || [ "$missed" = 0 ] || say "nothing served for $missed polls"
    done
    exit "$status"
}

main "$@"
