#!/usr/bin/env bash
# Watches live playlists: polls each one, tests each new version against the one before by `bridge reload`, and writes its counts to a file
# in the text format of Prometheus, for the textfile collector of node_exporter. It prints a line for an invalid update, and keeps both
# versions in the directory <wrong>. It ends after so many polls, or never by itself if their number is 0.
#   monitor.sh <file.prom> <wrong> <seconds between polls> <polls> <URL of a media playlist>..
set -euo pipefail
file=$(realpath "$1") wrong=$2 seconds=$3 polls=$4
shift 4
mkdir -p "$wrong"
wrong=$(realpath "$wrong")
work=$(mktemp -d)
trap 'rm -rf "$work"' EXIT
cd "$work"
declare -A value

add() { value[$1 $url]=$((${value[$1 $url]:-0} + ${2:-1})); }

judge() {
    local line
    add updates_total
    if line=$(bridge reload old.m3u8 new.m3u8 --base="${url%/*}/") && [[ $line =~ added=([0-9]+) ]]; then
        add segments_total "${BASH_REMATCH[1]}"
        [ "${BASH_REMATCH[1]}" = 0 ] || value[last_segment_timestamp_seconds $url]=$now
    else
        add invalid_updates_total
        echo "$(date -u -d "@$now" +%FT%TZ) $url $line"
        for version in old new; do cp "$version.m3u8" "$wrong/$now-${url//[!A-Za-z0-9.]/_}-$version.m3u8"; done
    fi
}

poll() {
    mkdir -p "$place"
    cd "$work/$place"
    curl -sf --max-time 5 -o new.m3u8 "$url" || { add failed_fetches_total; return 0; }
    if [ ! -e old.m3u8 ]; then value[last_segment_timestamp_seconds $url]=$now
    elif ! cmp -s old.m3u8 new.m3u8; then judge; fi
    value[target_duration_seconds $url]=$(sed -n 's/^#EXT-X-TARGETDURATION:\([0-9]*\).*/\1/p' new.m3u8)
    value[ended $url]=$(grep -c '^#EXT-X-ENDLIST' new.m3u8 || true)
    mv new.m3u8 old.m3u8
}

# A metric: its name, its type, what it means, and a sample of each playlist.
metric() {
    printf '# HELP bridge_playlist_%s %s\n# TYPE bridge_playlist_%s %s\n' "$1" "$3" "$1" "$2"
    for url in "${urls[@]}"; do printf 'bridge_playlist_%s{playlist="%s"} %s\n' "$1" "$url" "${value[$1 $url]:-0}"; done
}

metrics() {
    metric updates_total counter 'New versions of the playlist.'
    metric invalid_updates_total counter 'New versions that may not follow the one before (RFC 8216, 6.2), or that no playlist is.'
    metric segments_total counter 'Segments that valid new versions added.'
    metric failed_fetches_total counter 'Fetches that failed.'
    metric last_segment_timestamp_seconds gauge 'When a version with a new segment was fetched.'
    metric target_duration_seconds gauge 'EXT-X-TARGETDURATION of the last version.'
    metric ended gauge '1 where the last version has EXT-X-ENDLIST.'
}

urls=("$@")
for ((poll = 0; polls == 0 || poll < polls; poll++)); do
    [ "$poll" = 0 ] || sleep "$seconds"
    now=$(date +%s) place=0
    for url in "${urls[@]}"; do
        place=$((place + 1))
        cd "$work"
        poll
    done
    # The collector reads a file that is there whole.
    metrics > "$file.new"
    mv "$file.new" "$file"
done
