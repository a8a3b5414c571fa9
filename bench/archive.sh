#!/usr/bin/env bash
# Makes 10,000 MPDs, some of which are refused, and translates them with examples/archive.sh: one process at a time on one processor, and as
# many as there are processors; then with GNU parallel, where it is installed; then the list split into four parts, as four machines would
# take them. It tells how many manifests a second that is, what the log sums up to, and whether all logs have the same lines.
#
# It wants python3, and `rt` where no program is named: `bench/archive.sh [<program>] [<how many MPDs>]`.
set -euo pipefail
if [ $# -gt 0 ]; then
    here=$(cd "$(dirname "$0")/.." && pwd)
    bridge=$(realpath "$1")
    work=$(mktemp -d)
    trap 'rm -rf "$work"' EXIT
else
    # shellcheck source=bench/program.sh
    source "$(dirname "$0")/program.sh"
fi
count=${2:-10000}
base=https://cdn.example/
export base PATH="${bridge%/*}:$PATH"
cd "$work"

python3 - "$count" <<'PY'
import os, sys

WRONG = {  # one of so many MPDs, and what is put in the place of what
    23: ("<SegmentTemplate", "<ContentProtection/><SegmentTemplate"),
    31: ("<AdaptationSet", '<EventStream schemeIdUri="urn:e"/><AdaptationSet'),
    53: ('startNumber="1"', 'startNumber="1" duration="2000000.0"'),
    71: (' bandwidth="64000"', ""),
    151: ("video/mp4", "video/webm"),
    251: ("</MPD>\n", ""),
}
NAMES = 'startNumber="1" initialization="$RepresentationID$/i.mp4" media="$RepresentationID$/$Number%05d$.m4s"'

def mpd(k):
    """Four Representations of 60 to 299 segments."""
    count = 60 + k * 7 % 240
    def segments(scale, durations):
        rows = "".join(f'<S d="{durations[j % len(durations)]}"/>' for j in range(count))
        return f'<SegmentTemplate timescale="{scale}" {NAMES}><SegmentTimeline>{rows}</SegmentTimeline></SegmentTemplate>'
    video = "".join(f'<Representation id="v{j}" bandwidth="{600000 << j}" codecs="avc1.64001f" width="{320 << j}" height="{180 << j}"/>'
                    for j in range(3))
    audio = '<Representation id="a" bandwidth="64000" codecs="mp4a.40.2"/>'
    text = ('<?xml version="1.0"?>\n<MPD xmlns="urn:mpeg:dash:schema:mpd:2011" minBufferTime="PT2S">\n<Period>\n'
            f'<AdaptationSet mimeType="video/mp4">{segments(24000, [96096, 96096, 95095])}{video}</AdaptationSet>\n'
            f'<AdaptationSet mimeType="audio/mp4" lang="en">{segments(48000, [192512, 191488])}{audio}</AdaptationSet>\n'
            "</Period>\n</MPD>\n")
    for every, (old, new) in WRONG.items():
        if k % every == every - 1:
            return text.replace(old, new)
    return text

with open("list", "w") as names:
    for k in range(int(sys.argv[1])):
        name = f"{k // 100:03d}/{k:05d}.mpd"
        os.makedirs(os.path.dirname(name), exist_ok=True)
        with open(name, "w") as it:
            it.write(mpd(k))
        names.write(name + "\n")
PY
echo "$count MPDs of $(du -bc ./*/*.mpd | awk -v n="$count" 'END { printf "%.0f", $1 / n / 1000 }') kB each"

# Runs a command, and tells how many manifests a second that is.
timed() {
    local label=$1 start
    shift
    rm -rf ./*/*-hls
    start=$(date +%s.%N)
    "$@" > told
    awk -v n="$count" -v start="$start" -v end="$(date +%s.%N)" -v what="$label" \
        'BEGIN { printf "%s: %.1f s, %.0f manifests a second\n", what, end - start, n / (end - start) }'
}

timed "one processor" taskset -c 0 "$here/examples/archive.sh" "$base" list one.log 1
timed "$(nproc) processors" "$here/examples/archive.sh" "$base" list all.log
cat told
echo "$(du -sh --apparent-size . | cut -f 1) in $(find . -name '*.m3u8' | wc -l) playlists"

# shellcheck disable=SC2016
in_parallel() {
    parallel -a list 'line=$(bridge hls {} --base="$base" --out={.}-hls); printf "%s\t%s\t%s\n" $? {} "$line"' > parallel.log
}
if command -v parallel > /dev/null; then
    timed "GNU parallel" in_parallel
fi

split -n l/4 -d list part.
for part in part.0?; do
    "$here/examples/archive.sh" "$base" "$part" "log.$part" > /dev/null
done
cat log.part.0? > parts.log
for log in *.log; do
    cmp <(sort one.log) <(sort "$log")
done
echo "all logs have the same lines"
