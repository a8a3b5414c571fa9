#!/usr/bin/env bash
# Runs `bridge compare`. It wants python3, and for the second part ffmpeg.
#
# The first part compares an MPD of 100,000 segments with its playlists, which are the same, and prints milliseconds and MiB of
# `compare` and of `check`; `compare` may take at most 1.2 of it. The second part compares the MPD and the playlists that ffmpeg packages
# together: its times differ by up to some microseconds, so they are the same only within 0.00001 seconds.
set -euo pipefail
. "$(dirname "$0")/program.sh"
cd "$work"
base=http://127.0.0.1/

python3 - "$bridge" "$base" <<'PY'
import sys
from measure import measure
bridge, base = sys.argv[1:]

entries = "".join(f'<S d="{180000 + n % 7}"/>' for n in range(100_000))
with open("m.mpd", "w") as mpd:
    mpd.write('<MPD xmlns="urn:mpeg:dash:schema:mpd:2011"><Period><AdaptationSet mimeType="video/mp4">'
        '<Representation id="v" bandwidth="1000"><SegmentTemplate timescale="90000" initialization="i.mp4" media="s$Number$.m4s">'
        f'<SegmentTimeline>{entries}</SegmentTimeline></SegmentTemplate></Representation></AdaptationSet></Period></MPD>')
measure([bridge, "hls", "m.mpd", f"--base={base}"])
files = ["m.mpd", "out/master.m3u8", f"--base={base}"]
check, compare = measure([bridge, "check", *files]), measure([bridge, "compare", *files])
if check is None or compare is None:
    sys.exit("a run failed")
print(f"check {check[0]:.0f} ms {check[1]:.0f} MiB, compare {compare[0]:.0f} ms {compare[1]:.0f} MiB, {compare[0] / check[0]:.2f} of it")
sys.exit(compare[0] > 1.2 * check[0])
PY

if command -v ffmpeg > "$work/ffmpeg"; then
    ffmpeg -v error -f lavfi -i testsrc2=size=320x180:rate=24 -f lavfi -i sine=frequency=440:sample_rate=48000 -t 20 -c:v libx264 \
        -preset ultrafast -b:v 300k -g 48 -keyint_min 48 -sc_threshold 0 -c:a aac -b:a 64k \
        -f dash -seg_duration 2 -hls_playlist 1 -adaptation_sets 'id=0,streams=v id=1,streams=a' manifest.mpd
    for within in 0 0.00001; do
        echo "ffmpeg's pair within $within: $("$bridge" compare manifest.mpd master.m3u8 --base="$base" --within="$within" | tail -n 1)"
    done
fi
