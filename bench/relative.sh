#!/usr/bin/env bash
# Playlists with relative URLs: the time of `bridge hls --addresses=relative` to that with absolute ones, in turn, of an MPD with 100,000 S;
# then a directory that is moved and served under another URL, and how many frames ffmpeg decodes of either kind of playlist there.
# docs/PLAYLISTS.md and docs/PERFORMANCE.md have what it printed.
#
# It wants python3 and ffmpeg, and `rt` where BRIDGE names no program.
set -euo pipefail
source "$(dirname "$0")/program.sh"

cat > "$work/relative.py" <<'PY'
import os, sys

import media
from measure import launched

bridge, work = sys.argv[1:]
ways = ("absolute", "relative")

def words(mpd, base, way):
    return [bridge, "hls", mpd, f"--base={base}", f"--out={way}", f"--addresses={way}"]

os.makedirs(f"{work}/many")
os.chdir(f"{work}/many")
rows = "".join(f'<S d="{180_000 + k * 7_919 % 1_000}"/>\n' for k in range(100_000))
with open("m.mpd", "w") as it:
    it.write('<MPD xmlns="urn:mpeg:dash:schema:mpd:2011"><Period><AdaptationSet mimeType="video/mp4">'
             '<Representation id="v" bandwidth="1000"><SegmentTemplate timescale="90000" initialization="v/i.mp4" media="v/$Number$.m4s">'
             '<SegmentTimeline>\n'
             + rows + '</SegmentTimeline></SegmentTemplate></Representation></AdaptationSet></Period></MPD>')
runs = {way: [] for way in ways}
for _ in range(11):
    for way in ways:
        status, ms, mib = launched(words("m.mpd", "https://h.example/", way))
        assert status == 0, status
        runs[way].append((ms, mib))
(absolute, _), (relative, memory) = (min(runs[way]) for way in ways)
print(f"100,000 segments: {relative:.0f} ms with relative URLs, {absolute:.0f} with absolute ones, {relative / absolute:.2f} of its time, "
      f"{memory:.1f} MB", flush=True)

os.makedirs(f"{work}/site/v")
os.chdir(f"{work}/site")
media.ran("ffmpeg", "-f", "lavfi", "-i", "testsrc2=size=320x180:rate=24", "-t", "6", "-c:v", "libx264", "-g", "48",
          "-f", "dash", "-seg_duration", "2", "v/m.mpd")
server, base = media.served()
for way in ways:
    media.ran(*words("v/m.mpd", base, way))
frames = media.decoded(f"{base}absolute/master.m3u8", "v")
server.shutdown()
server.server_close()
os.makedirs(f"{work}/moved/to")
os.rename(f"{work}/site", f"{work}/moved/to/site")
os.chdir(f"{work}/moved")
server, base = media.served()
for way in ways:
    try:
        found = media.decoded(f"{base}to/site/{way}/master.m3u8", "v")
    except Exception:
        found = []
    print(f"moved, {way}: {len(found) if found == frames[:len(found)] else 'other'} of {len(frames)} frames")
PY
python3 "$work/relative.py" "$bridge" "$work"
