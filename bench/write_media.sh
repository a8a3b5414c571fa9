#!/usr/bin/env bash
# Times the writing of a media playlist of 100,000 segments by a template, 6 MB of text: a run of `bridge hls`, less one of the same
# MPD with a second Representation whose first segment has an address of more than 2,048 bytes, which is refused after each segment of
# the first one was made and before anything is written. The shortest of eleven runs counts, with the largest memory.
#
# It wants `rt` and python3, and proves the program first where that isn't kept.
set -euo pipefail
source "$(dirname "$0")/program.sh"

cat > "$work/write.py" <<'PY'
import os, sys

from measure import measure

bridge, work = sys.argv[1:]
os.chdir(work)

def mpd(name, others):
    with open(name, "w") as it:
        it.write('<MPD xmlns="urn:mpeg:dash:schema:mpd:2011" mediaPresentationDuration="PT400000S"><Period><AdaptationSet mimeType="video/mp4">'
                 '<SegmentTemplate timescale="1" duration="4" initialization="init.mp4" media="video/$RepresentationID$/$Number%06d$.m4s"/>'
                 '<Representation id="v0" bandwidth="1000000"/>' + others + "</AdaptationSet></Period></MPD>")

def run(name, status):
    return measure([bridge, "hls", name, "--base=https://h.example/videos/main/"], status)

mpd("written.mpd", "")
mpd("refused.mpd", '<Representation id="' + "v" * 2100 + '" bandwidth="1"/>')
written, refused = run("written.mpd", 0), run("refused.mpd", 1)
size = os.path.getsize("out/t0.m3u8")
print(f"made {refused[0]:.0f} ms, {refused[1]:.1f} MB; made and written {written[0]:.0f} ms, {written[1]:.1f} MB; {size} bytes in {written[0] - refused[0]:.0f} ms")
PY
python3 "$work/write.py" "$bridge" "$work"
