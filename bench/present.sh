#!/usr/bin/env bash
# Times what `bridge hls` does before it writes: 100,000 segments of a template, counted and made, until the address of another
# Representation is refused; an MPD of 7 MB with 700,000 S that 200 Representations of different timescales share, and one with 230,000
# SegmentURLs, which have more segments than a presentation may. The shortest of eleven runs counts, with the largest memory.
#
# It wants `rt` and python3, and proves the program first where that isn't kept.
set -euo pipefail
here=$(cd "$(dirname "$0")/.." && pwd)
work=$(mktemp -d)
trap 'rm -rf "$work"' EXIT

(cd "$here/crates/bridge" && rt run -- hls data/vod.mpd --base=https://h.example/ --out="bench-$$" > "$work/build.log" 2>&1; rm -rf "bench-$$")
bridge=$here/crates/bridge/out/bridge
[ -x "$bridge" ] || { tail "$work/build.log"; exit 1; }

cat > "$work/present.py" <<'PY'
import os, subprocess, sys

from measure import measure

bridge, work = sys.argv[1:]
os.chdir(work)

def head(seconds):
    return f'<MPD xmlns="urn:mpeg:dash:schema:mpd:2011" mediaPresentationDuration="PT{seconds}S"><Period>'

SET = '<AdaptationSet mimeType="video/mp4">'
TAIL = "</AdaptationSet></Period></MPD>"

def template(inside):
    return f'<SegmentTemplate timescale="1" initialization="i.mp4" media="$RepresentationID$/$Number%06d$.m4s"{inside}'

def scaled(element):
    """200 Representations with timescales of their own."""
    return "".join(f'<Representation id="v{k}" bandwidth="1"><{element} timescale="{k}"/></Representation>' for k in range(1, 201))

def rows(count, row):
    return "".join(row(k) for k in range(count))

MPDS = {
    "100,000 segments by a template": head(400_000) + SET + template(' duration="4"/>')
        + '<Representation id="v" bandwidth="1"/><Representation id="' + "v" * 2100 + '" bandwidth="1"/>' + TAIL,
    "700,000 S": head(3_150_000) + SET + template("><SegmentTimeline>")
        + rows(700_000, lambda k: '<S d="%d"/>' % (4 + k % 2)) + "</SegmentTimeline></SegmentTemplate>" + scaled("SegmentTemplate") + TAIL,
    "230,000 SegmentURLs": head(920_000) + SET + '<SegmentList timescale="1" duration="4"><Initialization sourceURL="i.mp4"/>'
        + rows(230_000, lambda k: '<SegmentURL media="%06d"/>' % k) + "</SegmentList>" + scaled("SegmentList") + TAIL,
}

for name, text in MPDS.items():
    with open("m.mpd", "w") as it:
        it.write(text)
    command = [bridge, "hls", "m.mpd", "--base=https://h.example/"]
    told = subprocess.run(command, capture_output=True, text=True).stdout.strip()
    ms, peak = measure(command, 1)
    print(f"{name}: {ms:.0f} ms, {peak:.1f} MiB for {len(text) / 1e6:.1f} MB: {told}")
PY
PYTHONPATH=$here/bench python3 "$work/present.py" "$bridge" "$work"
