#!/usr/bin/env bash
# Runs `bridge hls-index` on media files with an index inside.
#
# Time: an MPD with 10 tracks of 5,000 references each, beside `bridge hls` of an MPD with the same ranges in SegmentLists, whose
# playlists are to be the same. Strangers: files whose index ranges have 8 MB of boxes of 8 bytes, or 65,535 references, for up to 200
# Representations; each is to be answered within 5 seconds and 300 MB. Where ffmpeg is installed, media files that it makes with a
# global index: what it decodes of the playlists is compared with what it decodes of the files themselves.
#
# It wants python3, and `rt` where no program is named: `bench/index.sh [<program>]`.
set -euo pipefail
if [ $# -eq 1 ]; then
    bridge=$(realpath "$1")
    work=$(mktemp -d)
    trap 'rm -rf "$work"' EXIT
    PYTHONPATH=$(cd "$(dirname "$0")" && pwd)
    export PYTHONPATH
else
    # shellcheck source=bench/program.sh
    source "$(dirname "$0")/program.sh"
fi

cat > "$work/index.py" <<'PY'
import os, shutil, struct, sys

from measure import answers, measure
from media import box, decoded, put, ran, served

bridge, work = sys.argv[1:]
os.chdir(work)
BASE = "https://h.example/"
MPD = '<MPD xmlns="urn:mpeg:dash:schema:mpd:2011" mediaPresentationDuration="PT100000S">{}</MPD>'

def sidx(references, timescale=1000, first_offset=0, version=0):
    """A segment index (ISO/IEC 14496-12, 8.16.3) of references, each a size and a duration."""
    times = struct.pack(">QQ" if version else ">II", 0, first_offset)
    rows = b"".join(struct.pack(">III", size, duration, 0x90000000) for size, duration in references)
    return box(b"sidx", struct.pack(">BxxxII", version, 1, timescale) + times + struct.pack(">HH", 0, len(references)) + rows)

def period(representations):
    return MPD.format(f'<Period><AdaptationSet mimeType="video/mp4">{"".join(representations)}</AdaptationSet></Period>')

def indexed(name, file, begin, count, inside='<Initialization range="0-99"/>'):
    return (f'<Representation id="{name}" bandwidth="1000"><BaseURL>{file}</BaseURL>'
            f'<SegmentBase indexRange="{begin}-{begin + count - 1}">{inside}</SegmentBase></Representation>')

# ---- time

def same_ranges():
    by_index, by_list = [], []
    for track in range(10):
        references = [(10_000 + 7_919 * k % 5_000, 2_000) for k in range(5_000)]
        index = sidx(references)
        put(f"t{track}.mp4", bytes(100) + index)
        by_index.append(indexed(track, f"t{track}.mp4", 100, len(index)))
        at, urls = 100 + len(index), []
        for size, _ in references:
            urls.append(f'<SegmentURL mediaRange="{at}-{at + size - 1}"/>')
            at += size
        by_list.append(f'<Representation id="{track}" bandwidth="1000"><BaseURL>t{track}.mp4</BaseURL>'
                       '<SegmentList timescale="1000" duration="2000">'
                       f'<Initialization range="0-99"/>{"".join(urls)}</SegmentList></Representation>')
    put("index.mpd", period(by_index))
    put("list.mpd", period(by_list).replace("PT100000S", "PT10000S"))

same_ranges()
rows = {command: measure([bridge, command, name, f"--base={BASE}", f"--out={command}"])
        for command, name in (("hls-index", "index.mpd"), ("hls", "list.mpd"))}
for name in sorted(os.listdir("hls")):
    with open(f"hls/{name}", "rb") as one, open(f"hls-index/{name}", "rb") as other:
        assert one.read() == other.read(), name
print("| command | ms | MB |\n|---|---|---|")
for command, (ms, mb) in rows.items():
    print(f"| `{command}`, 10 tracks of 5,000 segments | {ms:.0f} | {mb:.1f} |")
assert rows["hls-index"][0] <= 1.5 * rows["hls"][0], rows

# ---- strangers

MOST = 8_388_608
put("boxes.mp4", bytes(100) + box(b"free", b"") * (MOST // 8))
many = sidx([(1, 1)] * 65_535)
put("many.mp4", bytes(100) + many)
room = MOST - len(many)
both = box(b"free", bytes(room % 8)) + box(b"free", b"") * (room // 8 - 1) + many
put("both.mp4", bytes(100) + both)
wide = sidx([(2**31 - 1, 2**32 - 1)] * 65_535, timescale=2**32 - 1, first_offset=2**63 - 1, version=1)
put("wide.mp4", bytes(100) + wide)
large = struct.pack(">I4sQ", 1, b"free", MOST - len(many)) + bytes(MOST - len(many) - 16) + many
put("large.mp4", bytes(100) + large)
cases = [
    ("8 MB of boxes of 8 bytes, without an index", "boxes.mp4", MOST, 200),
    ("200 times 8 MB of boxes of 8 bytes, and then 65,535 references", "both.mp4", MOST, 200),
    ("200 indexes of 65,535 references", "many.mp4", len(many), 200),
    ("7 indexes of 65,535 references", "many.mp4", len(many), 7),
    ("an index that ends behind 2^63", "wide.mp4", len(wide), 200),
    ("7 indexes behind a box of 8 MB with a size of 64 bits", "large.mp4", MOST, 7),
]
print("\n| files | answer | s | MB |\n|---|---|---|---|")
for what, file, count, representations in cases:
    put("stranger.mpd", period(indexed(k, file, 100, count) for k in range(representations)))
    seconds, megabytes, answer = answers([bridge, "hls-index", "stranger.mpd", f"--base={BASE}"])
    print(f"| {what} | `{answer}` | {seconds:.2f} | {megabytes:.0f} |")
    assert seconds <= 5 and megabytes <= 300, what

# ---- real files

def boxes(content):
    """The boxes of a file: their kinds, their places and their sizes."""
    at = 0
    while at < len(content):
        size, kind = struct.unpack_from(">I4s", content, at)
        size = struct.unpack_from(">Q", content, at + 8)[0] if size == 1 else size or len(content) - at
        yield kind, at, size
        at += size

def described(name, file, kind, codecs):
    with open(file, "rb") as it:
        index = next((at, size) for box, at, size in boxes(it.read()) if box == b"sidx")
    return (f'<AdaptationSet mimeType="{kind}/mp4"><Representation id="{name}" bandwidth="100000" codecs="{codecs}">'
            f'<BaseURL>{file}</BaseURL>'
            f'<SegmentBase indexRange="{index[0]}-{sum(index) - 1}"><Initialization range="0-{index[0] - 1}"/></SegmentBase>'
            "</Representation></AdaptationSet>")

if shutil.which("ffmpeg"):
    make = ["-t", "10", "-movflags", "+dash+global_sidx", "-frag_duration", "2000000"]
    ran("ffmpeg", "-f", "lavfi", "-i", "testsrc2=size=320x180:rate=30000/1001", "-c:v", "libx264", "-preset", "ultrafast", "-g", "60",
        "-pix_fmt", "yuv420p", *make, "video.mp4")
    ran("ffmpeg", "-f", "lavfi", "-i", "sine=frequency=440:sample_rate=48000", "-c:a", "aac", *make, "audio.mp4")
    server, base = served()
    sets = described("v", "video.mp4", "video", "avc1.42c01e") + described("a", "audio.mp4", "audio", "mp4a.40.2")
    put("real.mpd", MPD.format(f"<Period>{sets}</Period>"))
    print("\n" + ran(bridge, "hls-index", "real.mpd", f"--base={base}", "--out=real").decode(), end="")
    for file, stream in (("video.mp4", "v"), ("audio.mp4", "a")):
        own, played = decoded(file, stream), decoded(f"{base}real/master.m3u8", stream)
        print(f"{file}: {len(own)} frames, of which {sum(a == b for a, b in zip(own, played))} are played")
        assert own and own == played, file
    server.shutdown()
else:
    print("\nffmpeg isn't installed: no real files")
PY
python3 "$work/index.py" "$bridge" "$work"
