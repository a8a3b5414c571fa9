#!/usr/bin/env bash
# Runs `bridge dash-times` and `bridge agree`, which read the media files' own times.
#
# Time: a playlist of 5,000 segments, each a file of a megabyte of which most has no block on the disk, within 1.5 seconds each. Strangers:
# files with 130,000 boxes beside the one that tells the time, of whose sizes some have 64 bits; each within 5 seconds and 300 MB. Where
# ffmpeg is installed, what it packages for HLS: `agree` is to say yes to the MPD of `dash-times`, and ffmpeg is to decode of that the
# frames that it decodes of the playlists, also where these are what is left of a live presentation; where GStreamer is
# there, it tells how many frames that shows in their places.
#
# It wants python3, and `rt` where no program is named: `bench/times.sh [<program>]`.
set -euo pipefail
if [ $# -eq 1 ]; then
    bridge=$(realpath "$1")
    work=$(mktemp -d)
    trap 'rm -rf "$work"' EXIT
    PYTHONPATH=$(cd "$(dirname "$0")" && pwd)
    export PYTHONPATH
else
    # shellcheck source=bench/program.sh
    source "$(dirname "$0")/program.sh"
fi

cat > "$work/times.py" <<'PY'
import hashlib, os, re, shutil, struct, subprocess, sys

from measure import answers, measure
from media import box, decoded, fragment, initial, put, ran, served

bridge, work = sys.argv[1:]
os.chdir(work)
BASE = "--base=https://h.example/"
MASTER = '#EXTM3U\n#EXT-X-STREAM-INF:BANDWIDTH=800000,CODECS="avc1.64001f"\nv.m3u8\n'

def playlist(segments, map_file="i.mp4"):
    """An ended playlist of these files, of 2 s each."""
    listed = "".join(f"#EXTINF:2,\n{name}\n" for name in segments)
    return put("v.m3u8", f'#EXTM3U\n#EXT-X-TARGETDURATION:2\n#EXT-X-MAP:URI="{map_file}"\n{listed}#EXT-X-ENDLIST\n')

put("m.m3u8", MASTER)

# ---- time

put("i.mp4", initial(90_000))
for k in range(5_000):
    with open(put(f"s{k}.m4s", fragment(900_000 + 180_000 * k)), "r+b") as it:
        it.truncate(1_000_000)
playlist(f"s{k}.m4s" for k in range(5_000))
print("| command | ms | MB |\n|---|---|---|")
for command, file in (("dash-times", "m.m3u8"), ("agree", "out/manifest.mpd")):
    ms, mb = measure([bridge, command, file, BASE])
    print(f"| `{command}`, 5,000 files of a megabyte | {ms:.0f} | {mb:.1f} |")
    assert ms <= 1_500, command
with open("out/manifest.mpd") as it:
    assert '<S t="900000" d="180000" r="4999"/>' in it.read()

# ---- strangers

MANY = box(b"free") * 130_000
WIDE = struct.pack(">I4sQ", 1, b"free", 16) * 65_000
put("many.mp4", initial(90_000, MANY))
put("wide.mp4", initial(90_000, WIDE))
put("many.m4s", fragment(0, MANY))
put("wide.m4s", fragment(0, WIDE))
put("before.m4s", MANY + fragment(0))
put("long.m4s", MANY + box(b"free") * 2_000 + fragment(0))
put("two.m4s", fragment(0, MANY[:-8], box(b"traf")))
cases = [
    ("130,000 boxes of 8 bytes beside `trak` and `traf`", "many.mp4", ["many.m4s"]),
    ("65,000 boxes with sizes of 64 bits", "wide.mp4", ["wide.m4s"]),
    ("130,000 boxes before `moof`", "i.mp4", ["before.m4s"]),
    ("a megabyte of boxes before `moof`", "i.mp4", ["long.m4s"]),
    ("a second `traf` behind 130,000 boxes", "i.mp4", ["two.m4s"]),
    ("100 segments in one file of 130,000 boxes", "i.mp4", ["many.m4s"] * 100),
]
print("\n| files | answer of `dash-times` | s | MB |\n|---|---|---|---|")
for what, map_file, segments in cases:
    playlist(segments, map_file)
    seconds, megabytes, answer = answers([bridge, "dash-times", "m.m3u8", BASE])
    print(f"| {what} | `{answer}` | {seconds:.2f} | {megabytes:.0f} |")
    assert seconds <= 5 and megabytes <= 300, what

# ---- real files

SOUND = ["-f", "lavfi", "-i", "sine=frequency=440:sample_rate=48000"]
def picture(rate):
    return ["-f", "lavfi", "-i", f"testsrc2=size=320x180:rate={rate}"]

CODED = ["-c:v", "libx264", "-preset", "ultrafast", "-b:v", "300k", "-g", "48", "-pix_fmt", "yuv420p", "-c:a", "aac"]

def package(folder, source, playlists):
    """Playlists of fragmented files, which ffmpeg writes to a folder."""
    os.makedirs(folder)
    packaged = ["-f", "hls", "-hls_segment_type", "fmp4", "-hls_time", "2", "-master_pl_name", "master.m3u8"]
    subprocess.run(["ffmpeg", "-v", "error", *source, *CODED, *packaged, *playlists], check=True, cwd=folder)

def both(folder, base, streams):
    """What `dash-times` and `agree` say, and how many frames ffmpeg decodes of the MPD as of the playlists."""
    told = ran(bridge, "dash-times", f"{folder}/master.m3u8", f"--base={base}", f"--out={folder}").decode()
    said = ran(bridge, "agree", f"{folder}/manifest.mpd", f"--base={base}").decode()
    print(f"{folder}: {told.strip()}; {said.strip()}")
    for stream in streams:
        own, played = decoded(f"{base}{folder}/master.m3u8", stream), decoded(f"{base}{folder}/manifest.mpd", stream)
        same = sum(a == b for a, b in zip(own, played))
        print(f"{folder}, {stream}: {len(own)} frames of the playlists, of which {same} are played of the MPD")
        assert own and own == played, (folder, stream)

def in_gstreamer(url):
    """The sums of the frames that GStreamer decodes."""
    ran("gst-launch-1.0", "-q", "uridecodebin3", f"uri={url}", "caps=video/x-raw", "!", "videoconvert", "!", "video/x-raw,format=I420", "!",
        "filesink", "location=played.raw")
    size = 320 * 180 * 3 // 2
    with open("played.raw", "rb") as it:
        return [hashlib.md5(frame).hexdigest().encode() for frame in iter(lambda: it.read(size), b"")]

if shutil.which("ffmpeg"):
    server, base = served()
    package("vod", [*picture(24), *SOUND, "-t", "10"],
            ["-hls_playlist_type", "vod", "-hls_fmp4_init_filename", "init-%v.mp4", "-hls_segment_filename", "seg-%v-%03d.m4s", "-map", "0:v",
             "-map", "1:a", "-var_stream_map", "v:0,agroup:sound a:0,agroup:sound,language:en", "media-%v.m3u8"])
    both("vod", base, "va")
    package("left", [*picture("30000/1001"), "-t", "30"], ["-hls_list_size", "6", "media.m3u8"])
    with open("left/media.m3u8") as it:
        print("left: it begins at", re.search("EXT-X-MEDIA-SEQUENCE:[0-9]+", it.read())[0])
    both("left", base, "v")
    package("uneven", [*picture(24), "-t", "10", "-force_key_frames", "0,1.5,2.5,4.25,5.5,7,8"],
            ["-hls_time", "0.5", "-hls_playlist_type", "vod", "media.m3u8"])
    both("uneven", base, "v")
    for folder in ("left", "uneven") if shutil.which("gst-launch-1.0") else ():
        own, played = decoded(f"{base}{folder}/master.m3u8", "v"), in_gstreamer(f"{base}{folder}/manifest.mpd")
        print(f"{folder}: of {len(own)} frames GStreamer shows {sum(a == b for a, b in zip(own, played))} in their places")
    server.shutdown()
else:
    print("\nffmpeg isn't installed: no real files")
PY
python3 "$work/times.py" "$bridge" "$work"
