#!/usr/bin/env bash
# Refuses each allocation of `bridge` in turn: those of `hls` over one Period and over two, of `hls-index`, `dash`, `dash-times`, `show`,
# `check`, `agree` and `reload`, of `follow` over an MPD, an instant, a refused address and a reset, and of `follow-hls` and
# `follow-hls-times` over three and four rounds, of which one and two are refused. Each run ends as one whose memory is ample, with the same
# lines and the same files, or as 5, with each file a front of its text, none begun before the one in front of it is whole, and no other
# file; of what is followed, with the lines and files of the frames so far, and such fronts of the next one's. A run that does anything else
# is told, and the script's status is then 1.
#
# It wants `rt`, python3 and cc, and proves the program first where that isn't kept. glibc is taken for the C library.
set -euo pipefail
source "$(dirname "$0")/program.sh"

cc -O2 -shared -fPIC -o "$work/refuse.so" "$here/bench/refuse.c"

cat > "$work/allocations.py" <<'PY'
import itertools, os, struct, subprocess, sys, tempfile

from media import fragment, initial

bridge, library, data = sys.argv[1:]

def text(name):
    with open(os.path.join(data, name)) as it:
        return it.read()

def period(base):
    return (f'<Period duration="PT4S">{base}<AdaptationSet mimeType="video/mp4"><Representation id="v" bandwidth="1000">'
            '<SegmentTemplate initialization="i.mp4" media="s$Number$.m4s"><SegmentTimeline><S d="2"/><S d="2"/></SegmentTimeline>'
            '</SegmentTemplate></Representation></AdaptationSet></Period>')

MASTER = ('#EXTM3U\n#EXT-X-STREAM-INF:BANDWIDTH=800000,CODECS="avc1.64001f",RESOLUTION=640x360,FRAME-RATE=29.970\nv.m3u8\n')
VIDEO = ('#EXTM3U\n#EXT-X-TARGETDURATION:9\n#EXT-X-MAP:URI="i.mp4"\n#EXTINF:9.009,\ns0.m4s\n#EXTINF:9.009,\ns1.m4s\n'
         '#EXTINF:3.003,\ns2.m4s\n#EXT-X-ENDLIST\n')
INDEXED = ('<MPD xmlns="urn:mpeg:dash:schema:mpd:2011"><Period><AdaptationSet mimeType="video/mp4"><Representation id="v" bandwidth="1000">'
           '<BaseURL>f.mp4</BaseURL><SegmentBase indexRange="100-155"/></Representation></AdaptationSet></Period></MPD>')
INDEX = bytes(100) + struct.pack(">I4s12I", 56, b"sidx", 0, 1, 1000, 0, 0, 2, 1000, 2000, 9 << 28, 500, 1500, 9 << 28)
TIMED = {"m.m3u8": MASTER, "v.m3u8": VIDEO, "i.mp4": initial(90_000), "s0.m4s": fragment(900_000), "s1.m4s": fragment(1_710_810),
         "s2.m4s": fragment(2_521_620)}
TIMES = ('<MPD xmlns="urn:mpeg:dash:schema:mpd:2011"><Period duration="PT2S"><AdaptationSet mimeType="video/mp4"><Representation id="v" '
         'bandwidth="1000"><SegmentTemplate duration="1" initialization="i.mp4" media="s$Number$.m4s" startNumber="0"/></Representation>'
         '</AdaptationSet></Period></MPD>')
PERIODS = '<MPD xmlns="urn:mpeg:dash:schema:mpd:2011">' + period("") + period("<BaseURL>p2/</BaseURL>") + "</MPD>"

# What is run over which files, its line, and the files that it writes in turn.
RUNS = {
    "hls of one Period": (["hls", "m.mpd"], {"m.mpd": text("m.mpd")}, "done tracks=1 sections=1 segments=3 left-out=0\n",
                          ["out/t0.m3u8", "out/master.m3u8"]),
    "hls of two Periods": (["hls", "m.mpd"], {"m.mpd": PERIODS}, "done tracks=1 sections=2 segments=4 left-out=0\n",
                           ["out/t0.m3u8", "out/master.m3u8"]),
    "hls-index": (["hls-index", "m.mpd"], {"m.mpd": INDEXED, "f.mp4": INDEX}, "done tracks=1 sections=1 segments=2 left-out=0\n",
                  ["out/t0.m3u8", "out/master.m3u8"]),
    "dash": (["dash", "m.m3u8"], {"m.m3u8": MASTER, "v.m3u8": VIDEO}, "done tracks=1 sections=1 segments=3 left-out=0\n",
             ["out/manifest.mpd"]),
    "dash-times": (["dash-times", "m.m3u8"], TIMED, "done tracks=1 sections=1 segments=3 left-out=0\n", ["out/manifest.mpd"]),
    "agree": (["agree", "m.mpd"], {**TIMED, "m.mpd": TIMES}, "disagree section 0 track 0 segment 0\n", []),
    "show": (["show", "m.m3u8"], {"m.m3u8": MASTER, "v.m3u8": VIDEO}, "hls tracks=1 sections=1 segments=3 left-out=0\n"
             "track 0 video - section 0 segments=3 length=21.021000\n", []),
    "check": (["check", "m.mpd", "m.m3u8"], {"m.mpd": text("m.mpd"), "m.m3u8": MASTER, "v.m3u8": VIDEO},
              "differ address section 0 track 0 segment 0\n", []),
    "reload": (["reload", "v.m3u8", "v.m3u8"], {"v.m3u8": VIDEO}, "lawful kept=3 added=0 removed=0\n", []),
}
STATUS = {"check": 6, "agree": 6}

# Frames that are followed, and what is told of each.
LIVE = ('<MPD xmlns="urn:mpeg:dash:schema:mpd:2011" type="dynamic" availabilityStartTime="2024-01-01T00:00:00Z" timeShiftBufferDepth="PT12S">'
        '<Period id="p" start="PT0S"><AdaptationSet mimeType="video/mp4"><Representation id="v" bandwidth="1000"><SegmentTemplate '
        'duration="2" initialization="i.mp4" media="{}$Number$.m4s"/></Representation></AdaptationSet></Period></MPD>')
REFUSED = "http://[/"

def frame(word, second, mpd=""):
    return f"{word} 2024-01-01T00:00:{second}Z{f' {len(mpd)}' if mpd else ''}\n{mpd}"

FRAMES = [
    (frame("mpd", 20, LIVE.format("s")), "frame 0 ok appended=6\n"),
    (frame("tick", 24), "frame 1 ok appended=2\n"),
    (frame("mpd", 26, LIVE.format(REFUSED)), "frame 2 refused url 1 Refused section 0 track 0 segment 5\n"),
    (frame("tick", 26), "frame 3 ok appended=1\n"),
    (frame("reset", 30, LIVE.format("s")), "frame 4 ok appended=2\n"),
]

# Rounds of a live playlist.
def round_of(second, sequence, *segments):
    body = f'#EXTM3U\n#EXT-X-TARGETDURATION:4\n#EXT-X-MEDIA-SEQUENCE:{sequence}\n#EXT-X-MAP:URI="i.mp4"\n'
    body += "".join(f"#EXTINF:4,\n{name}.m4s\n" for name in segments)
    return f"round 2024-01-01T00:00:{second}Z {len(body)}\n{body}"

ROUNDS = [
    (round_of("20", 10, "a", "b", "c"), "frame 0 ok appended=3\n"),
    (round_of("24", 9, "z", "a", "b"), "frame 1 refused live 8 Unlawful\n"),
    (round_of("28", 12, "c", "d", "e"), "frame 2 ok appended=2\n"),
]
UNTIMED = (round_of("32", 13, "d", "e", "f"), "frame 3 refused times 11 Absent f.m4s\n")
PARTS = {"i.mp4": initial(1_000), **{f"{name}.m4s": fragment(40_000 + 4_000 * k) for k, name in enumerate("abcde")}}
FOLLOWED = {
    "follow": (["follow", "live.mpd"], {}, FRAMES, ["out/t0.m3u8"], ["out/t0.m3u8", "out/master.m3u8"]),
    "follow-hls": (["follow-hls", "m.m3u8"], {"m.m3u8": MASTER}, ROUNDS, ["out/live.mpd"], ["out/live.mpd"]),
    "follow-hls-times": (["follow-hls-times", "m.m3u8"], {"m.m3u8": MASTER, **PARTS}, [*ROUNDS, UNTIMED], ["out/live.mpd"], ["out/live.mpd"]),
}

def left(folder):
    """The files below a folder."""
    found = {}
    for at, _, names in os.walk(folder):
        for name in names:
            path = os.path.join(at, name)
            with open(path, "rb") as it:
                found[os.path.relpath(path, folder)] = it.read()
    return found

def run(words, files, refused, given=""):
    """The status and the lines, the files that are left, and whether an allocation was refused."""
    with tempfile.TemporaryDirectory() as folder:
        for name, it in files.items():
            with open(os.path.join(folder, name), "wb") as file:
                file.write(it if isinstance(it, bytes) else it.encode())
        ended = subprocess.run([bridge, *words, "--base=https://h.example/"], cwd=folder, capture_output=True, input=given.encode(),
                               env={"LD_PRELOAD": library, "REFUSED": str(refused)})
        return (ended.returncode, ended.stdout.decode(), left(folder)), ended.stderr == b"refused\n"

def gave_up(ended, whole, files, written):
    """Whether a run that ended as 5 left fronts."""
    status, line, now = ended
    begun = [name for name in written if name in now]
    return (status == 5 and line in ("out of memory\n", "") and set(now) == {*files, *begun} and begun == written[:len(begun)]
            and all(now[name] == whole[name] for name in [*files, *begun[:-1]])
            and all(whole[name].startswith(now[name]) for name in begun))

def is_begun(now, before, after, written):
    """Whether some of the files that are written in turn are whole, the next one a front of its text, and all others as before."""
    if not written:
        return now == before
    first, *later = written
    whole = {**before, first: after[first]}
    front = now.get(first)
    return (is_begun(now, whole, after, later) or now == before
            or front is not None and after[first].startswith(front) and now == {**before, first: front})

def stopped(ended, told, states, written, first):
    """Whether a run that ended as 5 left what some frames left, and fronts of the next one's files, which are others of the first one."""
    status, lines, now = ended
    lines = lines.removesuffix("out of memory\n")
    count = lines.count("\n")
    if status != 5 or lines != "".join(told[:count]):
        return False
    following = min(count + 1, len(told))
    accepted = " ok " in "".join(told[count:following])
    begun = (written if count else first) if accepted else []
    return is_begun(now, states[count], states[following], begun)

def tried(label, words, files, whole, gives_up, given=""):
    """How many runs did what they may not do, with each allocation refused in turn."""
    bad = same = fronts = 0
    for number in itertools.count(1):
        ended, was_refused = run(words, files, number, given)
        if not was_refused:
            break
        if ended == whole:
            same += 1
        elif gives_up(ended):
            fronts += 1
        else:
            bad += 1
            print(f"{label}: without allocation {number} it ends as {ended}")
    print(f"{label}: of {number - 1} allocations, each refused in turn, {fronts} end it as 5 with fronts, and {same} change nothing")
    return bad + (number == 1)

bad = 0
for label, (words, files, line, written) in RUNS.items():
    whole, _ = run(words, files, 0)
    if whole[:2] != (STATUS.get(label, 0), line) or set(whole[2]) != {*files, *written}:
        sys.exit(f"{label}: with ample memory it ends as {whole[:2]} and leaves {sorted(whole[2])}")
    bad += tried(label, words, files, whole, lambda ended: gave_up(ended, whole[2], files, written))

for label, (words, files, frames, written, first) in FOLLOWED.items():
    told = [line for _, line in frames]
    streams = ["".join(text for text, _ in frames[:count]) for count in range(len(frames) + 1)]
    ends = [run(words, files, 0, stream)[0] for stream in streams]
    for count, (status, lines, _) in enumerate(ends):
        if (status, lines.rpartition("done")[0]) != (0, "".join(told[:count])):
            sys.exit(f"{label}: with ample memory {count} frames end as {status} with {lines}")
    states = [left for _, _, left in ends]
    bad += tried(label, words, files, ends[-1], lambda ended: stopped(ended, told, states, written, first), streams[-1])
sys.exit(bad != 0)
PY
python3 "$work/allocations.py" "$bridge" "$work/refuse.so" "$here/crates/bridge/data"
