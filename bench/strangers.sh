#!/usr/bin/env bash
# Runs the bridge on files of up to 8 MB as a stranger may make them, each with as many of one thing as fit: variants, renditions, Periods,
# S that thousands of Representations share, SegmentURLs. The longest of three runs counts, with its largest memory; times are those of
# the processor. Each is to be answered within 5 seconds and 600 MB. Then MPDs with long texts of which an address keeps little, within 2
# seconds and 200 MB, and ones whose names are longer than any address, within 2 seconds and 100 MB; the time of these grows as the bytes
# that are read and written. Then `bridge follow` and `bridge follow-hls` of streams, and `bridge follow-hls-times` of media files, as a
# stranger may make them: each frame and each round within 5 seconds, and the run within 1,200 MB, but as many segments as `follow` keeps
# within 4 seconds and 1,100 MB. Then `bridge_publish` of two playlists of as many segments as fit that share none: each publication within 5 seconds and 300 MB.
#
# It wants `rt` and python3, and proves the programs first where they aren't kept. BRIDGE and PUBLISH name others.
set -euo pipefail
source "$(dirname "$0")/program.sh"
publish=$(realpath -m "${PUBLISH:-$here/crates/bridge_publish/out/bridge_publish}")
[ -n "${PUBLISH:-}" ] || (cd "$here/crates/bridge_publish" && rt run -- none none > "$work/build.log" 2>&1 || true)
[ -x "$publish" ] || { tail "$work/build.log"; exit 1; }

cat > "$work/strangers.py" <<'PY'
import datetime, os, shutil, sys

from measure import answers, framed, processed
from media import box, fragment, initial, put

bridge, publish, work = sys.argv[1:]
os.chdir(work)
MEDIA = '#EXTM3U\n#EXT-X-TARGETDURATION:4\n#EXT-X-MAP:URI="i.mp4"\n#EXTINF:4,\ns.m4s\n#EXT-X-ENDLIST\n'
BASE = "https://h.example/"
LONG_BASE = BASE + "f" * 1_900 + "/"

def file(name, *parts):
    with open(name, "w") as it:
        it.writelines(parts)
    return name

def master(name, lines):
    return file(name, "#EXTM3U\n", *lines)

def mpd(name, inside, attributes="", set_attributes=' mimeType="video/mp4"'):
    return file(name, f'<MPD xmlns="urn:mpeg:dash:schema:mpd:2011"{attributes}>', *inside, "</MPD>")

def set_of(segments, count):
    return ['<Period><AdaptationSet mimeType="video/mp4">', *segments, *(f'<Representation id="{k}" bandwidth="1"/>' for k in range(count)),
            "</AdaptationSet></Period>"]

VARIANT = "#EXT-X-STREAM-INF:BANDWIDTH=1\nv%06d\n"
RENDITION = '#EXT-X-MEDIA:TYPE=AUDIO,GROUP-ID="g",NAME="%06d",URI="%06d"\n'
for k in range(200):
    file("v%06d" % k, MEDIA)

rows = [
    ("show", master("variants.m3u8", (VARIANT % (k % 200) for k in range(200_000))), BASE, "200,000 variants of 200 addresses"),
    ("show", master("addresses.m3u8", (VARIANT % k for k in range(200_000))), LONG_BASE, "200,000 variants of as many addresses, below a base of 1.9 kB"),
    ("show", master("renditions.m3u8", (RENDITION % (k, k) for k in range(130_000))), BASE, "130,000 renditions"),
    ("hls", mpd("starts.mpd", ('<Period start="PT%dS"/>' % k for k in range(300_000))), BASE, "300,000 Periods with starts"),
    ("hls", mpd("ids.mpd", ('<Period id="%06d"/>' % k for k in range(360_000)), ' type="dynamic" availabilityStartTime="2024-01-01T00:00:00Z"'), BASE,
     "360,000 Periods with ids"),
    ("hls", mpd("shared.mpd", set_of(['<SegmentTemplate initialization="i" media="$Number$"><SegmentTimeline>', *['<S d="1"/>'] * 700_000,
                                      "</SegmentTimeline></SegmentTemplate>"], 9_000)), BASE, "700,000 S that 9,000 Representations share"),
    ("hls", mpd("list.mpd", set_of(['<SegmentList duration="1"><Initialization sourceURL="i"/>', *['<SegmentURL media="s"/>'] * 330_000, "</SegmentList>"], 9_000),
                ' mediaPresentationDuration="PT330000S"'), BASE, "330,000 SegmentURLs that 9,000 Representations share"),
]

def lasting(seconds):
    return f' mediaPresentationDuration="PT{seconds}S"'

def template(media, initialization="i"):
    return f'<SegmentTemplate duration="1" initialization="{initialization}" media="{media}"/>'

def named(name, media, identity="0"):
    """100,000 segments of one Representation."""
    return mpd(name, ['<Period><AdaptationSet mimeType="video/mp4">', template(media), f'<Representation id="{identity}" bandwidth="1"/>',
                      "</AdaptationSet></Period>"], lasting(100_000))

def under(name, periods, tracks, bases, inside):
    """Periods of 1 s, with a BaseURL at the MPD, at each Period and at each set, where there is one."""
    url = ["<BaseURL>" + base + "</BaseURL>" if base else "" for base in bases]
    period = '<Period duration="PT1S">' + url[1] + '<AdaptationSet mimeType="video/mp4">' + url[2] + inside + "".join(
        f'<Representation id="{k}" bandwidth="1"/>' for k in range(tracks)) + "</AdaptationSet></Period>"
    return mpd(name, [url[0], *[period] * periods])

def turns(name, media, initialization="i"):
    """200 sets of a Period, of which every other one has a template of its own."""
    own = template("x$Number$", "y")
    return mpd(name, ['<Period duration="PT1S">', template(media, initialization), *(
        f'<AdaptationSet mimeType="video/mp4">{own if k % 2 else ""}<Representation id="{k}" bandwidth="1"/></AdaptationSet>'
        for k in range(200)), "</Period>"])

UP = "a/../"
# Each as a function of its size in quarters.
long = [
    ("hls", lambda k: named("bandwidths.mpd", "$Number$" + "$Bandwidth$" * (450 * k)), BASE,
     "1,800 `$Bandwidth$` in a name, 100,000 segments"),
    ("hls", lambda k: named("empty.mpd", "$RepresentationID$" * (2_000 * k) + "$Number$", ""), BASE,
     "8,000 `$RepresentationID$` of no byte, 100,000 segments"),
    ("hls", lambda k: named("empties.mpd", "$RepresentationID$" * (107_500 * k) + "$Number$", ""), BASE, "430,000 of them"),
    ("hls", lambda k: named("up.mpd", UP * (3_950 * k) + "$Number$"), BASE, "15,800 `a/../` in a template, 100,000 segments"),
    ("hls", lambda k: under("initialization.mpd", 1, 200, ("", "", ""), template("$Number$", UP * (395_000 * k) + "i")), BASE,
     "an initialization address of 7.9 MB of `a/../`, 200 Representations"),
    ("hls", lambda k: under("base.mpd", 1, 200, (UP * (395_000 * k), "", ""), template("$Number$")), BASE,
     "a BaseURL of 7.9 MB of `a/../`, 200 Representations"),
    ("hls", lambda k: under("encoded.mpd", 1, 200, ("a/%2e%2e/" * (217_500 * k), "", ""), template("$Number$")), BASE,
     "one of 7.8 MB of `a/%2e%2e/`"),
    ("hls", lambda k: under("lines.mpd", 1, 22_500 * k, ("\n" * (1_000_000 * k), "", ""), template("$Number$")), BASE,
     "a BaseURL of 4,000,000 line ends, 90,000 Representations"),
    ("hls", lambda k: under("media.mpd", 1, 200, ("", "", ""), template(UP * (375_000 * k) + "$RepresentationID$/$Number$")), BASE,
     "7.5 MB of `a/../` in a template that 200 Representations share"),
    ("hls", lambda k: under("media_behind.mpd", 1, 200, ("", "", ""), template("$Number$/" + UP * (375_000 * k) + "$RepresentationID$")), BASE,
     "7.5 MB of it behind a number"),
    ("hls", lambda k: under("media_tabs.mpd", 1, 200, ("", "", ""), template("&#9;" * (375_000 * k) + "$RepresentationID$/$Number$")), BASE,
     "1,500,000 tabs in a template that 200 Representations share"),
    ("hls", lambda k: turns("turns_up.mpd", UP * (375_000 * k) + "$Number$"), BASE,
     "7.5 MB of `a/../` in the template of a Period that every other one of 200 sets overrides"),
    ("hls", lambda k: turns("turns_init.mpd", "$Number$", UP * (375_000 * k) + "i"), BASE,
     "7.5 MB of it in `initialization` there"),
    ("hls", lambda k: under("levels.mpd", 249 * k - 1, 190, (UP * 400, UP * 74, UP * 74), template("$Number$")), BASE,
     "995 Periods of 190 Representations, below BaseURLs at three levels"),
    ("hls", lambda k: named("tabs.mpd", "&#9;" * (19_750 * k) + "$Number$"), BASE, "79,000 tabs before a number, 100,000 segments"),
    ("hls", lambda k: named("tabs_behind.mpd", "$Number$" + "&#9;" * (19_750 * k)), BASE, "79,000 tabs behind a number, 100,000 segments"),
    ("hls", lambda k: named("up_behind.mpd", "$Number$/../" + UP * (3_950 * k) + "x"), BASE,
     "15,800 `a/../` behind a number, 100,000 segments"),
    ("hls", lambda k: named("up_between.mpd", "$Number$/" + UP * (3_950 * k) + "x$Number$"), BASE,
     "15,800 `a/../` between two numbers, 100,000 segments"),
    ("hls", lambda k: named("absolute.mpd", BASE + UP * (3_950 * k) + "$Number$"), BASE, "15,800 `a/../` behind a host, 100,000 segments"),
    ("hls", lambda k: named("root.mpd", "/" + UP * (3_950 * k) + "$Number$"), BASE, "15,800 `a/../` behind a slash, 100,000 segments"),
    ("hls", lambda k: mpd("urls.mpd", set_of(['<SegmentList duration="1"><Initialization sourceURL="i"/>',
                                              *(f'<SegmentURL media="{UP * 640}s{n}"/>' for n in range(625 * k)), "</SegmentList>"], 200),
                          lasting(625 * k)), BASE, "2,500 SegmentURLs of 3.2 kB of `a/../` that 200 Representations share"),
    ("reload turns.m3u8", lambda k: file("turns.m3u8", "#EXTM3U\n#EXT-X-TARGETDURATION:4\n", *(
        f'#EXT-X-MAP:URI="{n % 2}"\n#EXTINF:4,\ns\n' for n in range(25_000 * k))), LONG_BASE,
     "two init segments by turns before 100,000 segments, in both playlists, below a base of 1.9 kB"),
]
LONG_ID = "i" * 100_000
short = [
    ("hls", lambda k: named("id.mpd", "$RepresentationID$" * (2_500 * k) + "$Number$", LONG_ID), BASE,
     "an id of 100 kB, 10,000 times in a template"),
    ("hls", lambda k: mpd("init_id.mpd", ['<Period><AdaptationSet mimeType="video/mp4">',
                                          template("$Number$", "$RepresentationID$" * (2_500 * k)),
                                          f'<Representation id="{LONG_ID}" bandwidth="1"/>', "</AdaptationSet></Period>"], lasting(1)), BASE,
     "an id of 100 kB, 10,000 times in the name of an init segment"),
    ("hls", lambda k: under("dollars.mpd", 1, 200, ("", "", ""), template("$$" * (62_500 * k) + "$Number$")), BASE,
     "250,000 `$$` in a template that 200 Representations share"),
]

def judge(rows, most_seconds, most_megabytes):
    print("| file | MB | answer | s | MB of memory |\n|---|---|---|---|---|")
    for command, name, base, what in rows:
        size = os.path.getsize(name)
        assert size <= 8_388_608, (name, size)
        seconds, megabytes, answer = answers([bridge, *command.split(), name, f"--base={base}"])
        print(f"| {what} | {size / 1e6:.1f} | `{answer}` | {seconds:.2f} | {megabytes:.0f} |", flush=True)
        assert seconds <= most_seconds and megabytes <= most_megabytes, what
    print()

def cost(command, name, base):
    """The least time of a processor of three runs, and how many bytes are read and written."""
    out = [f"--out={name}.out"] if command == "hls" else []
    shutil.rmtree(f"{name}.out", ignore_errors=True)
    seconds = min(processed([bridge, *command.split(), name, f"--base={base}", *out])[0] for _ in range(3))
    written = sum(entry.stat().st_size for entry in os.scandir(f"{name}.out")) if os.path.isdir(f"{name}.out") else 0
    shutil.rmtree(f"{name}.out", ignore_errors=True)
    return seconds, os.path.getsize(name) + written

def grows(rows):
    """Each row at a quarter of its size and at the whole: the time grows as the bytes that are read and written, but for caches at most
    by twice as much. Where each byte cost as many more it would be four times."""
    print("| file | MB read and written, a quarter and the whole | s |\n|---|---|---|")
    for command, made, base, what in rows:
        (short, few), (whole, many) = (cost(command, made(k), base) for k in (1, 4))
        print(f"| {what} | {few / 1e6:.1f}, {many / 1e6:.1f} | {short:.3f}, {whole:.3f} |", flush=True)
        assert whole <= 2 * short * max(1, many / few) + 0.05, what
    print()

labels = ['<Period><AdaptationSet mimeType="audio/mp4"><Label>' + "l" * 255 + "</Label>", template("$Number$"),
          *(f'<Representation id="{k}" bandwidth="1"/>' for k in range(180_000)), "</AdaptationSet></Period>"]
rows.append(("hls --form=players", mpd("labels.mpd", labels, lasting(1)), BASE, "180,000 Representations of a set with a Label of 255 bytes"))
rows.append(("hls --addresses=relative", named("beside.mpd", "d" * 1_950 + "/$Number$"), BASE,
             "100,000 segments of which each has a relative URL of 2 kB"))
judge(rows, 5, 600)
for each, megabytes in ((long, 200), (short, 100)):
    judge([(command, made(4), base, what) for command, made, base, what in each], 2, megabytes)
grows(long + short)

START = datetime.datetime(2024, 1, 1)
LIVE = '<MPD xmlns="urn:mpeg:dash:schema:mpd:2011" type="dynamic" availabilityStartTime="2024-01-01T00:00:00Z"{}>{}</MPD>'
TEMPLATE = '<SegmentTemplate{} initialization="i" media="$Number$"'

def instant(seconds):
    return (START + datetime.timedelta(seconds=seconds)).strftime("%Y-%m-%dT%H:%M:%SZ")

def stream(name, frames):
    """A stream of instants in seconds, each with an MPD, or none."""
    def parts():
        for seconds, text in frames:
            yield f"mpd {instant(seconds)} {len(text)}\n{text}" if text else f"tick {instant(seconds)}\n"
    return file(name, *parts())

def depth(seconds):
    return f' timeShiftBufferDepth="PT{seconds}S"'

def live(attributes, start, identity, segments, tracks):
    """A live MPD of one Period."""
    return LIVE.format(attributes, f'<Period id="{identity}" start="PT{start}S">' + "".join(set_of(segments, tracks))[len("<Period>"):])

def many(seconds, count, inside, initialization="i", tracks=1, listed=None):
    """So many Periods from an instant on, of 2 s each, of which so many are listed."""
    each = set_of([TEMPLATE.replace('"i"', f'"{initialization}"').format(' duration="2"') + "/>"], tracks)
    return LIVE.format(depth(2 * (listed or count)), "".join(
        f'<Period id="{identity}" start="PT{seconds + 2 * k}S" duration="PT2S">' + "".join(each)[len("<Period>"):] for k, identity in enumerate(inside)))

entries = [TEMPLATE.format(' timescale="1000"') + "><SegmentTimeline>", *['<S d="1999"/><S d="2001"/>'] * 300_000, "</SegmentTimeline></SegmentTemplate>"]
timeline = live(depth(60), 0, "p", entries, 1)
shared = live(depth(4_000), 0, "p", entries, 190)
numbered = [TEMPLATE.format(' duration="2"').replace("$Number$", "f" * 100 + "$Number%09d$") + "/>"]
numbers = live(depth(10_000), 0, "p", numbered, 20)
most = live(depth(40_000), 0, "p", numbered, 25)
alike = "i" * 8_000
kept = "i" * 1_000 + "$RepresentationID$"
streams = [
    (stream("frames", [(1_000_000 + 2 * k, None if k % 2 else timeline) for k in range(10)]), BASE, "10 frames, by turns 600,000 S and an instant"),
    (stream("periods", [(2_000 * (k + 1), many(2_000 * k, 1_000, range(1_000 * k, 1_000 * (k + 1)))) for k in range(20)]), BASE,
     "20 frames of 1,000 Periods that no other has"),
    (stream("known", [(1_600 * (k + 1), many(1_600 * k, 800, range(800 * k, 800 * (k + 1)), kept, 200, 1)) for k in range(6)]), BASE,
     "6 frames of 800 Periods that no other has, with 200 tracks, each with an initialization address of 1 kB"),
    (stream("tracks", [(1_000_000, shared), (1_000_002, None), (1_000_004, shared)]), BASE, "600,000 S that 190 tracks share, 2,000 segments kept of each"),
    (stream("alike", [(2_000 + 2 * k, many(0, 1_000, (f"{alike}{place}" for place in range(1_000)))) for k in range(3)]), BASE,
     "1,000 Periods with ids of 8 kB that begin alike, three times"),
    (stream("addresses", [(100_000, numbers), (100_002, None), (100_004, numbers)]), LONG_BASE, "100,000 segments kept, with addresses of 2 kB"),
]
limits = {"most": (4, 1_100)}
def rounds(name, texts):
    """A stream of rounds, each the playlists of all tracks."""
    def parts():
        for k, bodies in enumerate(texts):
            yield f"round {instant(2 * k)} {' '.join(str(len(body)) for body in bodies)}\n"
            yield from bodies
    return file(name, *parts())

def playlist(sequence, count, address, more=""):
    """A live playlist of so many segments."""
    head = f'#EXTM3U\n#EXT-X-TARGETDURATION:2\n#EXT-X-MEDIA-SEQUENCE:{sequence}\n#EXT-X-MAP:URI="i.mp4"\n'
    return head + more + "".join(f"#EXTINF:2,\n{address}{sequence + k}.m4s\n" for k in range(count))

def sections(count):
    """One of so many sections with a segment each."""
    return '#EXTM3U\n#EXT-X-TARGETDURATION:2\n#EXT-X-MAP:URI="i.mp4"\n' + "".join(
        f"#EXTINF:2,\ns{k}.m4s\n#EXT-X-DISCONTINUITY\n" for k in range(count - 1)) + f"#EXTINF:2,\ns{count - 1}.m4s\n"

file("one.m3u8", "#EXTM3U\n", VARIANT % 0)
master("five.m3u8", (VARIANT % k for k in range(5)))
master("many.m3u8", (VARIANT % k for k in range(200)))
padded = "#" + "p" * 331_000 + "\n"
large = "f" * 60
hls = [
    (rounds("bodies", ([playlist(k, 6, "s", padded if k % 2 else "") for _ in range(200)] for k in range(8))), "many.m3u8",
     "200 tracks, by turns 67 MB of comments and 40 kB"),
    (rounds("listed", ([playlist(k, 2_500, large) for _ in range(200)] for k in range(3))), "many.m3u8",
     "200 tracks of 2,500 segments each, three times"),
    (rounds("long", ([playlist(k, 100_000, large)] for k in range(3))), "one.m3u8", "a track of 100,000 segments, three times"),
    (rounds("sections", ([sections(1_000) for _ in range(200)] for k in range(3))), "many.m3u8", "200 tracks of 1,000 sections, three times"),
]

# Media files of 8 MB and more that a list of one or many segments names, each beside an ordinary init segment or segment.
EIGHT = 8_388_608
TINY = box(b"free")
media = {
    "i.mp4": initial(1_000),
    "huge.mp4": box(b"moov", box(b"free", bytes(EIGHT)), initial(1_000)[8:]),
    "tiny.m4s": TINY * (EIGHT // 8 - 8) + fragment(0),
    "inside.m4s": fragment(0, *[TINY] * (EIGHT // 8 - 16)),
    "far.m4s": TINY * 131_000 + fragment(0),
    "near.m4s": TINY * ((536_870_912 // 500_001 - len(fragment(0))) // 8) + fragment(0) + box(b"mdat", bytes(EIGHT)),
    "cut.m4s": box(b"moof", bytes(EIGHT))[:65_600],
    "ranges.mp4": b"".join(fragment(2_000 * k) for k in range(100_000)),
}
for name, content in media.items():
    put(name, content)
LONG = len(fragment(0))

def listed(segments, initialization="i.mp4"):
    """A playlist whose segments are these lines."""
    return f'#EXTM3U\n#EXT-X-VERSION:6\n#EXT-X-TARGETDURATION:2\n#EXT-X-MAP:URI="{initialization}"\n' + "".join(
        f"#EXTINF:2,\n{segment}\n" for segment in segments)

def files(name, segments, initialization="i.mp4"):
    """A stream of one round of such a playlist."""
    return rounds(name, [[listed(segments, initialization)]])

def ranged(count, length, first=0):
    """So many segments of one file, each of so many bytes."""
    return (f"#EXT-X-BYTERANGE:{length}@{first + LONG * k}\nranges.mp4" for k in range(count))

times = [
    (files("tiny", ["tiny.m4s"]), "a segment of a million boxes of 8 bytes before its moof"),
    (files("inside", ["inside.m4s"]), "a segment whose moof has a million boxes of 8 bytes"),
    (files("far", ["far.m4s"] * 100_000), "100,000 segments, each with 131,000 boxes of 8 bytes before its moof"),
    (files("huge", ["ranges.mp4"], "huge.mp4"), "an init segment whose moov has 8 MB"),
    (files("cut", ["cut.m4s"]), "a moof of 8 MB that is cut off"),
    (files("over", ranged(1, 100, LONG * 100_000)), "a range that begins at its file's end"),
    (files("ranges", ranged(100_000, LONG)), "100,000 segments that are ranges of a file"),
    (files("rest", ranged(100_000, EIGHT)), "the same, each range with 8 MB, most of them to the file's end"),
]

streams.append((stream("most", [(100_000, most), (100_002, None), (100_004, most)]), LONG_BASE,
                "as many segments kept as may be, 25 tracks of 20,000, with addresses of 2 kB"))
streams = [(name, ["follow", "live.mpd"], base, what) for name, base, what in streams]
streams += [(name, ["follow-hls", master], BASE, what) for name, master, what in hls]
streams.append((rounds("widest", ([playlist(k, 2_500, "f") for _ in range(200)] for k in range(3))), ["follow-hls", "many.m3u8"], LONG_BASE,
                "200 tracks of 2,500 segments each, three times, below a base of 1.9 kB"))
streams += [(name, ["follow-hls-times", "one.m3u8"], BASE, what) for name, what in times]
streams += [(rounds("near", [[listed(["near.m4s"] * 100_000)] * 5]), ["follow-hls-times", "five.m3u8"], BASE,
             "5 tracks of 100,000 segments, each with so many boxes before its moof that all need just less than they may, of files of 8 MB")]
print("| stream | MB | last line | s, the longest frame | MB of memory |\n|---|---|---|---|---|")
for name, words, base, what in streams:
    seconds, megabytes, last = framed(name, [bridge, *words, f"--base={base}"])
    print(f"| {what} | {os.path.getsize(name) / 1e6:.1f} | `{last}` | {seconds:.2f} | {megabytes:.0f} |")
    most_seconds, most_megabytes = limits.get(name, (5, 1_200))
    assert seconds <= most_seconds and megabytes <= most_megabytes, what

def followed(folder, name, first, seconds):
    """A folder with a followed playlist of 85,000 segments, each dated so much later than the one before."""
    os.mkdir(folder)
    master(f"{folder}/master.m3u8", ['#EXT-X-VERSION:6\n#EXT-X-STREAM-INF:BANDWIDTH=1000,CODECS="avc1.42c01e"\nt0.m3u8\n'])
    return file(f"{folder}/t0.m3u8", "#EXTM3U\n#EXT-X-VERSION:6\n#EXT-X-TARGETDURATION:2\n#EXT-X-MEDIA-SEQUENCE:0\n"
                '#EXT-X-DISCONTINUITY-SEQUENCE:0\n#EXT-X-MAP:URI="https://h.e/i.mp4"\n',
                *(f"#EXT-X-PROGRAM-DATE-TIME:{instant(first + seconds * k)[:-1]}.000Z\n#EXTINF:2.000000,\nhttps://h.e/{name}{k}.m4s\n"
                  for k in range(85_000)))

print("\n| served and new playlist | MB | answer | s | MB of memory |\n|---|---|---|---|---|")
for seconds, what in ((2, "85,000 segments each that share none"), (0, "the same, all of one date")):
    size = max(os.path.getsize(followed(f"{folder}{seconds}", folder, first, seconds))
               for folder, first in (("served", 0), ("run", 85_000 * seconds)))
    took, megabytes, answer = answers([publish, f"run{seconds}", f"served{seconds}"])
    print(f"| {what} | {size / 1e6:.1f} | `{answer}` | {took:.2f} | {megabytes:.0f} |", flush=True)
    assert size <= 8_388_608 and took <= 5 and megabytes <= 300, what
PY
python3 "$work/strangers.py" "$bridge" "$publish" "$work"
