#!/usr/bin/env bash
# publish.sh [<fault>..]: plays live playlists that `examples/follow.sh` and `examples/live-now.sh` publish while something fails, in ffmpeg
# and in GStreamer's hlsdemux2, from nginx. ffmpeg is the packager: live DASH, 2 s a segment, 25 frames a second, each with its number drawn
# into it. For each fault it tells which frames each player showed, as runs of numbers, GStreamer's waits above 0.5 s, and how many of the
# published versions `bridge reload` calls lawful: all have to be. Then it times a publication of six tracks of 30 segments, with the files
# on the disk and in memory (/dev/shm).
#
# Faults: bridge, script, now, packager, names, end, outage; all of them, side by side, where none is named. BRIDGE and PUBLISH name the
# programs; otherwise those of the last `rt ci`. It wants ffmpeg, nginx, curl, python3, and plays in GStreamer where it is installed. It
# ends with 1 where a published version isn't lawful, or a player shows nothing of what came after the fault.
set -euo pipefail
here=$(cd "$(dirname "$0")/.." && pwd)
work=$(mktemp -d)
trap 'rm -rf "$work"' EXIT
mkdir "$work/bin"
ln -s "$(realpath "${BRIDGE:-$here/crates/bridge/out/bridge}")" "$work/bin/bridge"
ln -s "$(realpath "${PUBLISH:-$here/crates/bridge_publish/out/bridge_publish}")" "$work/bin/bridge_publish"
export PATH=$work/bin:/usr/sbin:$PATH

cat > "$work/publish.py" <<'PY'
import os, re, shutil, signal, socket, subprocess, sys, tempfile, threading, time

work, examples, *asked = sys.argv[1:]
WIDTH, HEIGHT, RATE, BITS = 320, 180, 25, 12
AGAIN = 2000  # the number of the first frame of a packager that begins again
FAULT, END = 20, 62  # seconds from the players' start to the fault, and to the end

# ---- processes

running = []

def start(words, **more):
    more = {"stdin": subprocess.DEVNULL, "stdout": subprocess.DEVNULL, "stderr": subprocess.DEVNULL, **more}
    process = subprocess.Popen(words, start_new_session=True, **more)
    running.append(process)
    return process

def stop(process, how=signal.SIGKILL, group=True):
    try:
        (os.killpg if group else os.kill)(process.pid, how)
    except ProcessLookupError:
        pass
    try:
        process.wait(10)
    except subprocess.TimeoutExpired:
        os.killpg(process.pid, signal.SIGKILL)
        process.wait()

# ---- the packager, the origin, the players

def numbered(first):
    """A picture with the number of each frame as white and black boxes at its top, from its lowest digit on."""
    side = WIDTH // BITS
    boxes = [f"drawbox=x={b * side}:w={side}:h=20:t=fill:color=white:enable=gte(mod(floor((n+{first})/{2 ** b})\\,2)\\,1)"
             for b in range(BITS)]
    return f"testsrc2=size={WIDTH}x{HEIGHT}:rate={RATE},drawbox=w={WIDTH}:h=20:t=fill:color=black," + ",".join(boxes)

def packager(folder, first=0, names=""):
    return start(["ffmpeg", "-v", "error", "-y", "-re", "-f", "lavfi", "-i", numbered(first), "-re", "-f", "lavfi", "-i", "sine=r=48000",
        "-map", "0:v", "-map", "1:a", "-c:v", "libx264", "-preset", "ultrafast", "-pix_fmt", "yuv420p", "-g", "50", "-sc_threshold", "0",
        "-threads", "1", "-c:a", "aac", "-f", "dash", "-seg_duration", "2", "-window_size", "6", "-extra_window_size", "6",
        "-init_seg_name", names + "init-$RepresentationID$.m4s", "-media_seg_name", names + "chunk-$RepresentationID$-$Number%05d$.m4s",
        "live.mpd"], cwd=folder, stdin=subprocess.PIPE)

def numbers(process, seen):
    """The number of each frame that a player gives, and when."""
    size, side = WIDTH * 20, WIDTH // BITS
    while len(frame := process.stdout.read(size)) == size:
        seen.append((sum((frame[10 * WIDTH + b * side + side // 2] > 127) << b for b in range(BITS)), time.time()))

def in_ffmpeg(url):
    return ["ffmpeg", "-v", "error", "-i", url, "-map", "0:v:0", "-vf", f"crop={WIDTH}:20:0:0,format=gray", "-fps_mode", "passthrough",
            "-flush_packets", "1", "-f", "rawvideo", "-"]

def in_gstreamer(url):
    return ["gst-launch-1.0", "-q", "uridecodebin3", f"uri={url}", "name=d", "d.", "!", "queue", "!", "videoconvert", "!", "videocrop",
            f"bottom={HEIGHT - 20}", "!", "video/x-raw,format=GRAY8", "!", "fdsink", "sync=true", "d.", "!", "queue", "!",
            "audio/x-raw", "!", "fakesink", "sync=true"]

PLAYERS = [(name, words) for name, program, words in
           [("ffmpeg", "ffmpeg", in_ffmpeg), ("GStreamer", "gst-launch-1.0", in_gstreamer)] if shutil.which(program)]

class Watch(threading.Thread):
    """Keeps each version of the served playlists."""
    def __init__(self, folder):
        super().__init__(daemon=True)
        self.folder, self.versions, self.go = folder, {}, True

    def run(self):
        while self.go:
            for name in os.listdir(self.folder) if os.path.isdir(self.folder) else []:
                if re.fullmatch(r"t\d+\.m3u8", name):
                    with open(f"{self.folder}/{name}", "rb") as it:
                        text = it.read()
                    kept = self.versions.setdefault(name, [])
                    if not kept or kept[-1] != text:
                        kept.append(text)
            time.sleep(0.02)

    def reloads(self, folder):
        """How many of the versions took another's place, and how many of them unlawfully."""
        count = unlawful = 0
        for name, kept in self.versions.items():
            for old, new in zip(kept, kept[1:]):
                for file, text in (("old.m3u8", old), ("new.m3u8", new)):
                    with open(f"{folder}/{file}", "wb") as it:
                        it.write(text)
                told = subprocess.run(["bridge", "reload", "old.m3u8", "new.m3u8", f"--base={base}"], cwd=folder, capture_output=True)
                count, unlawful = count + 1, unlawful + (told.returncode != 0)
        return count, unlawful

# ---- faults

class Channel:
    def __init__(self, fault):
        self.fault, self.folder = fault, f"{work}/site/{fault}"
        os.makedirs(self.folder)
        self.base = f"{base}{fault}/"
        self.packager = packager(self.folder)
        until(lambda: os.path.exists(f"{self.folder}/live.mpd"))
        self.log = open(f"{work}/{fault}.log", "w")
        self.follow()

    def follow(self):
        script = "live-now.sh" if self.fault == "now" else "follow.sh"
        self.script = start([f"{examples}/{script}", self.base, "live.mpd", "hls", "1"], cwd=self.folder, stdout=self.log, stderr=self.log)

    def children(self, name):
        found = subprocess.run(["pgrep", "-P", str(self.script.pid), name], capture_output=True, text=True).stdout
        return [int(pid) for pid in found.split()]

    def bridge(self):
        for pid in self.children("bridge"):
            os.kill(pid, signal.SIGKILL)

    def script_and_bridge(self):
        stop(self.script)
        time.sleep(4)
        self.follow()

    def now(self):
        """No run at all: nothing has to fail."""

    def again(self, names=""):
        time.sleep(8)
        self.packager = packager(self.folder, AGAIN, names)

    def killed(self):
        stop(self.packager)
        self.again("again-")

    def names(self):
        stop(self.packager)
        self.again()

    def end(self):
        self.packager.stdin.write(b"q")
        self.packager.stdin.flush()
        self.packager.wait(10)
        self.again("again-")

    def outage(self):
        open(f"{self.folder}/down", "w").close()
        time.sleep(24)
        os.remove(f"{self.folder}/down")

FAULTS = {
    "bridge": ("kill -9 of the bridge", Channel.bridge),
    "script": ("script and bridge killed, 4 s", Channel.script_and_bridge),
    "now": ("live-now.sh, no run at all", Channel.now),
    "packager": ("packager killed, 8 s, other names", Channel.killed),
    "names": ("packager killed, 8 s, the same names", Channel.names),
    "end": ("orderly end, 8 s, again", Channel.end),
    "outage": ("no MPD for 24 s", Channel.outage),
}

def until(holds, seconds=60):
    for _ in range(seconds * 20):
        if holds():
            return
        time.sleep(0.05)
    raise SystemExit("it takes too long to begin")

def runs(seen):
    """The numbers as runs of frames that follow one another."""
    found = []
    for number, _ in seen:
        if found and number == found[-1][1] + 1:
            found[-1][1] = number
        else:
            found.append([number, number])
    return [f"{first}..{last}" for first, last in found]

def waits(seen):
    return [round(after - before, 1) for (_, before), (_, after) in zip(seen, seen[1:]) if after - before > 0.5]

def tried(fault):
    told, fail = FAULTS[fault]
    channel = Channel(fault)
    watch = Watch(f"{channel.folder}/hls")
    watch.start()
    until(lambda: os.path.exists(f"{channel.folder}/hls/master.m3u8"))
    time.sleep(6)
    players = []
    for name, words in PLAYERS:
        seen = []
        player = start(words(f"{channel.base}hls/master.m3u8"), stdout=subprocess.PIPE,
                       env={**os.environ, "GST_PLUGIN_FEATURE_RANK": "hlsdemux:0,hlsdemux2:512"})
        threading.Thread(target=numbers, args=(player, seen), daemon=True).start()
        players.append((name, player, seen))
    time.sleep(FAULT)
    failed = time.time()
    last = {name: seen[-1][0] if seen else 0 for name, _, seen in players}
    fail(channel)
    time.sleep(END - FAULT)
    for _, player, _ in players:
        stop(player)
    stop(channel.script, signal.SIGTERM, group=False)
    stop(channel.packager)
    watch.go = False
    count, unlawful = watch.reloads(channel.folder)
    good = not unlawful
    for name, _, seen in players:
        shown = list(seen)
        after = [number for number, when in shown if when > failed + 15 and number > last[name]]
        good = good and bool(after)
        pause = f"; waits {waits(shown)}" if name == "GStreamer" else ""
        rows.append(f"| {told} | {name} | {len(shown)} frames: {', '.join(runs(shown)[:12])}{pause} |")
    rows.append(f"| {told} | reloads | {count - unlawful} of {count} lawful; the script ended with {channel.script.returncode} |")
    print("\n".join(rows[-len(players) - 1:]), flush=True)
    rows.extend([] if good else ["BAD"])

# ---- a publication's time

def mpd(first):
    sets = "".join(f'<AdaptationSet mimeType="{mime}"><Representation id="{mime[0]}{k}" bandwidth="{k + 1}000" codecs="{codecs}"/>'
                   "</AdaptationSet>" for k in range(3) for mime, codecs in (("video/mp4", "avc1.42c01e"), ("audio/mp4", "mp4a.40.2")))
    sets = sets.replace("/></AdaptationSet>", '><SegmentTemplate timescale="1" initialization="$RepresentationID$/i.mp4" '
        f'media="$RepresentationID$/s$Time$.m4s"><SegmentTimeline><S t="{2 * first}" d="2" r="29"/></SegmentTimeline></SegmentTemplate>'
        "</Representation></AdaptationSet>")
    return ('<MPD xmlns="urn:mpeg:dash:schema:mpd:2011" type="dynamic" availabilityStartTime="2024-01-01T00:00:00Z" '
            f'timeShiftBufferDepth="PT60S"><Period id="p" start="PT0S">{sets}</Period></MPD>').encode()

def timed(folder, where):
    """Milliseconds of publications of one more segment in each of six tracks of 30, from the process's start to its end."""
    os.makedirs(folder)
    frames = b""
    for first, instant in ((0, "2024-01-01T00:01:00Z"), (1, "2024-01-01T00:01:02Z")):
        frames += b"mpd %s %d\n%s" % (instant.encode(), len(mpd(first)), mpd(first))
        told = subprocess.run(["bridge", "follow", "m.mpd", "--base=https://h.example/", f"--out=run{first}"], cwd=folder, input=frames,
                              capture_output=True)
        assert told.returncode == 0, told
    took = []
    for _ in range(200):
        shutil.rmtree(f"{folder}/served", ignore_errors=True)
        shutil.copytree(f"{folder}/run0", f"{folder}/served")
        began = time.perf_counter()
        told = subprocess.run(["bridge_publish", "run1", "served"], cwd=folder, capture_output=True)
        took.append(1000 * (time.perf_counter() - began))
        assert told.stdout.startswith(b"joined appended=6 "), told
    bare = []
    for _ in range(200):
        began = time.perf_counter()
        subprocess.run(["true"], cwd=folder, capture_output=True)
        bare.append(1000 * (time.perf_counter() - began))
    middle = lambda values: sorted(values)[len(values) // 2]
    print(f"| six tracks of 30 segments, {where} | {middle(took):.1f} ms, of which {middle(bare):.1f} start a process that does nothing |")

# ---- all

with socket.socket() as probe:
    probe.bind(("127.0.0.1", 0))
    port = probe.getsockname()[1]
base = f"http://127.0.0.1:{port}/"
os.makedirs(f"{work}/site")
with open(f"{work}/nginx.conf", "w") as it:
    it.write(f"""daemon off; worker_processes 1; pid nginx.pid; error_log stderr crit; {'user root;' if os.getuid() == 0 else ''}
events {{}}
http {{
    types {{ application/vnd.apple.mpegurl m3u8; application/dash+xml mpd; video/mp4 mp4 m4s; }}
    access_log off;
    server {{ listen 127.0.0.1:{port}; root site; location ~ ^(/[a-z]+)/live.mpd$ {{ if (-f $document_root$1/down) {{ return 503; }} }} }}
}}
""")
start(["nginx", "-p", work, "-e", "stderr", "-c", f"{work}/nginx.conf"])
rows = []
try:
    threads = [threading.Thread(target=tried, args=(fault,)) for fault in asked or FAULTS]
    for thread in threads:
        thread.start()
        if "ONE_BY_ONE" in os.environ:
            thread.join()
    for thread in threads:
        thread.join()
    timed(f"{work}/timed", "on the disk")
    with tempfile.TemporaryDirectory(dir="/dev/shm") as memory:
        timed(f"{memory}/timed", "in memory")
finally:
    for process in running:
        stop(process)
sys.exit("BAD" in rows)
PY
python3 "$work/publish.py" "$work" "$here/examples" "$@"
