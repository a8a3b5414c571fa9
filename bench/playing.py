"""Numbered pictures, the players that show them, and a server of files: for `players.py` and `players_live.py`.

A player is a function of a URL and a time limit in seconds that returns the video frames as it shows them, each as its bytes.
"""
import http.server
import json
import os
import re
import shutil
import signal
import socket
import subprocess
import threading

import readers

WIDTH, HEIGHT, BITS = 320, 180, 16
SIDE = WIDTH // BITS


class NoFrames(Exception):
    """A player shows nothing."""


# ---- processes

def run(*command, check=True, limit=600, **more):
    """What a command prints."""
    return subprocess.run(command, check=check, stdout=subprocess.PIPE, stderr=subprocess.DEVNULL, timeout=limit, **more).stdout


def start(*command, **more):
    more = {"stdin": subprocess.DEVNULL, "stdout": subprocess.DEVNULL, "stderr": subprocess.DEVNULL, **more}
    return subprocess.Popen(command, start_new_session=True, **more)


def stop(process, how=signal.SIGTERM):
    """Ends a process and those that it started."""
    try:
        os.killpg(process.pid, how)
        process.wait(5)
    except ProcessLookupError:
        process.wait()
    except subprocess.TimeoutExpired:
        os.killpg(process.pid, signal.SIGKILL)
        process.wait()


def within(limit, *command, **more):
    """Runs a player for so many seconds at most."""
    player = start(*command, **more)
    try:
        player.wait(limit)
    except subprocess.TimeoutExpired:
        pass
    stop(player, signal.SIGINT)


def free_port():
    with socket.socket() as probe:
        probe.bind(("127.0.0.1", 0))
        return probe.getsockname()[1]


# ---- pictures

def numbered(first, rate):
    """A picture with the number of each frame as white and black boxes at its top, from its lowest digit on."""
    boxes = [f"drawbox=x={b * SIDE}:w={SIDE}:h=20:t=fill:color=white:enable=gte(mod(floor((n+{first})/{2 ** b})\\,2)\\,1)"
             for b in range(BITS)]
    return f"testsrc2=size={WIDTH}x{HEIGHT}:rate={rate},drawbox=w={WIDTH}:h=20:t=fill:color=black," + ",".join(boxes)


def encoder(first, rate, *before):
    """ffmpeg's arguments for numbered frames and a tone, with a key frame every 2 s. `before` stands before each input."""
    return ["ffmpeg", "-v", "error", "-y", *before, "-f", "lavfi", "-i", numbered(first, rate),
            *before, "-f", "lavfi", "-i", "sine=frequency=440:sample_rate=48000", "-map", "0:v", "-map", "1:a",
            "-c:v", "libx264", "-preset", "ultrafast", "-threads", "1", "-g", str(2 * rate), "-sc_threshold", "0",
            "-pix_fmt", "yuv420p", "-c:a", "aac"]


def packaged_as_hls(prefix="", *options):
    """ffmpeg's arguments for a multivariant playlist (master), a video and an audio playlist, with 2 s segments, all of them listed."""
    return ["-f", "hls", "-hls_time", "2", "-hls_list_size", "0", "-hls_segment_type", "fmp4",
            "-hls_fmp4_init_filename", f"{prefix}init%v.mp4", "-hls_segment_filename", f"{prefix}s%v-%03d.m4s",
            "-var_stream_map", "v:0,agroup:a a:0,agroup:a,language:en", "-master_pl_name", f"{prefix}master.m3u8",
            *options, f"{prefix}v%v.m3u8"]


def cut(raw, size):
    return [raw[at:at + size] for at in range(0, len(raw) - size + 1, size)]


def decoded(source, pixels="yuv420p", bytes_of_a_pixel=1.5, **more):
    """The frames that ffmpeg decodes."""
    raw = run("ffmpeg", "-v", "error", "-i", source, "-map", "0:v:0", "-fps_mode", "passthrough", "-f", "rawvideo", "-pix_fmt", pixels,
              "-", **more)
    return cut(raw, int(WIDTH * HEIGHT * bytes_of_a_pixel))


def joined(files, into):
    with open(into, "wb") as it:
        for file in files:
            with open(file, "rb") as part:
                shutil.copyfileobj(part, it)
    return into


def downloaded(file):
    """The frames of what a player wrote into a file, which may be cut off."""
    if not os.path.exists(file) or not os.path.getsize(file):
        raise NoFrames
    return decoded(file, check=False)


def in_order(places):
    """The places that are above all before them."""
    right = []
    for place in places:
        if place > (right or [-1])[-1]:
            right.append(place)
    return right


# ---- players

def in_ffmpeg(url, limit):
    with open("played.raw", "wb") as it:
        within(limit, "ffmpeg", "-v", "error", "-i", url, "-map", "0:v:0", "-fps_mode", "passthrough", "-f", "rawvideo",
               "-pix_fmt", "yuv420p", "-flush_packets", "1", "-", stdout=it)
    return raw_frames()


def raw_frames():
    with open("played.raw", "rb") as it:
        frames = cut(it.read(), WIDTH * HEIGHT * 3 // 2)
    if not frames:
        raise NoFrames
    return frames


def in_gstreamer(decoder, ranks, live=False):
    def play(url, limit):
        open("played.raw", "wb").close()
        pace = f"sync={str(live).lower()}"
        within(limit, "gst-launch-1.0", "-q", decoder, f"uri={url}", "name=d",
               "d.", "!", "queue", "!", "videoconvert", "!", "video/x-raw,format=I420", "!", "filesink", "location=played.raw",
               "buffer-mode=unbuffered", pace, "d.", "!", "queue", "!", "audio/x-raw", "!", "fakesink", pace,
               env={**os.environ, "GST_PLUGIN_FEATURE_RANK": ranks})
        return raw_frames()
    return play


def nobody():
    """VLC doesn't run as root."""
    return {"user": "nobody", "group": "nogroup", "extra_groups": []} if os.getuid() == 0 else {}


def in_vlc(url, limit):
    """VLC copies what it would play into a Matroska file."""
    with open("played.mkv", "wb") as it:
        within(limit, "cvlc", "-q", "--play-and-exit", "--sout", "#std{access=file,mux=avformat{mux=matroska},dst=-}", url, stdout=it,
               **nobody())
    return downloaded("played.mkv")


def in_streamlink(url, limit):
    open("played.mp4", "wb").close()
    found = readers.reader("streamlink", "streamlink")
    if not found:
        raise NoFrames
    within(limit, found[0], f"{os.path.dirname(os.path.abspath(__file__))}/streamlink_video.py", url, "played.mp4")
    return downloaded("played.mp4")


def in_yt_dlp(url, limit):
    for name in os.listdir("."):
        if name.startswith("played.mp4"):
            os.remove(name)
    within(limit, "yt-dlp", "--quiet", "--format", "bestvideo", "--output", "played.mp4", url)
    return downloaded("played.mp4")


OLD = "hlsdemux:512,dashdemux:512,hlsdemux2:0,dashdemux2:0"
NEW = "hlsdemux:0,dashdemux:0,hlsdemux2:512,dashdemux2:512"

# Each with its program, and how it plays MPDs.
PLAYERS = [
    ("ffmpeg", "ffmpeg", in_ffmpeg),
    ("GStreamer's dashdemux", "gst-launch-1.0", in_gstreamer("uridecodebin", OLD)),
    ("GStreamer's dashdemux2", "gst-launch-1.0", in_gstreamer("uridecodebin3", NEW)),
    ("VLC", "cvlc", in_vlc),
    ("streamlink", "streamlink", in_streamlink),
    ("yt-dlp", "yt-dlp", in_yt_dlp),
]


def version(program):
    told = run(program, "-version" if program == "ffmpeg" else "--version", **(nobody() if program == "cvlc" else {})).decode()
    return re.search(r"(?:version |Chromium |streamlink |^)(\d+\.[\d.]*\d)", told)[1]


# ---- a server of files

KINDS = {".js": "text/javascript", ".m3u8": "application/vnd.apple.mpegurl", ".mpd": "application/dash+xml", ".html": "text/html"}


class Files(http.server.BaseHTTPRequestHandler):
    """Gives files and ranges of them, the frames that are asked for by number, and takes what a page tells."""
    protocol_version = "HTTP/1.1"

    def do_GET(self):
        path = self.path.partition("?")[0]
        if path.startswith("/frame/"):
            frame = self.server.frames[int(path[7:]):][:1]
            return self.give(200 if frame else 404, b"".join(frame), "application/octet-stream")
        try:
            with open(path.lstrip("/"), "rb") as it:
                body = it.read()
        except OSError:
            return self.give(404, b"", "text/plain")
        kind = KINDS.get(os.path.splitext(path)[1], "video/mp4")
        asked = re.match(r"bytes=(\d+)-(\d*)", self.headers.get("Range", ""))
        if not asked:
            return self.give(200, body, kind)
        first, last = int(asked[1]), min(int(asked[2] or len(body)), len(body) - 1)
        self.give(206, body[first:last + 1], kind, f"bytes {first}-{last}/{len(body)}")

    do_HEAD = do_GET

    def do_POST(self):
        self.server.answer = json.loads(self.rfile.read(int(self.headers["Content-Length"])))
        self.give(200, b"", "text/plain")
        self.server.told.set()

    def give(self, status, body, kind, part=None):
        self.send_response(status)
        self.send_header("Content-Type", kind)
        self.send_header("Content-Length", str(len(body)))
        if part:
            self.send_header("Content-Range", part)
        self.end_headers()
        if self.command != "HEAD":
            self.wfile.write(body)

    def log_message(self, *_):
        pass


class Server(http.server.ThreadingHTTPServer):
    """Serves the current directory on a port of its own."""
    def __init__(self):
        super().__init__(("127.0.0.1", 0), Files)
        self.base = f"http://127.0.0.1:{self.server_port}/"
        self.told, self.answer, self.frames = threading.Event(), None, []
        threading.Thread(target=self.serve_forever, daemon=True).start()

    def handle_error(self, *_):
        """A player that goes away in the middle is no error."""
