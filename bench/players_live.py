"""Plays the live MPD of `examples/follow-hls.sh`: see players-live.sh.

    python3 players_live.py FOLLOW-HLS FOLDER [PLAYER or COMMAND..]
"""
import hashlib
import os
import re
import shutil
import sys
import threading
import time
import urllib.parse

import playing
from playing import NEW, OLD, NoFrames, decoded, encoder, in_order, joined, packaged_as_hls, start, stop

RATE, FIRST, LASTING = 25, 85, 2  # frames a second, the first segment's number, and a segment's seconds
BEFORE, LIMIT = 14, 40  # seconds from the packager's start to the player's, where the script begins with the packager, and of play
LATE = 34  # seconds from the packager's start to the script's and the player's
LIVE = ["-hls_list_size", "6", "-start_number", str(FIRST), "-hls_flags", "delete_segments", "-hls_delete_threshold", "6"]

# The commands, each with its form, and when the script begins.
WAYS = [
    ("follow-hls", "plain", 0),
    ("follow-hls", "players", 0),
    ("follow-hls", "players", LATE),
    ("follow-hls-times", "players", 0),
    ("follow-hls-times", "players", LATE),
]


def in_chromium(url, limit):
    """Chromium has no DASH player, so a page appends the segments. What it tells of frames and audio."""
    page.answer = None
    asked = urllib.parse.urlencode({"url": url, "width": playing.WIDTH, "height": playing.HEIGHT, "bits": playing.BITS})
    playing.within(limit, "chromium", "--headless=new", "--no-sandbox", "--disable-gpu", "--autoplay-policy=no-user-gesture-required",
                   f"--user-data-dir={os.getcwd()}/browser", f"{page.base}players-live.html?{asked}")
    if not page.answer or not page.answer["frames"]:
        raise NoFrames
    return page.answer


PLAYERS = [
    ("ffmpeg", "ffmpeg", playing.in_ffmpeg),
    ("GStreamer's dashdemux", "gst-launch-1.0", playing.in_gstreamer("uridecodebin", OLD, live=True)),
    ("GStreamer's dashdemux2", "gst-launch-1.0", playing.in_gstreamer("uridecodebin3", NEW, live=True)),
    ("VLC", "cvlc", playing.in_vlc),
    ("streamlink", "streamlink", playing.in_streamlink),
    ("Chromium, by a page", "chromium", in_chromium),
]

NGINX = """daemon off; worker_processes 1; pid nginx.pid; error_log stderr crit; {user}
events {{}}
http {{
    types {{ application/vnd.apple.mpegurl m3u8; application/dash+xml mpd; video/mp4 mp4 m4s; }}
    access_log off;
    add_header Access-Control-Allow-Origin *;
    server {{ listen 127.0.0.1:{port}; root site; }}
}}
"""


class Origin:
    """nginx, which serves the folder `site`."""
    def __init__(self):
        port = playing.free_port()
        self.base = f"http://127.0.0.1:{port}/"
        os.makedirs("site")
        with open("nginx.conf", "w") as it:
            it.write(NGINX.format(port=port, user="user root;" if os.getuid() == 0 else ""))
        self.process = start("nginx", "-p", os.getcwd(), "-e", "stderr", "-c", f"{os.getcwd()}/nginx.conf")


class Channel:
    """A packager, the script that follows it, and links to all segments of the video, which the packager removes from its folder."""
    def __init__(self, origin, name):
        self.folder, self.base = f"{os.getcwd()}/site/{name}", f"{origin.base}{name}/"
        self.kept, self.go = f"{os.getcwd()}/kept-{name}", True
        os.makedirs(self.folder)
        os.makedirs(self.kept)
        self.log, self.script = open(f"{name}.log", "w"), None
        self.packager, self.begun = start(*encoder(0, RATE, "-re"), *packaged_as_hls("", *LIVE), cwd=self.folder), time.monotonic()
        threading.Thread(target=self.keep, daemon=True).start()

    def follow(self, command, form, begins):
        """Begins the script so many seconds after the packager. The URL of its MPD, once it is there."""
        self.wait(begins)
        until(lambda: all(os.path.exists(f"{self.folder}/{file}") for file in ("master.m3u8", "v0.m3u8", "v1.m3u8")))
        self.script = start(follow, self.base, "master.m3u8", "live", "1", "3600", form, command, cwd=self.folder, stdout=self.log,
                            stderr=self.log)
        until(lambda: os.path.exists(f"{self.folder}/live/live.mpd"))
        return f"{self.base}live/live.mpd"

    def wait(self, seconds):
        """Waits until so many seconds after the packager's start."""
        time.sleep(max(0, self.begun + seconds - time.monotonic()))

    def keep(self):
        while self.go:
            for name in os.listdir(self.folder):
                if (name == "init0.mp4" or name.startswith("s0-") and name.endswith(".m4s")) and not os.path.exists(f"{self.kept}/{name}"):
                    os.link(f"{self.folder}/{name}", f"{self.kept}/{name}")
            time.sleep(0.2)

    def end(self):
        self.go = False
        for process in filter(None, (self.script, self.packager)):
            stop(process)
        self.log.close()

    def places(self):
        """The places of the video's frames."""
        frames = decoded(joined([f"{self.kept}/{name}" for name in sorted(os.listdir(self.kept))], "media.mp4"), check=False)
        return {digest(frame): place for place, frame in enumerate(frames)}


def until(holds, seconds=30):
    for _ in range(seconds * 10):
        if holds():
            return
        time.sleep(0.1)
    raise SystemExit("it takes too long to begin")


def digest(frame):
    return hashlib.md5(frame).digest()


def runs(places):
    """Places as runs that go on by one, each with its first and last one."""
    found = []
    for place in places:
        if found and place == found[-1][1] + 1:
            found[-1][1] = place
        else:
            found.append([place, place])
    return found


def told(known):
    """How many frames a player shows, how many of them it shows out of order, again or damaged, how many are missing between the first and
    the last one, and which they are, but for damaged ones. `known` are the places of the frames that it shows, -1 of a damaged one."""
    right = in_order(known)
    missing = right[-1] - right[0] + 1 - len(right) if right else 0
    found = runs(place for place in known if place >= 0)
    listed = ", ".join(f"{first}..{last}" for first, last in found[:4]) + (", .." if len(found) > 4 else "")
    return f"{len(known)} | {len(known) - len(right)} | {missing} | {listed or 'none'}"


def apart(page):
    """How far audio and video are apart at most in a page, in ms: a frame's number and the number of an audio segment's file say when they
    are by the packager, which cuts the audio within 22 ms of the video."""
    video = [at - place / RATE for place, at in page["frames"]]
    audio = [end - LASTING * (int(re.search(r"-(\d+)\.m4s", url)[1]) + 1 - FIRST) for url, end in page["audio"]]
    return f"{1000 * max(max(video) - min(audio), max(audio) - min(video)):.0f}"


def tried(origin, number, play, command, form, begins):
    channel, seen = Channel(origin, f"c{number}"), []
    try:
        url = channel.follow(command, form, begins)
        channel.wait(BEFORE)
        seen = play(url, LIMIT)
    except NoFrames:
        pass
    finally:
        channel.end()
    if isinstance(seen, dict):
        return f"{told([place for place, _ in seen['frames']])} | {apart(seen)}"
    places = channel.places()
    return f"{told([places.get(digest(frame), -1) for frame in seen])} | "


def main(names):
    number = 0
    players, commands = [player for player, *_ in PLAYERS], [command for command, *_ in WAYS]
    chosen = [[name for name in names if name in known] or known for known in (players, commands)]
    for player, program, play in PLAYERS:
        if player not in chosen[0]:
            continue
        if not shutil.which(program):
            print(f"| {player} | it isn't installed |", flush=True)
            continue
        for command, form, begins in (way for way in WAYS if way[0] in chosen[1]):
            number += 1
            line = tried(origin, number, play, command, form, begins)
            print(f"| {player} {playing.version(program)} | `{command}` | {form} | {begins} s | {line} |", flush=True)


if __name__ == "__main__":
    follow, folder, *names = sys.argv[1:]
    for name in ("pages.js", "players-live.html"):
        shutil.copy(f"{os.path.dirname(os.path.abspath(__file__))}/{name}", folder)
    os.chdir(folder)
    origin, page = Origin(), playing.Server()
    print("| player | command | form | begun | frames | wrong | missing | which | ms apart |\n" + "|---" * 9 + "|", flush=True)
    try:
        main(names)
    finally:
        stop(origin.process)
