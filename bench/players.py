"""Plays what `bridge` writes of made presentations in the players that are installed: see players.sh.

    python3 players.py PROGRAM FOLDER
"""
import os
import re
import shutil
import subprocess
import sys
import urllib.parse

import playing
from playing import HEIGHT, PLAYERS, WIDTH, NoFrames, decoded, encoder, in_order, joined, packaged_as_hls, run

RATE, SECONDS = 24, 4
LIMIT = 60  # seconds for a player
FORMS = ["plain", "players"]
INIT = re.compile('#EXT-X-MAP:URI="([^"]*)"')

# ---- presentations as playlists, of MPDs

def packaged(folder, first, seconds, *options):
    """So many seconds as ffmpeg packages them, with frames that are numbered from here on: what its Period contains."""
    os.makedirs(folder)
    run(*encoder(first, RATE), "-t", str(seconds), "-f", "dash", "-seg_duration", "2", *options, "manifest.mpd", cwd=folder)
    with open(f"{folder}/manifest.mpd") as it:
        return f"<BaseURL>{folder}/</BaseURL>" + re.search("<Period[^>]*>(.*)</Period>", it.read(), re.S)[1]


def period(inside):
    return f'<Period duration="PT{SECONDS}S">{inside}</Period>'


def to_hls(name, *periods):
    """The URL of a presentation's master, which `bridge hls` writes."""
    with open(f"{name}.mpd", "w") as it:
        it.write(f'<MPD xmlns="urn:mpeg:dash:schema:mpd:2011">{"".join(periods)}</MPD>')
    run(bridge, "hls", f"{name}.mpd", f"--base={server.base}", f"--out={name}")
    return f"{server.base}{name}/master.m3u8"


def media(folder):
    """What ffmpeg decodes of the video's own files: each frame, and its colours."""
    names = sorted(os.listdir(folder), key=lambda name: (not name.startswith("init"), name))
    return frames_and_colours(f"{folder}/{name}" for name in names if "stream0" in name)


def frames_and_colours(files):
    file = joined(files, "media.mp4")
    return decoded(file), decoded(file, "rgba", 4)


def playlists():
    """Presentations by name: a URL, the frames, their colours."""
    first, second = packaged("first", 0, SECONDS), packaged("second", RATE * SECONDS, SECONDS)
    ranges, whole = packaged("one", 0, SECONDS, "-single_file", "1"), packaged("whole", 0, 2 * SECONDS, "-use_timeline", "0")
    one, two, both = media("first"), media("second"), media("whole")
    return {
        "one Period": (to_hls("single", period(first)), *one),
        "segments that are ranges of a file": (to_hls("ranges", f"<Period>{ranges}</Period>"), *one),
        "two Periods whose media times go on":
            (to_hls("cut", period(whole), period(whole.replace('startNumber="1"', 'startNumber="3"'))), *both),
        "two Periods, each with media times from 0 on":
            (to_hls("double", period(first), period(second)), one[0] + two[0], one[1] + two[1]),
    }

BANDWIDTHS = [400_000, 128_000, 1_500_000, 64_000, 128_000, 64_000, 384_000]


def families():
    """A presentation with two rungs of video, with the same frames, AAC in two languages and two rungs, and AC-3: its master by form, the
    frames, their colours."""
    os.makedirs("families")
    languages = [word for track, tag in enumerate(("en", "en", "de", "de", "en")) for word in (f"-metadata:s:a:{track}", f"language={tag}")]
    run(*encoder(0, RATE), "-map", "0:v", *["-map", "1:a"] * 4, "-c:a:4", "ac3", *languages, "-t", str(2 * SECONDS), "-f", "dash",
        "-seg_duration", "2", "-adaptation_sets", "id=0,streams=0,2 id=1,streams=1,3 id=2,streams=4,5 id=3,streams=6", "manifest.mpd",
        cwd="families")
    text = re.sub(r'(<Representation id="(\d)".*?bandwidth=)"\d+"', lambda found: f'{found[1]}"{BANDWIDTHS[int(found[2])]}"',
                  read("families/manifest.mpd"))
    with open("families/manifest.mpd", "w") as it:
        it.write(text)
    masters = {}
    for form in FORMS:
        run(bridge, "hls", "families/manifest.mpd", f"--base={server.base}", f"--out=families-{form}", f"--form={form}")
        run(bridge, "check", "families/manifest.mpd", f"families-{form}/master.m3u8", f"--base={server.base}")
        masters[form] = f"{server.base}families-{form}/master.m3u8"
    return masters, *media("families")

# ---- presentations as MPDs, of playlists

def listed(folder, prefix, first, seconds, *options):
    """So many seconds as ffmpeg packages them with playlists: of the video, and of the audio."""
    os.makedirs(folder, exist_ok=True)
    run(*encoder(first, RATE), "-t", str(seconds), *packaged_as_hls(prefix, *options), cwd=folder)
    return [read(f"{folder}/{prefix}v{track}.m3u8") for track in (0, 1)]


def read(file):
    with open(file) as it:
        return it.read()


def joined_playlists(folder, before, after):
    """Two Periods: each playlist goes on with another one after a discontinuity."""
    shutil.copy(f"{folder}/a-master.m3u8", f"{folder}/master.m3u8")
    for track, (old, new) in enumerate(zip(before, after)):
        text = old.replace("#EXT-X-ENDLIST", "#EXT-X-DISCONTINUITY") + new[new.index("#EXT-X-MAP"):]
        with open(f"{folder}/a-v{track}.m3u8", "w") as it:
            it.write(text)


def listed_media(folder, name="v0.m3u8"):
    """What ffmpeg decodes of the files that a playlist names: the frames and colours of each Period."""
    frames, colours = [], []
    for text in read(f"{folder}/{name}").split("#EXT-X-DISCONTINUITY"):
        names = [*INIT.findall(text), *(line for line in text.splitlines() if line and line[0] != "#")]
        part = frames_and_colours(f"{folder}/{name}" for name in dict.fromkeys(names))
        frames, colours = frames + part[0], colours + part[1]
    return frames, colours


def to_dash(folder, command, frames_and_colours):
    """A presentation's MPDs by their form, each with the frames and their colours."""
    base, mpds = f"{server.base}{folder}/", {}
    for form in FORMS:
        done = subprocess.run([bridge, command, "master.m3u8", f"--base={base}", f"--form={form}", f"--out={command}-{form}"], cwd=folder,
                              stdout=subprocess.DEVNULL)
        if done.returncode == 0:
            mpds[form] = f"{base}{command}-{form}/manifest.mpd"
    return mpds, *frames_and_colours


def manifests():
    """Presentations by name: a URL for each form, the frames, their colours."""
    listed("equal", "", 0, 10)
    listed("shorter", "", 0, 9)
    joined_playlists("periods", listed("periods", "a-", 0, 4), listed("periods", "b-", 4 * RATE, 6))
    listed("byteranges", "", 0, 10, "-hls_flags", "single_file", "-hls_segment_filename", "s%v.m4s")
    listed("window", "", -6 * RATE, 15, "-hls_list_size", "5", "-start_number", "95")
    equal, window = listed_media("equal"), listed_media("window")
    return {
        "equal durations, `dash`": to_dash("equal", "dash", equal),
        "the same, `dash-times`": to_dash("equal", "dash-times", equal),
        "a shorter last one": to_dash("shorter", "dash", listed_media("shorter")),
        "two Periods": to_dash("periods", "dash", listed_media("periods", "a-v0.m3u8")),
        "ranges of one file": to_dash("byteranges", "dash", listed_media("byteranges")),
        "a window, `dash`": to_dash("window", "dash", window),
        "a window, `dash-times`": to_dash("window", "dash-times", window),
    }

# ---- players

def in_hlsdemux2(url, _):
    run("gst-launch-1.0", "-q", "uridecodebin3", f"uri={url}", "caps=video/x-raw", "!", "videoconvert", "!", "video/x-raw,format=I420", "!",
        "filesink", "location=played.raw", env={**os.environ, "GST_PLUGIN_FEATURE_RANK": "hlsdemux2:MAX"})
    return playing.raw_frames()


def exactly(play):
    """How many frames a player shows byte by byte, those in order that it shows for the first time."""
    def told(url, frames, _):
        try:
            played = play(url, LIMIT)
        except NoFrames:
            return "no frame"
        places = {frame: place for place, frame in enumerate(frames)}
        right = in_order(places.get(frame, -1) for frame in played)
        return (f"{len(right)} of {len(frames)}" + (f" from {right[0]} on" if right and right[0] else "")
                + (f"; it gives {len(played)}" if len(played) > len(right) else ""))
    return told


def in_chromium(url, frames, colours):
    """Its frames by their numbers, how far the colours of one are off on the average, of 255, and when the first one is, if it isn't 0."""
    server.frames, server.answer = colours, None
    server.told.clear()
    page = urllib.parse.urlencode({"url": url, "frames": len(frames), "rate": RATE, "width": WIDTH, "height": HEIGHT, "bits": playing.BITS})
    browser = playing.start("chromium", "--headless", "--no-sandbox", "--disable-gpu", f"--user-data-dir={os.getcwd()}/browser",
                            f"{server.base}players.html?{page}")
    told = server.answer if server.told.wait(2 * LIMIT) else {"why": "no answer", "shown": [], "start": None}
    playing.stop(browser)
    right, colour = in_order(number for number, _ in told["shown"]), max((off for _, off in told["shown"]), default=0)
    return (f"{len(right)} of {len(frames)}" + (f" from {right[0]} on" if right and right[0] else "")
            + (f"; colours off by {colour:.1f}" if right else "")
            + (f"; it begins at {told['start']:.1f} s" if (told["start"] or 0) > 0.1 else "")
            + (f"; {told['why']} after {len(told['shown'])}" if told["why"] else ""))


def of(player, told):
    try:
        return player(*told)
    except (subprocess.CalledProcessError, subprocess.TimeoutExpired) as why:
        return f"it doesn't play: {type(why).__name__}"


def installed(player, program):
    """A player with its version, or None."""
    if shutil.which(program):
        return f"{player} {playing.version(program)}"
    print(f"| {player} | it isn't installed |", flush=True)
    return None

# ---- all

def play_playlists():
    players = [("ffmpeg", "ffmpeg", exactly(playing.in_ffmpeg)), ("GStreamer's hlsdemux2", "gst-launch-1.0", exactly(in_hlsdemux2)),
               ("Chromium", "chromium", in_chromium)]
    presentations = playlists()
    for player, program, play in players:
        if name := installed(player, program):
            for presentation, told in presentations.items():
                print(f"| {name} | {presentation} | {of(play, told)} |", flush=True)


def play_families():
    masters, *shown = families()
    print("\n| player |", " | ".join(FORMS), "|\n" + "|---" * (len(FORMS) + 1) + "|", flush=True)
    others = [player for player in PLAYERS if "GStreamer" not in player[0]]
    players = [(name, program, exactly(play)) for name, program, play in
               [*others, ("GStreamer's hlsdemux2", "gst-launch-1.0", in_hlsdemux2)]] + [("Chromium", "chromium", in_chromium)]
    for player, program, play in players:
        if name := installed(player, program):
            print(f"| {name} |", " | ".join(of(play, (masters[form], *shown)) for form in FORMS), "|", flush=True)


def play_manifests():
    presentations = manifests()
    print("\n| player | form |", " | ".join(presentations), "|")
    print("|---" * (len(presentations) + 2) + "|", flush=True)
    players = [(name, program, exactly(play)) for name, program, play in PLAYERS] + [("Chromium, by a page", "chromium", in_chromium)]
    for player, program, play in players:
        if name := installed(player, program):
            for form in FORMS:
                cells = [of(play, (mpds[form], *media)) if form in mpds else "not written" for mpds, *media in presentations.values()]
                print(f"| {name} | {form} |", " | ".join(cells), "|", flush=True)


if __name__ == "__main__":
    bridge, folder = sys.argv[1:]
    for name in ("pages.js", "players.html"):
        shutil.copy(f"{os.path.dirname(os.path.abspath(__file__))}/{name}", folder)
    os.chdir(folder)
    server = playing.Server()
    play_playlists()
    play_families()
    play_manifests()
