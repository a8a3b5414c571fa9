#!/usr/bin/env bash
# Times `bridge dash` of a master with a media playlist of 100,000 segments, of equal durations and of durations that differ, and beside it
# `bridge reload` of that playlist with itself, which reads it twice and writes nothing: what `dash` takes more than half of that is the
# presentation and the written MPD. `bridge check` reads the MPD that was written and the playlist, and compares them; `bridge show` reads
# either. Each command is run eleven times, the shortest run counts, with its largest memory; `dash` in both forms forty times in turn.
# Where GStreamer's hlsdemux2 is installed, it plays the same playlists from a server on this machine, and the shortest of five runs counts
# up to its first request for media.
#
# It wants `rt` and python3, and proves the program first where that isn't kept.
set -euo pipefail
source "$(dirname "$0")/program.sh"

cat > "$work/dash.py" <<'PY'
import functools, http.server, os, shutil, subprocess, sys, threading, time

from measure import launched, measure

bridge, work = sys.argv[1:]
os.chdir(work)
PLAYER = ["gst-launch-1.0", "-q", "uridecodebin3"]

class Server(http.server.ThreadingHTTPServer):
    """Serves the playlists, and keeps when media was asked for first. A player that is ended in the middle is no error."""
    asked = None

    def handle_error(self, *_):
        pass

class Files(http.server.SimpleHTTPRequestHandler):
    def do_GET(self):
        if not self.path.endswith(".m3u8"):
            self.server.asked = self.server.asked or time.perf_counter()
        super().do_GET()

    def log_message(self, *_):
        pass

def first_request(name):
    """Milliseconds from a player's start to its first request for media, or None where it makes none within a minute."""
    with Server(("127.0.0.1", 0), functools.partial(Files, directory=work)) as server:
        threading.Thread(target=server.serve_forever, daemon=True).start()
        start = time.perf_counter()
        player = subprocess.Popen([*PLAYER, f"uri=http://127.0.0.1:{server.server_port}/{name}", "!", "fakesink"],
                                  env={**os.environ, "GST_PLUGIN_FEATURE_RANK": "hlsdemux2:MAX"}, stdout=subprocess.DEVNULL, stderr=subprocess.DEVNULL)
        while server.asked is None and time.perf_counter() - start < 60 and player.poll() is None:
            time.sleep(0.001)
        player.kill()
        player.wait()
        server.shutdown()
        return None if server.asked is None else (server.asked - start) * 1000

def has_player():
    return shutil.which("gst-inspect-1.0") and subprocess.run(["gst-inspect-1.0", "hlsdemux2"], capture_output=True).returncode == 0

def playlists(name, duration):
    """A master, and a media playlist of 100,000 segments of these durations in seconds."""
    lines = ["#EXTM3U", "#EXT-X-TARGETDURATION:5", '#EXT-X-MAP:URI="init.mp4"']
    for k in range(100_000):
        lines += [f"#EXTINF:{duration(k)},", f"seg-{k:06d}.m4s"]
    with open(f"{name}.m3u8", "w") as it:
        it.write("\n".join(lines + ["#EXT-X-ENDLIST", ""]))
    with open(f"{name}-master.m3u8", "w") as it:
        it.write(f'#EXTM3U\n#EXT-X-STREAM-INF:BANDWIDTH=800000,CODECS="avc1.64001f"\n{name}.m3u8\n')

def told(label, words):
    ms, mb = measure([bridge, *words, "--base=https://h.example/"])
    print(f"{label}: {ms:.0f} ms, {mb:.1f} MiB")
    return ms

def in_both_forms(name, master):
    """Tells the shortest of runs of both forms in turn, since a machine is faster at one time than at another."""
    forms = ["plain", "players"]
    words = {form: [bridge, "dash", master, "--base=https://h.example/", f"--form={form}", f"--out={form}"] for form in forms}
    runs = [[launched(words[form]) for form in forms] for _ in range(40)]
    (plain, plain_mb), (players, players_mb) = [(min(run[k][1] for run in runs), max(run[k][2] for run in runs)) for k in (0, 1)]
    print(f"dash --form=players, {name} durations, in turn with the plain form: {players:.0f} of {plain:.0f} ms, "
          f"{players_mb:.1f} of {plain_mb:.1f} MiB, {os.path.getsize('players/manifest.mpd')} bytes of MPD")

for name, duration in [("equal", lambda k: "4.004"), ("differing", lambda k: f"4.{k % 1000:03d}")]:
    playlists(name, duration)
    size, master = os.path.getsize(f"{name}.m3u8"), f"{name}-master.m3u8"
    whole = told(f"dash, {name} durations, {size / 1e6:.1f} MB of playlist", ["dash", master])
    twice = told(f"reload of that playlist with itself", ["reload", f"{name}.m3u8", f"{name}.m3u8"])
    written = os.path.getsize("out/manifest.mpd")
    print(f"so the presentation and {written / 1e6:.1f} MB of MPD: {whole - twice / 2:.0f} ms")
    in_both_forms(name, master)
    compared = told("check of that MPD with the playlists", ["check", "out/manifest.mpd", master])
    read = sum(told(f"show of {file}", ["show", file]) for file in ("out/manifest.mpd", master))
    print(f"so check takes {compared / read:.2f} of what reading both files takes")
    if has_player():
        first_request(master)
        print(f"hlsdemux2 up to its first request for media: {min(first_request(master) or 60_000 for _ in range(5)):.0f} ms")
PY
python3 "$work/dash.py" "$bridge" "$work"
