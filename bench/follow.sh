#!/usr/bin/env bash
# Times `bridge follow` of 5,000 frames behind the first one, by turns a tick and the MPD again, each two seconds later than the one before:
# 30 segments are kept, and 852,033,600 lie before the first of them. Beside it a loop in C that rewrites a file of the playlist's size and
# prints a line for each frame. Then the first thousand frames beside all of them, and the same with 10^9 more earlier segments. Then
# `bridge follow-hls` of 5,001 rounds of a playlist of six segments that slides, beside such a loop, its first thousand rounds, and as many
# that are refused once their playlist is read. Then `bridge follow-hls-times` of the same rounds, each with a new media file of 100,000
# bytes. Files lie in a memory file system. The shortest of eleven runs counts, with its largest memory; these
# two commands run in turn.
#
# It wants `rt`, python3, cc and /dev/shm, and proves the program first where that isn't kept.
set -euo pipefail
source "$(dirname "$0")/program.sh"
shm=$(mktemp -d /dev/shm/follow.XXXXXX)
trap 'rm -rf "$work" "$shm"' EXIT

cat > "$work/rewrites.c" <<'C'
#include <fcntl.h>
#include <stdio.h>
#include <stdlib.h>
#include <string.h>
#include <unistd.h>

/* Rewrites a file of SIZE bytes and prints a line, COUNT times. */
int main(int words, char **word) {
    size_t size = strtoul(word[1], 0, 10);
    char *text = memset(malloc(size), 'a', size), line[64];
    for (long k = 0; k < strtol(word[2], 0, 10); k++) {
        int file = open("rewritten", O_WRONLY | O_CREAT | O_TRUNC, 0666);
        if (file < 0 || write(file, text, size) != (ssize_t)size || close(file))
            return 1;
        if (write(1, line, snprintf(line, sizeof line, "frame %ld ok appended=1\n", k)) < 0)
            return 1;
    }
    return 0;
}
C
cc -O2 -o "$work/rewrites" "$work/rewrites.c"

cat > "$work/follow.py" <<'PY'
import datetime, functools, os, subprocess, sys

from measure import launched, measure
from media import fragment, initial, put

bridge, rewrites, folder = sys.argv[1:]
os.chdir(folder)
BASE = "--base=https://h.example/"
START = datetime.datetime(2024, 1, 1)
LIVE = ('<MPD xmlns="urn:mpeg:dash:schema:mpd:2011" type="dynamic" availabilityStartTime="{}" timeShiftBufferDepth="PT60S"><Period id="p" start="PT0S">'
        '<AdaptationSet mimeType="video/mp4"><Representation id="v" bandwidth="1000"><SegmentTemplate duration="2" initialization="i.mp4" '
        'media="s$Number$.m4s"/></Representation></AdaptationSet></Period></MPD>')

def stream(name, frames, available="1970-01-01T00:00:00Z"):
    """The first MPD, and so many frames behind it."""
    mpd = LIVE.format(available)
    with open(name, "w") as it:
        for k in range(frames + 1):
            now = (START + datetime.timedelta(seconds=2 * k)).strftime("%Y-%m-%dT%H:%M:%SZ")
            it.write(f"tick {now}\n" if k % 2 else f"mpd {now} {len(mpd)}\n{mpd}")

def followed(name):
    """Milliseconds and MiB of following a stream."""
    return measure(["sh", "-c", f"exec {bridge} follow live.mpd {BASE} < {name}"])

def last(name):
    run = subprocess.run([bridge, "follow", "live.mpd", BASE], stdin=open(name), capture_output=True, text=True, check=True)
    playlist = open("out/t0.m3u8").read()
    names = [line.rpartition("/")[2] for line in playlist.splitlines() if line.startswith("https://")]
    return run.stdout.splitlines(), playlist, names

stream("thousand", 1_000)
stream("all", 5_000)
stream("more", 5_000, "1906-08-16T20:26:40Z")
lines, playlist, names = last("all")
assert sum(int(line.rpartition("=")[2]) for line in lines[:-1]) == 5_030, lines[-1]
assert lines[-1] == "done frames=5001 accepted=5001" and "#EXT-X-MEDIA-SEQUENCE:5000\n" in playlist
assert (names[0], names[-1], len(names)) == ("s852038571.m4s", "s852038600.m4s", 30)

def beside(what, size, count, run, first, first_count):
    """Tells a run beside the loop that rewrites a file of its size, and its first thousand."""
    yard, _ = measure([rewrites, str(size), str(count)])
    few, few_mib = run(first)
    whole, whole_mib = run("all")
    print(f"a loop that rewrites {size} bytes and prints a line, {count:,} times: {yard:.1f} ms")
    print(f"{what}, {count:,} of them: {whole:.1f} ms, {whole / count * 1000:.1f} us each, {whole_mib:.1f} MiB, "
          f"{whole / yard:.1f} of the loop's time")
    print(f"the first {first_count:,}: {few:.1f} ms, {few / first_count * 1000:.1f} us each, {few_mib:.1f} MiB")

beside("frames of follow", len(playlist), 5_001, followed, "thousand", 1_001)
more, more_mib = followed("more")
print(f"with 10^9 more earlier segments: {more:.1f} ms, {more_mib:.1f} MiB")

with open("m.m3u8", "w") as it:
    it.write('#EXTM3U\n#EXT-X-STREAM-INF:BANDWIDTH=800000,CODECS="avc1.64001f"\nv.m3u8\n')

def rounds(name, count, last=""):
    """So many rounds of six segments, each a segment further than the one before, with a last line behind those of the first."""
    with open(name, "w") as it:
        for k in range(count):
            body = f'#EXTM3U\n#EXT-X-TARGETDURATION:2\n#EXT-X-MEDIA-SEQUENCE:{k}\n#EXT-X-MAP:URI="i.mp4"\n'
            body += "".join(f"#EXTINF:2,\ns{n}.m4s\n" for n in range(k, k + 6)) + (last if k else "")
            now = (START + datetime.timedelta(seconds=2 * k)).strftime("%Y-%m-%dT%H:%M:%SZ")
            it.write(f"round {now} {len(body)}\n{body}")

def taken(command, name):
    """Milliseconds and MiB of taking rounds."""
    return measure(["sh", "-c", f"exec {bridge} {command} m.m3u8 {BASE} < {name}"])

def told(command, timeline):
    """Tells of the rounds of a command, whose last MPD has this S."""
    run = subprocess.run([bridge, command, "m.m3u8", BASE], stdin=open("all"), capture_output=True, text=True, check=True)
    lines = run.stdout.splitlines()
    mpd = open("out/live.mpd").read()
    assert lines[0] == "frame 0 ok appended=6" and lines[-2:] == ["frame 5000 ok appended=1", "done frames=5001 accepted=5001"], lines[-2:]
    assert timeline in mpd and "s5005.m4s" in mpd
    beside(f"rounds of {command}", len(mpd), 5_001, functools.partial(taken, command), "thousand", 1_001)

rounds("thousand", 1_001)
rounds("all", 5_001)
told("follow-hls", '<S t="10000000000000" d="2000000000" r="5"/>')
rounds("unfinished", 5_001, "#EXTINF:2,\n")
read, _ = taken("follow-hls", "unfinished")
whole, _ = taken("follow-hls", "all")
print(f"the same rounds, each refused at the end of its playlist: {read / 5_001 * 1000:.1f} us each; "
      f"{(whole - read) / 5_001 * 1000:.1f} us less")

put("i.mp4", initial(1_000))
for n in range(5_006):
    os.truncate(put(f"s{n}.m4s", fragment(2_000 * n)), 100_000)
told("follow-hls-times", '<S t="10000000" d="2000" r="5"/>')
commands = ("follow-hls", "follow-hls-times")
turns = [[launched(["sh", "-c", f"exec {bridge} {command} m.m3u8 {BASE} < all"])[1] for command in commands] for _ in range(11)]
whole, times = (min(took) for took in zip(*turns))
print(f"both in turn: {whole:.1f} and {times:.1f} ms, {times / whole:.2f} of the time of follow-hls")
PY
python3 "$work/follow.py" "$bridge" "$work/rewrites" "$shm"
