#!/usr/bin/env bash
# outside.sh: tries the built program on the real system as no table does: each exit status, words that are no text, standard streams that
# are closed or fail, files that may not be read or find no room, inputs that are replaced by rename while they are read, outputs that are
# no files, a folder that vanishes under `follow`, a program's name that is no text, and how far updates are read before they are
# published. BRIDGE names the program; otherwise crates/bridge/out/bridge. It ends with 0 where all is as docs/DECISIONS.md says.
set -u
here=$(cd "$(dirname "$0")/.." && pwd)
bridge=${BRIDGE:-$here/crates/bridge/out/bridge}
work=$(mktemp -d)
trap 'rm -rf "$work"' EXIT
cp "$here/crates/bridge/data/vod.mpd" "$work/"
cd "$work" || exit 1
failed=0
is() { if [ "$2" = "$3" ]; then echo "ok   $1"; else echo "BAD  $1: $2, wanted $3"; failed=1; fi; }
lines() { grep -c -E '^(done|mpd|frame|refused) ' "$@" 2>/dev/null | awk -F: '{ n += $NF } END { print n + 0 }'; }

# Each status, as the report's rules give it.
"$bridge" show vod.mpd --base=https://h.example/ > 0.txt; is 'done, status' $? 0
echo '<MPD' > refused.mpd
"$bridge" show refused.mpd --base=https://h.example/ > 1.txt; is 'refused, status' $? 1
"$bridge" show > 2.txt; is 'no job, status' $? 2
"$bridge" show $'\xff' --base=https://h.example/ > 2.txt; is 'a word that is no text, status' $? 2
printf '#EXTM3U\n#EXT-X-TARGETDURATION:2\n#EXTINF:2,\ns0.m4s\n#EXTINF:2,\ns1.m4s\n' > old.m3u8
printf '#EXTM3U\n#EXT-X-TARGETDURATION:2\n#EXTINF:2,\ns0.m4s\n' > new.m3u8
"$bridge" reload old.m3u8 new.m3u8 --base=https://h.example/ > 6.txt; is 'another, status' $? 6

# What may not be read is a read fault, and is not told as absent; what finds no room is a write fault.
cp vod.mpd secret.mpd; chmod 000 secret.mpd
if [ "$(id -u)" = 0 ]; then
    chmod 755 "$work"
    setpriv --reuid=65534 --regid=65534 --clear-groups "$bridge" show secret.mpd --base=https://h.example/ > 3.txt; status=$?
else
    "$bridge" show secret.mpd --base=https://h.example/ > 3.txt; status=$?
fi
is 'a file that may not be read, status' $status 3
"$bridge" follow live.mpd --base=https://h.example/ --out=i < "$work" > 3.txt; is 'a folder as standard input, status' $? 3
python3 - "$bridge" <<'PY' || failed=1
import resource, signal, subprocess, sys
def limit():
    signal.signal(signal.SIGXFSZ, signal.SIG_IGN)
    resource.setrlimit(resource.RLIMIT_FSIZE, (100, 100))
run = subprocess.run([sys.argv[1], "hls", "vod.mpd", "--base=https://h.example/", "--out=j"], stdout=subprocess.PIPE, preexec_fn=limit)
good = run.returncode == 4 and run.stdout == b"write fault\n"
print("ok   no room for a file" if good else f"BAD  no room for a file: {run.returncode} {run.stdout}")
sys.exit(not good)
PY

# The report never goes into a file, whichever of the streams are closed.
"$bridge" hls vod.mpd --base=https://h.example/ --out=a >&-; is 'closed output, status' $? 4
is 'closed output, files' "$(lines a/*)" 0
"$bridge" hls vod.mpd --base=https://h.example/ --out=b <&- >&- 2>&-; is 'all closed, status' $? 4
is 'all closed, files' "$(lines b/*)" 0
"$bridge" hls vod.mpd --base=https://h.example/ --out=c <&- > c.txt; is 'closed input, status' $? 0
is 'closed input, report' "$(lines c.txt)" 1
"$bridge" hls vod.mpd --base=https://h.example/ --out=d > d.txt 2>&-; is 'closed errors, status' $? 0
cmp -s c/master.m3u8 d/master.m3u8; is 'the same files' $? 0
"$bridge" hls vod.mpd --base=https://h.example/ --out=e > /dev/full; is 'full output, status' $? 4

# An input that is replaced is read whole as one of both.
python3 - "$bridge" <<'PY' || failed=1
import os, subprocess, sys, threading
bridge = sys.argv[1]
def version(d):
    rows = f'<S d="{d}"/>\n' * 60_000
    return ('<?xml version="1.0"?>\n<MPD xmlns="urn:mpeg:dash:schema:mpd:2011" mediaPresentationDuration="PT2500S"><Period><AdaptationSet mimeType="video/mp4">'
            '<Representation id="v" bandwidth="1000"><SegmentTemplate timescale="48000" initialization="i.mp4" media="s$Number$.m4s">'
            f"<SegmentTimeline>{rows}</SegmentTimeline></SegmentTemplate></Representation></AdaptationSet></Period></MPD>\n")
versions = [version(1000), version(2000)]
for i, text in enumerate(versions): open(f"v{i}.mpd", "w").write(text)
def told(name): return subprocess.run([bridge, "show", name, "--base=https://h.example/"], capture_output=True).stdout
wanted = {told("v0.mpd"), told("v1.mpd")}
stop = False
def replace():
    k = 0
    while not stop:
        k += 1
        open("next", "w").write(versions[k % 2]); os.rename("next", "m.mpd")
open("m.mpd", "w").write(versions[0])
thread = threading.Thread(target=replace); thread.start()
bad = sum(told("m.mpd") not in wanted for _ in range(100))
stop = True; thread.join()
print("ok   replaced inputs" if not bad else f"BAD  replaced inputs: {bad} of 100 are of neither version")
sys.exit(bad > 0)
PY

# What is no file isn't written to.
mkdir f; mkfifo f/t0.m3u8
timeout 10 "$bridge" hls vod.mpd --base=https://h.example/ --out=f > f.txt; is 'a pipe for a playlist, status' $? 4
mkdir g; ln -s /dev/full g/t0.m3u8
timeout 10 "$bridge" hls vod.mpd --base=https://h.example/ --out=g > g.txt; is 'a device for a playlist, status' $? 4

# A folder that vanishes under `follow` isn't made again with half of the files.
python3 - "$bridge" <<'PY' || failed=1
import os, shutil, subprocess, sys
def mpd(count):
    return ('<?xml version="1.0"?>\n<MPD xmlns="urn:mpeg:dash:schema:mpd:2011" type="dynamic" availabilityStartTime="2024-01-01T00:00:00Z" '
            'timeShiftBufferDepth="PT60S"><Period id="p" start="PT0S"><AdaptationSet mimeType="video/mp4"><Representation id="v" '
            'bandwidth="1000" codecs="avc1.42c01e"><SegmentTemplate timescale="1" initialization="i.mp4" media="s$Number$.m4s">'
            f'<SegmentTimeline><S t="0" d="2" r="{count - 1}"/></SegmentTimeline></SegmentTemplate></Representation></AdaptationSet>'
            "</Period></MPD>\n").encode()
run = subprocess.Popen([sys.argv[1], "follow", "m.mpd", "--base=https://h.example/", "--out=h"], stdin=subprocess.PIPE, stdout=subprocess.PIPE)
def answer(instant, body):
    run.stdin.write(b"mpd %s %d\n" % (instant, len(body)) + body); run.stdin.flush()
    return run.stdout.readline()
first = answer(b"2024-01-01T00:00:20Z", mpd(10))
shutil.rmtree("h")
second = answer(b"2024-01-01T00:00:24Z", mpd(12))
run.stdin.close()
good = first.startswith(b"frame 0 ok") and second == b"write fault\n" and run.wait(20) == 4 and not os.path.exists("h")
print("ok   a folder that vanishes" if good else f"BAD  a folder that vanishes: {first} {second}")
sys.exit(not good)
PY

# A name of the program that is no text is none of the words.
python3 - "$bridge" <<'PY' || failed=1
import os, subprocess, sys
got = subprocess.run([b"\xff\xfe", "show", "vod.mpd", "--base=https://h.example/"], executable=sys.argv[1], capture_output=True)
good = got.returncode == 0 and got.stdout.startswith(b"mpd ")
print("ok   a name that is no text" if good else f"BAD  a name that is no text: {got.returncode} {got.stdout[:60]}")
sys.exit(not good)
PY

# An update is published before the next one is sent, also where the run is killed behind it; and of standard input no byte is read behind a
# header that is rejected.
python3 - "$bridge" <<'PY' || failed=1
import os, subprocess, sys, time
command = [sys.argv[1], "follow", "m.mpd", "--base=https://h.example/", "--out=ahead"]
mpd = (b'<MPD xmlns="urn:mpeg:dash:schema:mpd:2011" type="dynamic" availabilityStartTime="2024-01-01T00:00:00Z" timeShiftBufferDepth="PT20S">'
       b'<Period id="p" start="PT0S"><AdaptationSet mimeType="video/mp4"><SegmentTemplate duration="2" initialization="i" media="$Number$"/>'
       b'<Representation id="0" bandwidth="1"/></AdaptationSet></Period></MPD>')
def update(seconds):
    return b"mpd 2024-01-01T00:10:%02dZ %d\n" % (seconds, len(mpd)) + mpd
def last():
    return open("ahead/t0.m3u8").read().split("\n")[-2]
run = subprocess.Popen(command, stdin=subprocess.PIPE, stdout=subprocess.PIPE)
published = []
for seconds in (0, 2, 4):
    run.stdin.write(update(seconds)); run.stdin.flush(); run.stdout.readline()
    published.append(last())
run.kill(); run.wait()
good = published == ["https://h.example/%d" % n for n in (300, 301, 302)] and last() == published[-1]
print("ok   published before the next update" if good else f"BAD  published before the next update: {published} {last()}")
before = update(0) + b"mpd nonsense 5\n"
open("updates", "wb").write(before + b"hello" + update(2))
with open("updates", "rb", buffering=0) as updates:
    answer = subprocess.run(command, stdin=updates, capture_output=True)
    read = updates.tell()
exact = answer.returncode == 1 and read == len(before)
print("ok   nothing read ahead" if exact else f"BAD  nothing read ahead: {read} of {len(before)}, {answer.stdout[-60:]}")
sys.exit(not (good and exact))
PY
exit $failed
