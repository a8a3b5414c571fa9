#!/usr/bin/env bash
# Times `bridge_serve` over one TCP connection that is kept open, and beside it nginx, which sends the same bytes from a file: a sample's
# master and playlist, an MPD of 120,000 segments from the translation that is kept, and a thousand MPDs in turn. Then it sends 10,000
# mangled requests, each to a process of its own: each is answered by a status that HTTP has for it, or the connection ends. At last it asks
# for manifests that name more than is read: each is rejected by 422, with at most 5 s and 512 MB, which is what the unit gives a process.
#
# It wants `rt`, python3, ab (apache2-utils), nginx and systemd-socket-activate, and proves the program first where that isn't kept;
# SERVE names one that is built, MANGLED another number of requests.
set -euo pipefail
here=$(cd "$(dirname "$0")/.." && pwd)
work=$(mktemp -d)
chmod 755 "$work"
trap 'rm -rf "$work"' EXIT
serve=${SERVE:-$here/crates/bridge_serve/out/bridge_serve}
[ -n "${SERVE:-}" ] || (cd "$here/crates/bridge_serve" && rt run -- --version > "$work/build.log" 2>&1)
[ -x "$serve" ] || { tail "$work/build.log"; exit 1; }

cat > "$work/serve.py" <<'PY'
import http.client, os, random, re, subprocess, sys, time

serve, work = sys.argv[1:]
os.chdir(work)
os.makedirs("site")
os.makedirs("tmp")
BASE = "--base=https://h.example/"

LANGUAGES = ["en", "de", "fr", "es", "it", "pt"]

def mpd(name, tracks, timeline):
    with open(f"site/{name}", "w") as it:
        it.write('<MPD xmlns="urn:mpeg:dash:schema:mpd:2011"><Period>')
        for k in range(tracks):
            it.write(f'<AdaptationSet mimeType="{"audio" if k else "video"}/mp4" lang="{LANGUAGES[k]}"><Representation id="v{k}" bandwidth="900000">'
                     '<SegmentTemplate timescale="1000" initialization="$RepresentationID$/i.mp4" media="$RepresentationID$/s$Number$.m4s">'
                     f'<SegmentTimeline>{timeline}</SegmentTimeline></SegmentTemplate></Representation></AdaptationSet>')
        it.write("</Period></MPD>")

mpd("sample.mpd", 3, '<S t="0" d="2000" r="299"/>')
mpd("big.mpd", 6, "".join(f'<S d="{2000 + k * 7_919 % 100}"/>' for k in range(20_000)))
for k in range(1000):
    mpd(f"m{k}.mpd", 3, f'<S t="0" d="2000" r="{299 + k % 7}"/>')
with open("nginx.conf", "w") as it:
    it.write("daemon off; pid nginx.pid; error_log stderr error; worker_processes 1; events {} http { access_log off; sendfile on; "
             "keepalive_requests 1000000; client_body_temp_path tmp; proxy_temp_path tmp; fastcgi_temp_path tmp; uwsgi_temp_path tmp; "
             "scgi_temp_path tmp; server { listen 127.0.0.1:8090; root site; } }")
running = [subprocess.Popen(["nginx", "-p", work, "-e", "stderr", "-c", "nginx.conf"], stderr=subprocess.DEVNULL),
           subprocess.Popen(["systemd-socket-activate", "--accept", "--inetd", "-l", "127.0.0.1:8091", serve, BASE], cwd="site",
                            stdout=subprocess.DEVNULL, stderr=subprocess.DEVNULL)]
time.sleep(1)

def copied(name, file):
    """Keeps an answer as a file, for nginx."""
    peer = http.client.HTTPConnection("127.0.0.1", 8091)
    peer.request("GET", f"/{name}.mpd/{file}")
    answer = peer.getresponse()
    os.makedirs(f"site/{name}.files", exist_ok=True)
    with open(f"site/{name}.files/{file}", "wb") as it:
        it.write(answer.read())
    assert answer.status == 200
    peer.close()

def rate(port, path, count):
    """Answers a second over one connection, and the bytes of each."""
    told = subprocess.run(["ab", "-q", "-k", "-c", "1", "-n", str(count), f"http://127.0.0.1:{port}{path}"],
                          check=True, capture_output=True, text=True).stdout
    def number(label):
        return float(re.search(rf"{label}: +([\d.]+)", told)[1])
    assert number("Failed requests") == 0 and number("Keep-Alive requests") == count and "Non-2xx" not in told, told
    return number("Requests per second"), int(number("Document Length"))

try:
    for label, name, file, count in [
        ("a sample's master", "sample", "master.m3u8", 5000),
        ("a sample's playlist of 300 segments", "sample", "t0.m3u8", 5000),
        ("120,000 segments, kept: the master", "big", "master.m3u8", 500),
        ("120,000 segments, kept: a playlist of 20,000", "big", "t0.m3u8", 500),
    ]:
        copied(name, file)
        ours, length = max(rate(8091, f"/{name}.mpd/{file}", count) for _ in range(3))
        files, same = max(rate(8090, f"/{name}.files/{file}", count) for _ in range(3))
        assert length == same
        print(f"{label}: {ours:.0f} answers a second of {length} bytes; nginx {files:.0f}, ours to its {ours / files:.2f}", flush=True)
    peer = http.client.HTTPConnection("127.0.0.1", 8091)
    begun = time.perf_counter()
    for k in range(1000):
        peer.request("GET", f"/m{k}.mpd/t0.m3u8")
        answer = peer.getresponse()
        assert answer.status == 200 and answer.read().startswith(b"#EXTM3U"), answer.status
    print(f"a thousand MPDs in turn: {1000 / (time.perf_counter() - begun):.0f} answers a second", flush=True)
    peer.close()
finally:
    for process in running:
        process.terminate()
        process.wait()

# what is no request ends its connection with an error of HTTP's, or is answered
random.seed(1)
plain = b"GET /sample.mpd/t0.m3u8 HTTP/1.1\r\nHost: h\r\nIf-None-Match: \"a\", W/\"b\"\r\n\r\n"
statuses = {}
for _ in range(int(os.environ.get("MANGLED", 10_000))):
    text = bytearray(plain)
    for _ in range(random.randint(1, 4)):
        at = random.randrange(len(text))
        text[at:at + random.randint(0, 2)] = bytes(random.randrange(256) for _ in range(random.randint(0, 3)))
    run = subprocess.run([serve, BASE], input=bytes(text), cwd="site", capture_output=True, timeout=20)
    assert run.returncode in (0, 1), run
    status = run.stdout[9:12].decode() if run.stdout else "none"
    statuses[status] = statuses.get(status, 0) + 1
assert set(statuses) <= {"200", "400", "404", "405", "414", "431", "501", "505", "none"}, statuses
print("mangled:", ", ".join(f"{count} of {status}" for status, count in sorted(statuses.items())))

# what is read for a manifest has a limit
def indexed(name, count, file):
    with open(f"site/{name}", "w") as it:
        it.write('<MPD xmlns="urn:mpeg:dash:schema:mpd:2011"><Period duration="PT1S"><AdaptationSet mimeType="video/mp4" '
                 'codecs="avc1.42c01e">')
        for k in range(count):
            it.write(f'<Representation id="{k}" bandwidth="{k + 1}"><BaseURL>{file(k)}</BaseURL><SegmentBase indexRange="800-7999999"/>'
                     "</Representation>")
        it.write("</AdaptationSet></Period></MPD>")

def hard_links(count, ending):
    for k in range(1, count):
        os.link(f"site/0{ending}", f"site/{k}{ending}")

with open("site/0.mp4", "wb") as it:
    it.truncate(8_000_000)
with open("site/0.m3u8", "w") as it:
    it.write("#EXTM3U\n#EXT-X-TARGETDURATION:1\n" + "#EXTINF:1,\na.m4s\n" * 440_000)
hard_links(200, ".mp4")
hard_links(200, ".m3u8")
with open("site/master.m3u8", "w") as it:
    it.write("#EXTM3U\n" + "".join(f'#EXT-X-STREAM-INF:BANDWIDTH={k + 1},CODECS="avc1.42c01e"\n{k}.m3u8\n' for k in range(200)))
indexed("many.mpd", 40_000, lambda k: "0.mp4")
indexed("large.mpd", 200, lambda k: f"{k}.mp4")
for what, path, words in [
    ("an MPD of 40,000 Representations, each an index of 8 MB in one file", "/many.mpd/master.m3u8", ["--index=yes"]),
    ("an MPD of 200, each an index of 8 MB in a file of its own", "/large.mpd/master.m3u8", ["--index=yes"]),
    ("a master of 200 playlists of 8 MB", "/master.m3u8/manifest.mpd", []),
]:
    begun = time.perf_counter()
    run = subprocess.Popen([serve, BASE, *words], cwd="site", stdin=subprocess.PIPE, stdout=subprocess.PIPE)
    run.stdin.write(f"GET {path} HTTP/1.1\r\nHost: h\r\n\r\n".encode())
    run.stdin.close()
    answer = run.stdout.read()
    _, status, used = os.wait4(run.pid, 0)
    seconds, megabytes = time.perf_counter() - begun, used.ru_maxrss / 1000
    line = answer.split(b"\r\n\r\n", 1)[-1].decode().strip()
    print(f"{what}: {answer[9:12].decode()} {line}, {seconds:.1f} s, {megabytes:.0f} MB")
    assert answer[9:12] == b"422" and seconds <= 5 and megabytes <= 512, what
for name in os.listdir("site"):
    if re.fullmatch(r"(\d+\.(mp4|m3u8)|master\.m3u8|many\.mpd|large\.mpd)", name):
        os.remove(f"site/{name}")
made = {"big.mpd", "sample.mpd", "big.files", "sample.files", *(f"m{k}.mpd" for k in range(1000))}
print("written:", sorted(set(os.listdir("site")) - made) or "nothing")
PY
python3 "$work/serve.py" "$serve" "$work"
