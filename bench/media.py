"""Media files and an MPD for the scripts of this folder: boxes that are made, an MPD of many S, what ffmpeg decodes, and a server of the
current folder on 127.0.0.1."""
import http.server
import re
import struct
import subprocess
import threading


def box(kind, *inside):
    """A box (ISO/IEC 14496-12, 4.2)."""
    body = b"".join(inside)
    return struct.pack(">I4s", 8 + len(body), kind) + body


def initial(scale, *more):
    """An initialization part whose media has so many ticks a second (8.4.2)."""
    header = box(b"mdhd", struct.pack(">6I", 0, 0, 0, scale, 0, 0))
    return box(b"moov", box(b"trak", box(b"mdia", header)), *more)


def fragment(start, *more):
    """A segment whose first sample is decoded at so many ticks (8.8.12)."""
    return box(b"moof", box(b"traf", box(b"tfdt", struct.pack(">IQ", 1 << 24, start))), *more) + box(b"mdat", bytes(9))


def timeline_mpd(count):
    """An MPD with one Representation and so many S, whose durations differ."""
    rows, at = [], 0
    for k in range(count):
        d = 180_000 + k * 7_919 % 1_000
        rows.append(f'          <S t="{at:012d}" d="{d}"/>\n')
        at += d
    return put(f"{count}.mpd", '<?xml version="1.0"?>\n<MPD xmlns="urn:mpeg:dash:schema:mpd:2011" '
               'profiles="urn:mpeg:dash:profile:full:2011" minBufferTime="PT2S">\n<Period>\n<AdaptationSet mimeType="video/mp4">\n'
               '<Representation id="v0" bandwidth="1000000" codecs="avc1.64001f">\n'
               '<SegmentTemplate timescale="90000" initialization="v0/init.mp4" media="v0/$Number%06d$.m4s">\n<SegmentTimeline>\n'
               + "".join(rows) + "</SegmentTimeline>\n</SegmentTemplate>\n</Representation>\n</AdaptationSet>\n</Period>\n</MPD>\n")


def put(name, content):
    with open(name, "wb") as it:
        it.write(content if isinstance(content, bytes) else content.encode())
    return name


def ran(*command):
    """What a command prints."""
    return subprocess.run(command, check=True, stdout=subprocess.PIPE, stderr=subprocess.DEVNULL, timeout=120).stdout


def decoded(source, stream):
    """The sums of the frames that ffmpeg decodes of a file's or URL's first video (v) or audio (a)."""
    frames = ran("ffmpeg", "-i", source, "-map", f"0:{stream}:0", "-f", "framemd5", "-fps_mode", "passthrough", "-")
    return re.findall(rb", ([0-9a-f]{32})$", frames, re.M)


class Quiet(http.server.SimpleHTTPRequestHandler):
    """Answers a range of bytes, as players ask for it."""

    def log_message(self, *_):
        pass

    def do_GET(self):
        asked = re.fullmatch(r"bytes=(\d+)-(\d*)", self.headers.get("Range", ""))
        try:
            with open(self.translate_path(self.path), "rb") as it:
                content = it.read()
        except OSError:
            return self.send_error(404)
        first, last = (int(asked[1]), int(asked[2] or len(content) - 1)) if asked else (0, len(content) - 1)
        part = content[first:last + 1]
        self.send_response(206 if asked else 200)
        self.send_header("Content-Length", str(len(part)))
        if asked:
            self.send_header("Content-Range", f"bytes {first}-{first + len(part) - 1}/{len(content)}")
        self.end_headers()
        self.wfile.write(part)


def served():
    """A server of the current folder, and the URL of that."""
    server = http.server.ThreadingHTTPServer(("127.0.0.1", 0), Quiet)
    threading.Thread(target=server.serve_forever, daemon=True).start()
    return server, f"http://127.0.0.1:{server.server_port}/"
