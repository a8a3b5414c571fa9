#!/usr/bin/env bash
# Times `bridge hls` of an MPD of 4 MB with 100,000 S, and beside it on the same file whatever is installed of xmllint, ffprobe, GStreamer's
# gst-discoverer-1.0, and the readers of yt-dlp and streamlink; then how time and memory grow with the number of S. Each command is run
# eleven times, the shortest run counts, with its largest memory. The tables go to docs/PERFORMANCE.md, whose other sections stay.
#
# It wants `rt` and python3, and proves the program first where that isn't kept.
set -euo pipefail
source "$(dirname "$0")/program.sh"

cat > "$work/hls.py" <<'PY'
import os, re, shutil, sys

from measure import measure
from media import timeline_mpd
from readers import installed

bridge, work, table = sys.argv[1:]
os.chdir(work)

def ours(name):
    return measure([bridge, "hls", name, "--base=https://h.example/"])

sizes = {count: timeline_mpd(count) for count in (1_000, 10_000, 100_000)}
big = sizes[100_000]
ms, mb = ours(big)
rows = [("bridge hls", ms, mb)]
for label, command in [
    ("xmllint --noout", ["xmllint", "--noout", big]),
    ("ffprobe", ["ffprobe", "-v", "quiet", big]),
    ("gst-discoverer-1.0", ["gst-discoverer-1.0", "file://" + os.path.abspath(big)]),
    *((name, [*command, big]) for name, command in installed().items()),
]:
    if shutil.which(command[0]):
        found = measure(command)
        rows.append((label, *(found or (0, 0))))
with open("/proc/cpuinfo") as it:
    processors = re.findall(r"^model name\s*: (.*)$", it.read(), re.M) or ["not known"]
with open("/proc/meminfo") as it:
    memory = int(it.read().split()[1]) / 2**20
with open("/etc/os-release") as it:
    system = re.search(r'^PRETTY_NAME="?([^"\n]*)', it.read(), re.M)[1]
out = ["# Performance", "",
       "Time and memory of each command, beside other tools, and with hostile input. Each table names its script in `bench`. The shortest of eleven",
       "runs counts, with the largest memory; for hostile input the longest of three. *(B)* marks what was measured on a machine at half the speed,",
       "beside other checks.", "",
       "| machine | |", "|---|---|", f"| processor | {len(processors)}; {processors[0]} |", f"| memory | {memory:.0f} GB |", f"| system | {system} |", "",
       f"`bridge hls` of an MPD of {os.path.getsize(big) / 1e6:.1f} MB with 100,000 S, which writes a playlist of "
       f"{os.path.getsize('out/t0.m3u8') / 1e6:.1f} MB, beside other readers of the same file. `bench/hls.sh`",
       "measures this and writes this part of the page.", "",
       "| command | ms | MB | our time to its | our memory to its |", "|---|---|---|---|---|"]
for label, t, m in rows:
    if t:
        out.append(f"| {label} | {t:.0f} | {m:.1f} | {ms / t:.2f} | {mb / m:.2f} |")
    else:
        out.append(f"| {label} | it refuses the file | | | |")
out += ["", "How `bridge hls` grows:", "", "| S | MB of MPD | ms | MB |", "|---|---|---|---|"]
for count, name in sizes.items():
    t, m = ours(name)
    out.append(f"| {count:,} | {os.path.getsize(name) / 1e6:.2f} | {t:.1f} | {m:.1f} |")
text = "\n".join(out) + "\n"
print(text)
with open(table) as it:
    _, mark, others = it.read().partition("\n## ")
with open(table, "w") as it:
    it.write(text + mark + others)
PY
python3 "$work/hls.py" "$bridge" "$work" "$here/docs/PERFORMANCE.md"
