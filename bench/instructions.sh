#!/usr/bin/env bash
# Counts the instructions of `bridge hls` of an MPD of 100,000 S, of `dash` of the playlists that it writes, of `check` of both, and of
# `make --seed=7`. Valgrind's callgrind counts them, so they are the same on each machine that runs the same program.
#
# It wants `rt`, python3 and valgrind, and proves the program first where that isn't kept.
set -euo pipefail
source "$(dirname "$0")/program.sh"

cat > "$work/instructions.py" <<'PY'
import os, re, subprocess, sys

from media import timeline_mpd

bridge, work = sys.argv[1:]
os.chdir(work)

def instructions(*words):
    """Millions of instructions of a run."""
    told = subprocess.run(["valgrind", "--tool=callgrind", "--callgrind-out-file=/dev/null", bridge, *words], capture_output=True, text=True)
    assert told.returncode == 0, told.stdout + told.stderr
    return int(re.search(r"Collected : (\d+)", told.stderr)[1]) / 1e6

base = "--base=https://h.example/"
mpd = timeline_mpd(100_000)
print("| command | million instructions |\n|---|---|")
for words in (["hls", mpd, base, "--out=playlists"], ["dash", "playlists/master.m3u8", base, "--out=mpds"],
              ["check", mpd, "playlists/master.m3u8", base], ["make", "--seed=7", "--out=made"]):
    print(f"| `{' '.join(words)}` | {instructions(*words):.0f} |", flush=True)
PY
python3 "$work/instructions.py" "$bridge" "$work"
