#!/usr/bin/env bash
# Times `bridge make --seed=7`, which writes an MPD of 120,000 segments and its six playlists, and beside it the readers of yt-dlp and
# streamlink, where they are installed, which list the segments of the same MPD. The shortest of eleven runs counts, with the largest
# memory.
#
# It wants `rt` and python3, and proves the program first where that isn't kept.
set -euo pipefail
source "$(dirname "$0")/program.sh"

cat > "$work/make.py" <<'PY'
import os, sys

from measure import measure
from readers import installed

bridge, work = sys.argv[1:]
os.chdir(work)
ms, mib = measure([bridge, "make", "--seed=7"])
print(f"make: {ms:.0f} ms, {mib:.1f} MiB")
for name, command in installed().items():
    if found := measure([*command, "out/source.mpd"]):
        print(f"{name}: {found[0]:.0f} ms, {found[1]:.1f} MiB")
PY
python3 "$work/make.py" "$bridge" "$work"
