#!/usr/bin/env bash
# Plays what `bridge` writes of made presentations in whatever is installed of ffmpeg, GStreamer, VLC, streamlink, yt-dlp and Chromium.
# For each it prints how many frames the player shows in order. Each frame has its number drawn into it. Frames are compared byte by byte
# with those that ffmpeg decodes of the media files themselves; VLC's, streamlink's and yt-dlp's are decoded from the file that they write.
# Chromium's come from a canvas, frame after frame by seeking: their numbers are read, and their colours compared.
#
# First the playlists of `bridge hls`: of one Period, of two Periods, and of segments that are ranges of one file. Then a master of two
# families of audio codecs in both forms. Then the MPDs of `bridge dash` and `bridge dash-times` in both forms; Chromium has no DASH player,
# so a page (players.html) appends the segments.
#
# It wants ffmpeg and python3, and `rt` where no program is named: `bench/players.sh [<program>]`. docs/PLAYLISTS.md and docs/MPD.md have
# what it printed.
set -euo pipefail
if [ $# -eq 1 ]; then
    bridge=$(realpath "$1")
    here=$(cd "$(dirname "$0")/.." && pwd)
    work=$(mktemp -d)
    trap 'rm -rf "$work"' EXIT
else
    # shellcheck source=bench/program.sh
    source "$(dirname "$0")/program.sh"
fi
python3 "$here/bench/players.py" "$bridge" "$work"
