#!/usr/bin/env bash
# Plays the live MPD that `examples/follow-hls.sh` makes of a live HLS presentation in whatever is installed of ffmpeg, GStreamer, VLC,
# streamlink and Chromium: that of `follow-hls` in both forms, and that of `follow-hls-times`, with the script begun with the packager and
# the player 14 s later, and with both begun 34 s after the packager. They play for 40 s each, one after the other, half an hour in all.
# ffmpeg is the packager: 2 s a segment, six in the list, 25 frames a second, names that pass from 099 to 100. nginx serves all. For each it
# prints how many frames the player shows, how many of them are out of order, shown again or damaged, how many are missing between the first
# and the last one, and which they are, as runs of numbers from the packager's start. Frames are compared byte by byte with those that
# ffmpeg decodes of the media files. Chromium has no DASH player: a page (players-live.html) appends the segments, and reads the numbers
# that are drawn into the frames; for it the last column has how many milliseconds audio and video are apart at most.
#
# It wants ffmpeg, nginx, curl and python3, and `rt` where no program is named: `bench/players-live.sh [<program> [<name>..]]`, with the
# names of players and commands that alone are to be tried. docs/LIVE.md has what it printed.
set -euo pipefail
if [ $# -ge 1 ]; then
    bridge=$(realpath "$1")
    shift
    here=$(cd "$(dirname "$0")/.." && pwd)
    work=$(mktemp -d)
    trap 'rm -rf "$work"' EXIT
else
    # shellcheck source=bench/program.sh
    source "$(dirname "$0")/program.sh"
fi
mkdir "$work/bin" "$work/run"
ln -s "$bridge" "$work/bin/bridge"
export PATH=$work/bin:/usr/sbin:$PATH
python3 "$here/bench/players_live.py" "$here/examples/follow-hls.sh" "$work/run" "$@"
