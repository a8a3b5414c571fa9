# Sourced by the scripts that time the built program: `$here` is the repository, `$work` a folder that is removed at the end, `$bridge` the
# program: that which BRIDGE names, or else this repository's, which is proved first where that isn't kept. Scripts of python3 can take
# `measure` and `media`.
here=$(cd "$(dirname "$0")/.." && pwd)
work=$(mktemp -d)
trap 'rm -rf "$work"' EXIT
export PYTHONPATH=$here/bench

bridge=${BRIDGE:-$here/crates/bridge/out/bridge}
[ -n "${BRIDGE:-}" ] ||
    (cd "$here/crates/bridge" && rt run -- hls data/vod.mpd --base=https://h.example/ --out="bench-$$" > "$work/build.log" 2>&1; rm -rf "bench-$$")
[ -x "$bridge" ] || { tail "$work/build.log"; exit 1; }
