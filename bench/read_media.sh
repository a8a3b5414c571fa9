#!/usr/bin/env bash
# Times the reading of a media playlist of 5.3 MB with 100,000 segments: hls_media's `read_media`, and ffprobe and python3-m3u8
# where they are installed. Each is a program of its own that reads the file; the shortest of eleven runs counts, with its
# largest memory. Then the same playlist with a map's address of 1,900 bytes, and one whose segments have absolute addresses in one
# folder.
#
# It wants `rt` and python3.
set -euo pipefail
here=$(cd "$(dirname "$0")/.." && pwd)
work=$(mktemp -d)
trap 'rm -rf "$work"' EXIT

python3 - "$work" <<'PY'
import os, sys
def playlist(name, map_uri, uri="segments/video-%012d.m4s"):
    rows = "".join("#EXTINF:4.096000,\n" + uri % k + "\n" for k in range(100_000))
    head = '#EXTM3U\n#EXT-X-VERSION:6\n#EXT-X-TARGETDURATION:4\n#EXT-X-MAP:URI="%s"\n' % map_uri
    os.makedirs(os.path.join(sys.argv[1], name))
    open(os.path.join(sys.argv[1], name, "v.m3u8"), "w").write(head + rows + "#EXT-X-ENDLIST\n")
playlist("plain", "init.mp4")
playlist("long", "i" * 1900 + ".mp4")
playlist("absolute", "init.mp4", "https://h.example/a/b/s%d.m4s")
PY

# Ours: a program beside copies of the libraries.
mkdir -p "$work/ours/crates"
for crate in bridge_io bridge_ends byte_scan exact_time url_parts hls_lines hls_media; do
    cp -r "$here/crates/$crate" "$work/ours/crates/"
    grep "^$crate:" "$here/crates.txt" >> "$work/ours/crates.txt"
done
echo 'reads: bridge_ends bridge_io hls_media url_parts' >> "$work/ours/crates.txt"
mkdir -p "$work/ours/crates/reads/src"
cat > "$work/ours/crates/reads/src/main.rt" <<'RS'
//! Reads a playlist.
#![tactic(auto)]

use bridge_ends::FolderStore;
use bridge_io::{Name, slurp};
use hls_media::read_media;
use std::process::ExitCode;
use url_parts::Base;

fn main(rt: HostRuntime) -> ExitCode {
    let alloc = rt.alloc();
    let Ok(name) = Name::read(alloc, "v.m3u8") else {
        return ExitCode::from(1);
    };
    let Ok(base) = Base::of(alloc, "https://h.example/v.m3u8") else {
        return ExitCode::from(1);
    };
    let Ok(mut store) = FolderStore::new(rt, alloc, ".") else {
        return ExitCode::from(1);
    };
    let Ok(bytes) = slurp(alloc, &mut store, &name, 8_388_608) else {
        return ExitCode::from(1);
    };
    match read_media(alloc, bytes.as_slice(), &base) {
        Ok(_) => ExitCode::from(0),
        Err(_) => ExitCode::from(1),
    }
}
RS
cp "$work/plain/v.m3u8" "$work/ours/crates/reads/"
(cd "$work/ours" && git init -q && cd crates/reads && rt run > "$work/build.log" 2>&1) || { tail "$work/build.log"; exit 1; }
ours=$work/ours/crates/reads/out/reads

python3 "$here/bench/measure.py" read_media "$work/plain/v.m3u8" "$ours"
python3 "$here/bench/measure.py" "read_media, long map" "$work/long/v.m3u8" "$ours"
python3 "$here/bench/measure.py" "read_media, absolute addresses" "$work/absolute/v.m3u8" "$ours"
if command -v ffprobe > /dev/null; then
    python3 "$here/bench/measure.py" ffprobe "$work/plain/v.m3u8" ffprobe -v quiet -allowed_extensions ALL v.m3u8
fi
if python3 -c 'import m3u8' 2> /dev/null; then
    python3 "$here/bench/measure.py" m3u8 "$work/plain/v.m3u8" python3 -c 'import m3u8; m3u8.load("v.m3u8")'
fi
