#!/usr/bin/env bash
# Times the reading of masters of about 8 MB: hls_master's `read_master` in a program of its own that reads the file; the
# shortest of five runs counts, with its largest memory. One master has 200,000 variants of 200 addresses, one as many
# addresses as variants, which is refused at its end, the third 130,000 renditions with different names.
#
# It wants `rt` and python3.
set -euo pipefail
here=$(cd "$(dirname "$0")/.." && pwd)
work=$(mktemp -d)
trap 'rm -rf "$work"' EXIT

python3 - "$work" <<'PY'
import os, sys
def master(name, lines):
    os.makedirs(os.path.join(sys.argv[1], name))
    open(os.path.join(sys.argv[1], name, "m.m3u8"), "w").write("#EXTM3U\n" + "".join(lines))
variant = "#EXT-X-STREAM-INF:BANDWIDTH=1\nv%06d\n"
rendition = '#EXT-X-MEDIA:TYPE=AUDIO,GROUP-ID="g",NAME="%06d",URI="%06d"\n'
master("few", (variant % (k % 200) for k in range(200_000)))
master("many", (variant % k for k in range(200_000)))
master("names", (rendition % (k, k) for k in range(130_000)))
PY

# A program beside copies of the libraries.
mkdir -p "$work/ours/crates"
for crate in bridge_io bridge_ends byte_scan url_parts mpd_values hls_lines hls_master; do
    cp -r "$here/crates/$crate" "$work/ours/crates/"
    grep "^$crate:" "$here/crates.txt" >> "$work/ours/crates.txt"
done
echo 'reads: bridge_ends bridge_io hls_master url_parts' >> "$work/ours/crates.txt"
mkdir -p "$work/ours/crates/reads/src"
cat > "$work/ours/crates/reads/src/main.rt" <<'RS'
//! Reads a master.
#![tactic(auto)]

use bridge_ends::FolderStore;
use bridge_io::{Name, slurp};
use hls_master::{MasterFault, read_master};
use std::process::ExitCode;
use url_parts::Base;

fn main(rt: HostRuntime) -> ExitCode {
    let alloc = rt.alloc();
    let Ok(name) = Name::read(alloc, "m.m3u8") else {
        return ExitCode::from(1);
    };
    let Ok(base) = Base::of(alloc, "https://h.example/m.m3u8") else {
        return ExitCode::from(1);
    };
    let Ok(mut store) = FolderStore::new(rt, alloc, ".") else {
        return ExitCode::from(1);
    };
    let Ok(bytes) = slurp(alloc, &mut store, &name, 8_388_608) else {
        return ExitCode::from(1);
    };
    match read_master(alloc, bytes.as_slice(), &base) {
        Ok(_) => ExitCode::from(0),
        Err(MasterFault::Limit(_)) => ExitCode::from(0),
        Err(MasterFault::NoTracks(_)) => ExitCode::from(0),
        Err(_) => ExitCode::from(1),
    }
}
RS
cp "$work/few/m.m3u8" "$work/ours/crates/reads/"
(cd "$work/ours" && git init -q && cd crates/reads && rt run > "$work/build.log" 2>&1) || true
ours=$work/ours/crates/reads/out/reads
[ -x "$ours" ] || { tail "$work/build.log"; exit 1; }

python3 "$here/bench/measure.py" "200 addresses" "$work/few/m.m3u8" "$ours"
python3 "$here/bench/measure.py" "200,000 addresses" "$work/many/m.m3u8" "$ours"
python3 "$here/bench/measure.py" "130,000 renditions" "$work/names/m.m3u8" "$ours"
