#!/usr/bin/env bash
# Times the rules of MPDs beside the reading of their trees: an MPD of 8 MB with 200,000 S elements, one with 300,000 Periods that
# begin one after another, and a dynamic one with 360,000 Periods of different ids, which is refused. Each run is a program of its
# own that reads the file; the shortest of eleven runs counts, with its largest memory.
#
# It wants `rt` and python3.
set -euo pipefail
here=$(cd "$(dirname "$0")/.." && pwd)
work=$(mktemp -d)
trap 'rm -rf "$work"' EXIT

python3 - "$work" <<'PY'
import os, sys
def mpd(name, attributes, inside):
    os.makedirs(os.path.join(sys.argv[1], name))
    text = f'<?xml version="1.0"?>\n<MPD xmlns="urn:mpeg:dash:schema:mpd:2011"{attributes}>{inside}</MPD>\n'
    open(os.path.join(sys.argv[1], name, "m.mpd"), "w").write(text)
rows = "".join('<S t="%010d" d="0000096256" r="0"/>\n' % (96256 * k) for k in range(200_000))
mpd("entries", "", '<Period><AdaptationSet mimeType="video/mp4"><Representation id="v" bandwidth="1000">'
    '<SegmentTemplate timescale="48000" initialization="i.mp4" media="s$Number$.m4s"><SegmentTimeline>\n' + rows
    + "</SegmentTimeline></SegmentTemplate></Representation></AdaptationSet></Period>")
mpd("periods", "", "".join('<Period start="PT%dS"/>' % k for k in range(300_000)))
mpd("ids", ' type="dynamic" availabilityStartTime="2024-01-01T00:00:00Z"', "".join('<Period id="%06d"/>' % k for k in range(360_000)))
PY

mkdir -p "$work/ours/crates"
for crate in bridge_io bridge_ends byte_scan exact_time iso_time url_parts mpd_entries mpd_values mpd_tree mpd_text mpd_profile mpd_levels mpd_rules; do
    cp -r "$here/crates/$crate" "$work/ours/crates/"
    rm -rf "$work/ours/crates/$crate/out"
    grep "^$crate:" "$here/crates.txt" >> "$work/ours/crates.txt"
done
echo 'judges: bridge_ends bridge_io mpd_rules mpd_text' >> "$work/ours/crates.txt"
mkdir -p "$work/ours/crates/judges/src"
cat > "$work/ours/crates/judges/src/main.rt" <<'RS'
//! Reads the tree of a file. With the word `rules` it then judges it by the rules.
#![tactic(auto)]

use bridge_ends::FolderStore;
use bridge_io::{Name, slurp};
use mpd_rules::rules;
use mpd_text::read_tree;
use std::env;
use std::process::ExitCode;

fn is_judged(rt: &HostRuntime) -> bool {
    env::args(rt).map_or(false, |mut words| words.nth(1).is_some())
}

fn main(rt: HostRuntime) -> ExitCode {
    let alloc = rt.alloc();
    let is_judged = is_judged(&rt);
    let Ok(name) = Name::read(alloc, "m.mpd") else {
        return ExitCode::from(1);
    };
    let Ok(mut store) = FolderStore::new(rt, alloc, ".") else {
        return ExitCode::from(1);
    };
    let Ok(bytes) = slurp(alloc, &mut store, &name, 8_388_608) else {
        return ExitCode::from(1);
    };
    let Ok(tree) = read_tree(alloc, bytes.as_slice()) else {
        return ExitCode::from(1);
    };
    if is_judged {
        let _ = rules(alloc, &tree);
    }
    ExitCode::from(0)
}
RS
cp "$work/entries/m.mpd" "$work/ours/crates/judges/"
(cd "$work/ours" && git init -q && cd crates/judges && rt run > "$work/build.log" 2>&1) || { tail "$work/build.log"; exit 1; }
ours=$work/ours/crates/judges/out/judges

for file in entries periods ids; do
    python3 "$here/bench/measure.py" "$file, tree" "$work/$file/m.mpd" "$ours"
    python3 "$here/bench/measure.py" "$file, tree and rules" "$work/$file/m.mpd" "$ours" rules
done
