#!/usr/bin/env bash
# Times the reading of an MPD of 8 MB with 200,000 S elements: mpd_text's `tree_from_bytes`, the Rust crate roxmltree 0.16 and
# libxml2's tree; and the first with a walk behind it that asks each S for its `t`, `d` and `r` with their places. Each is a program of its
# own that reads the file; the shortest of eleven runs counts, with its largest memory.
#
# It wants `rt`, cargo, python3, and Debian's packages librust-roxmltree-dev and libxml2-utils.
set -euo pipefail
here=$(cd "$(dirname "$0")/.." && pwd)
work=$(mktemp -d)
trap 'rm -rf "$work"' EXIT

python3 - "$work/m.mpd" <<'PY'
import sys
rows = "".join('<S t="%010d" d="0000096256" r="0"/>\n' % (96256 * k) for k in range(200_000))
head = '<?xml version="1.0"?>\n<MPD xmlns="urn:mpeg:dash:schema:mpd:2011"><Period><AdaptationSet mimeType="video/mp4">' \
    '<Representation id="v" bandwidth="1000"><SegmentTemplate timescale="48000" media="s$Number$.m4s"><SegmentTimeline>\n'
tail = "</SegmentTimeline></SegmentTemplate></Representation></AdaptationSet></Period></MPD>\n"
open(sys.argv[1], "w").write(head + rows + tail)
PY

# Ours: a program beside copies of the libraries.
mkdir -p "$work/ours/crates"
for crate in bridge_io bridge_ends byte_scan mpd_tree mpd_text; do
    cp -r "$here/crates/$crate" "$work/ours/crates/"
    grep "^$crate:" "$here/crates.txt" >> "$work/ours/crates.txt"
done
echo 'reads: bridge_ends bridge_io mpd_text mpd_tree' >> "$work/ours/crates.txt"
mkdir -p "$work/ours/crates/reads/src"
cat > "$work/ours/crates/reads/src/main.rt" <<'RS'
//! Reads the tree of a file. With the word `walk` it then asks each element of the timeline for its attributes.
#![tactic(auto)]

use bridge_ends::FolderStore;
use bridge_io::{Name, slurp};
use mpd_text::tree_from_bytes;
use mpd_tree::Node;
use std::env;
use std::process::ExitCode;

/// The sum of the bytes and lines at which the `t`, `d` and `r` of an S stand.
fn sum_of_places(element: &Node) -> u64 {
    let mut sum = 0u64;
    for name in ["t", "d", "r"] {
        if let Some(attr) = element.attribute(name) {
            let place = attr.place();
            sum = sum.wrapping_add(place.at).wrapping_add(place.line);
        }
    }
    sum
}

fn walk(tree: &Tree) -> u64 {
    let mut timeline = tree.root();
    for _ in 0..5 {
        if let Some(first) = timeline.children().next() {
            timeline = first;
        }
    }
    let mut sum = 0u64;
    for element in timeline.children() {
        sum = sum.wrapping_add(sum_of_places(&element));
    }
    sum
}

fn is_walk(rt: &HostRuntime) -> bool {
    env::args(rt).map_or(false, |mut words| words.nth(1).is_some())
}

fn main(rt: HostRuntime) -> ExitCode {
    let alloc = rt.alloc();
    let is_walk = is_walk(&rt);
    let Ok(name) = Name::read(alloc, "m.mpd") else {
        return ExitCode::from(1);
    };
    let Ok(mut store) = FolderStore::new(rt, alloc, ".") else {
        return ExitCode::from(1);
    };
    let Ok(bytes) = slurp(alloc, &mut store, &name, 8_388_608) else {
        return ExitCode::from(1);
    };
    match tree_from_bytes(alloc, bytes) {
        Ok(tree) if is_walk && walk(&tree) == 0 => ExitCode::from(1),
        Ok(_) => ExitCode::from(0),
        Err(_) => ExitCode::from(1),
    }
}
RS
cp "$work/m.mpd" "$work/ours/crates/reads/"
(cd "$work/ours" && git init -q && cd crates/reads && rt run > "$work/build.log" 2>&1) || { tail "$work/build.log"; exit 1; }
ours=$work/ours/crates/reads/out/reads

# roxmltree, from Debian's sources.
mkdir -p "$work/rox/src" "$work/rox/.cargo"
printf '[package]\nname = "rox"\nversion = "0.1.0"\nedition = "2021"\n[dependencies]\nroxmltree = "0.16"\n' > "$work/rox/Cargo.toml"
printf '[source.crates-io]\nreplace-with = "debian"\n[source.debian]\ndirectory = "/usr/share/cargo/registry"\n' > "$work/rox/.cargo/config.toml"
cat > "$work/rox/src/main.rs" <<'RS'
fn main() {
    let text = std::fs::read_to_string("m.mpd").unwrap();
    let tree = roxmltree::Document::parse(&text).unwrap();
    std::process::exit(if tree.root_element().has_children() { 0 } else { 1 });
}
RS
(cd "$work/rox" && cargo build -q --release --offline)

python3 "$here/bench/measure.py" from_bytes "$work/m.mpd" "$ours"
python3 "$here/bench/measure.py" "from_bytes and a walk" "$work/m.mpd" "$ours" walk
python3 "$here/bench/measure.py" roxmltree "$work/m.mpd" "$work/rox/target/release/rox"
python3 "$here/bench/measure.py" xmllint "$work/m.mpd" xmllint --noout --huge m.mpd
