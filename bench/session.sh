#!/usr/bin/env bash
# Times a session of live_session by its calls. Six tracks keep 30 segments each; 5,000 instants, two seconds apart, append one segment to
# each, beside 300 addresses made for each instant; 5,000 times the same instant append nothing, beside 60 addresses each time; and an MPD
# of 100 kB is taken 500 times, beside reading it as often (its tree, its rules and its presentation). Then the largest memory of 50 and of
# 5,000 refreshes with an MPD. Each run is a program of its own; the shortest of eleven runs counts.
#
# It wants `rt` and python3, and proves the crates first where that isn't kept.
set -euo pipefail
here=$(cd "$(dirname "$0")/.." && pwd)
work=$(mktemp -d)
trap 'rm -rf "$work"' EXIT

mkdir -p "$work/ours/crates"
grep -v '^\(bridge\|run_table\|leaf_table\|base_rows\):' "$here/crates.txt" > "$work/ours/crates.txt"
for crate in $(sed 's/:.*//' "$work/ours/crates.txt"); do
    cp -r "$here/crates/$crate" "$work/ours/crates/"
    rm -rf "$work/ours/crates/$crate/out"
done
echo 'sessions: bridge_ends bridge_io bridge_steps exact_time iso_time live_meaning live_session mpd_presentation mpd_rules presentation url_parts' >> "$work/ours/crates.txt"
sessions=$work/ours/crates/sessions
mkdir -p "$sessions/src" "$sessions/proofs/main"
cat > "$sessions/src/main.rt" <<'RS'
//! Follows an MPD of six tracks as its word says.
#![tactic(auto)]

ghost use Rattle.std.specs.Prelude.{◌≡◌, ◌<◌, IfSome, Some};
ghost use Rattle.iso_time.specs.Instant.{IsReadable};
ghost use Rattle.live_meaning.specs.Laws.{IsTyped};
ghost use Rattle.mpd_rules.specs.Views.{segments_mpd};

use bridge_ends::FolderStore;
use bridge_io::{Bytes, Ledger, Name, Steps, slurp};
use bridge_steps::values_of;
use exact_time::Digits;
use iso_time::Instant;
use live_session::Session;
use mpd_presentation::from_mpd;
use mpd_rules::Mpd;
use presentation::Presentation;
use std::alloc::Global;
use std::env;
use std::marker::Brand;
use std::process::ExitCode;
use std::sync::ledger::Blank;
use url_parts::Base;

/// Two seconds times `count` behind 2024-01-01T00:00:00Z.
fn instant(count: u32) -> Instant
    ensures { IsReadable result }
{
    Instant(1_704_067_200_000_000_000 + i128::from(count) * 2_000_000_000)
}

/// The values of an MPD, of a copy of its bytes.
fn values(alloc: Global, bytes: &[u8]) -> Option<Mpd>
    ensures { IfSome result (λ mpd. IsTyped (Some (segments_mpd mpd))) }
{
    let copy = Vec::from_slice(alloc, bytes).ok()?;
    values_of(alloc, Bytes::from(copy)).ok()
}

#[derive(Drop)]
struct Followed {
    alloc: Global,
    base: Base,
    session: Session,
}

impl Followed {
    fn begin<L: Ledger>(alloc: Global, bytes: &[u8], steps: &mut Steps<L>) -> Option<Followed> {
        let base = Base::of(alloc, "https://h.example/videos/main/live.mpd").ok()?;
        let mpd = values(alloc, bytes)?;
        let session = Session::begin(alloc, &mpd, &base, instant(0), Digits::of(6)?, steps).ok()?;
        Some(Followed {
            alloc,
            base,
            session,
        })
    }

    /// Takes the instant, with an MPD where there is one; it appends so many segments.
    fn go_on<L: Ledger>(
        &mut self,
        mpd: Option<&Mpd>,
        count: u32,
        appended: u64,
        steps: &mut Steps<L>,
    ) -> Option<()> {
        if self.session.accepted() >= 10_000_000 {
            return None;
        }
        let told = self.session.refresh(mpd, instant(count), steps).ok()?;
        if told.0 != appended {
            return None;
        }
        Some(())
    }

    /// So many instants, two seconds apart.
    fn tick<L: Ledger>(&mut self, times: u32, steps: &mut Steps<L>) -> Option<()> {
        for count in 0..times {
            self.go_on(None, count.saturating_add(1), 6, steps)?;
        }
        Some(())
    }

    /// The first instant so many times again.
    fn stay<L: Ledger>(&mut self, times: u32, steps: &mut Steps<L>) -> Option<()> {
        for _ in 0..times {
            self.go_on(None, 0, 0, steps)?;
        }
        Some(())
    }

    /// The MPD again, so many times, two seconds apart.
    fn refresh<L: Ledger>(
        &mut self,
        bytes: &[u8],
        times: u32,
        steps: &mut Steps<L>,
    ) -> Option<()> {
        for count in 0..times {
            let mpd = values(self.alloc, bytes)?;
            self.go_on(Some(&mpd), count.saturating_add(1), 6, steps)?;
        }
        Some(())
    }

    /// Reads the MPD so many times.
    fn read(&self, bytes: &[u8], times: u32) -> Option<()> {
        for count in 0..times {
            let mpd = values(self.alloc, bytes)?;
            let now = instant(count.saturating_add(1));
            from_mpd(self.alloc, &mpd, &self.base, Some(now)).ok()?;
        }
        Some(())
    }

    /// Makes addresses.
    fn join(&self, times: u32) -> Option<()> {
        for _ in 0..times {
            self.base.join(self.alloc, "track-0/segment-852038571.m4s").ok()?;
        }
        Some(())
    }
}

fn content(rt: HostRuntime, alloc: Global) -> Option<Bytes> {
    let name = Name::read(alloc, "m.mpd").ok()?;
    let mut store = FolderStore::new(rt, alloc, ".").ok()?;
    slurp(alloc, &mut store, &name, 8_388_608).ok()
}

fn run<L: Ledger>(rt: HostRuntime, blank: Blank) -> Option<()>
    requires name { blank.name ≡ L.name }
    requires parts { blank.parts ≡ L.parts }
    requires some { 0 < blank.parts }
{
    let alloc = rt.alloc();
    let mut words = env::args(&rt).ok()?;
    let word = words.nth(1)?;
    let content = content(rt, alloc)?;
    let bytes = content.as_slice();
    let mut steps = Steps::<L>::new(blank);
    let mut followed = Followed::begin(alloc, bytes, &mut steps)?;
    match word.as_str() {
        "tick" => followed.tick(5_000, &mut steps),
        "stay" => followed.stay(5_000, &mut steps),
        "join-300" => followed.join(1_500_000),
        "join-60" => followed.join(300_000),
        "read-500" => followed.read(bytes, 500),
        "refresh-50" => followed.refresh(bytes, 50, &mut steps),
        "refresh-500" => followed.refresh(bytes, 500, &mut steps),
        "refresh-5000" => followed.refresh(bytes, 5_000, &mut steps),
        _ => Some(()),
    }
}

fn main(rt: HostRuntime) -> ExitCode {
    match run::<Brand>(rt, Blank::new(1)) {
        Some(()) => ExitCode::from(0),
        None => ExitCode::from(1),
    }
}
RS
cat > "$sessions/proofs/main/Invariants.antt" <<'RS'
-- the ledger is the blank one that was made
use Rattle.sessions.proofs.main.Given as goal

abbrev pub ghosts-run : goal.ghosts-run
ghosts-run a = record { name = a.blank.name; parts = a.blank.parts }
RS

cat > "$work/session.py" <<'PY'
import os, sys

from measure import measure

sessions, work = sys.argv[1:]
HEAD = ('<MPD xmlns="urn:mpeg:dash:schema:mpd:2011" type="dynamic" availabilityStartTime="2023-12-31T23:59:00Z" timeShiftBufferDepth="PT60S">'
        '<Period id="p" start="PT0S"><AdaptationSet mimeType="video/mp4">')
TAIL = "</AdaptationSet></Period></MPD>"

def tracks(inside):
    return "".join(f'<Representation id="v{k}" bandwidth="{k + 1}000"><SegmentTemplate timescale="1000" initialization="track-{k}/i.mp4" '
        f'media="track-{k}/segment-$Number$.m4s" {inside}</Representation>' for k in range(6))

def write(name, text):
    os.makedirs(os.path.join(work, name))
    with open(os.path.join(work, name, "m.mpd"), "w") as it:
        it.write(text)
    return len(text)

def run(folder, word):
    os.chdir(os.path.join(work, folder))
    found = measure([sessions, word])
    assert found, word
    return found

def beside(name, folder, word, yard, times, begun):
    ours, theirs = run(folder, word)[0] - begun, run(folder, yard)[0] - begun
    print(f"{name}: {1000 * ours / times:.1f} us each, {ours / theirs:.2f} of {yard} ({1000 * theirs / times:.1f} us)")

write("small", HEAD + tracks('duration="2000"/>') + TAIL)
entries = "".join(f'<S d="{1999 + 2 * (k % 2)}"/>' for k in range(1_160))
size = write("large", HEAD + tracks("><SegmentTimeline>" + entries + "</SegmentTimeline></SegmentTemplate>") + TAIL)
small, _ = run("small", "begin")
large, _ = run("large", "begin")
beside("a tick that appends to six tracks", "small", "tick", "join-300", 5_000, small)
beside("a tick that appends nothing", "small", "stay", "join-60", 5_000, small)
beside(f"a refresh with an MPD of {size} bytes", "large", "refresh-500", "read-500", 500, large)
for word in ("refresh-50", "refresh-5000"):
    ms, mib = run("small", word)
    print(f"{word}: {ms:.0f} ms, {mib:.2f} MiB")
PY
(cd "$work/ours" && git init -q && cp "$here/HANDLES" . && cd crates/sessions && rt run > "$work/build.log" 2>&1) || true
[ -x "$sessions/out/sessions" ] || { tail "$work/build.log"; exit 1; }
PYTHONPATH=$here/bench python3 "$work/session.py" "$sessions/out/sessions" "$work"
