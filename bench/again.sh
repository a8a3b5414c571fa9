#!/usr/bin/env bash
# Refuses each allocation of a session of live_session in turn, over an MPD, an instant, a later MPD, a reset and the playlists of each.
# Where a call answers want of memory, it is made again with memory: each run is to leave the playlists of the run in which none was
# refused, so that the session was as before.
#
# It wants `rt`, python3 and cc, and proves the crates first where that isn't kept. glibc is taken for the C library.
set -euo pipefail
here=$(cd "$(dirname "$0")/.." && pwd)
work=$(mktemp -d)
trap 'rm -rf "$work"' EXIT
cc -O2 -shared -fPIC -o "$work/refuse.so" "$here/bench/refuse.c"

mkdir -p "$work/ours/crates"
grep -v '^\(bridge\|run_table\|leaf_table\|base_rows\):' "$here/crates.txt" > "$work/ours/crates.txt"
for crate in $(sed 's/:.*//' "$work/ours/crates.txt"); do
    cp -r "$here/crates/$crate" "$work/ours/crates/"
done
echo 'again: bridge_ends bridge_io bridge_steps exact_time iso_time live_judge live_meaning live_session mpd_rules url_parts' >> "$work/ours/crates.txt"
again=$work/ours/crates/again
mkdir -p "$again/src" "$again/proofs/main"
cat > "$again/src/main.rt" <<'RS'
//! Takes updates of an MPD, each of them again where memory was wanting, and writes its playlist behind each.
#![tactic(auto)]

ghost use Rattle.std.specs.Prelude.{◌≡◌, ◌<◌, Some};
ghost use Rattle.iso_time.specs.Instant.{IsReadable};
ghost use Rattle.live_meaning.specs.Laws.{IsTyped};
ghost use Rattle.mpd_rules.specs.Views.{segments_mpd};

use bridge_ends::FolderStore;
use bridge_io::{Ledger, Name, OutFault, Steps, Store, slurp};
use bridge_steps::values_of;
use exact_time::Digits;
use iso_time::Instant;
use live_judge::RefreshFault;
use live_session::Session;
use mpd_rules::Mpd;
use std::alloc::Global;
use std::env;
use std::marker::Brand;
use std::process::ExitCode;
use std::sync::ledger::Blank;
use url_parts::Base;

/// So many seconds behind 2024-01-01T00:00:00Z.
fn instant(seconds: u32) -> Instant
    ensures { IsReadable result }
{
    Instant(1_704_067_200_000_000_000 + i128::from(seconds) * 1_000_000_000)
}

fn begin<L: Ledger>(alloc: Global, mpd: &Mpd, base: &Base, digits: Digits, steps: &mut Steps<L>) -> Option<Session>
    requires { IsTyped (Some (segments_mpd mpd.now)) }
{
    match Session::begin(alloc, mpd, base, instant(20), digits, steps) {
        Err(RefreshFault::Memory) => Session::begin(alloc, mpd, base, instant(20), digits, steps).ok(),
        told => told.ok(),
    }
}

fn refresh<L: Ledger>(session: &mut Session, mpd: Option<&Mpd>, seconds: u32, steps: &mut Steps<L>) -> Option<()> {
    if session.accepted() >= 10_000_000 {
        return None;
    }
    match session.refresh(mpd, instant(seconds), steps) {
        Err(RefreshFault::Memory) => session.refresh(mpd, instant(seconds), steps).ok()?,
        told => told.ok()?,
    };
    Some(())
}

fn reset<L: Ledger>(session: &mut Session, mpd: &Mpd, seconds: u32, steps: &mut Steps<L>) -> Option<()> {
    if session.accepted() >= 10_000_000 {
        return None;
    }
    match session.reset(mpd, instant(seconds), steps) {
        Err(RefreshFault::Memory) => session.reset(mpd, instant(seconds), steps).ok()?,
        told => told.ok()?,
    };
    Some(())
}

/// Writes the playlist of the first track.
fn write<F: Store>(session: &Session, store: &mut F, name: &Name) -> Option<()> {
    if session.first().tracks().is_empty() {
        return None;
    }
    match session.write(0, store, name) {
        Err(OutFault::Memory) => session.write(0, store, name).ok(),
        told => told.ok(),
    }
}

/// The files of the playlists.
type Names = [Name; 4];

fn names(alloc: Global) -> Option<Names> {
    Some([
        Name::read(alloc, "first.m3u8").ok()?,
        Name::read(alloc, "tick.m3u8").ok()?,
        Name::read(alloc, "later.m3u8").ok()?,
        Name::read(alloc, "reset.m3u8").ok()?,
    ])
}

fn follow<F: Store, L: Ledger>(alloc: Global, mpd: &Mpd, base: &Base, names: &Names, store: &mut F, steps: &mut Steps<L>) -> Option<()>
    requires { IsTyped (Some (segments_mpd mpd.now)) }
{
    let [first, tick, later, behind] = names;
    let mut session = begin(alloc, mpd, base, Digits::of(6)?, steps)?;
    write(&session, store, first)?;
    refresh(&mut session, None, 24, steps)?;
    write(&session, store, tick)?;
    refresh(&mut session, Some(mpd), 26, steps)?;
    write(&session, store, later)?;
    reset(&mut session, mpd, 60, steps)?;
    write(&session, store, behind)
}

fn run<L: Ledger>(rt: HostRuntime, blank: Blank) -> Option<()>
    requires name { blank.name ≡ L.name }
    requires parts { blank.parts ≡ L.parts }
    requires some { 0 < blank.parts }
{
    let alloc = rt.alloc();
    let prepares = env::args(&rt).ok()?.len() > 1;
    let mut store = FolderStore::new(rt, alloc, ".").ok()?;
    let content = slurp(alloc, &mut store, &Name::read(alloc, "m.mpd").ok()?, 8_388_608).ok()?;
    let Ok(mpd) = values_of(alloc, content) else {
        return None;
    };
    let base = Base::of(alloc, "https://h.example/m.mpd").ok()?;
    let names = names(alloc)?;
    let mut steps = Steps::<L>::new(blank);
    if prepares {
        return Some(());
    }
    follow(alloc, &mpd, &base, &names, &mut store, &mut steps)
}

fn main(rt: HostRuntime) -> ExitCode {
    match run::<Brand>(rt, Blank::new(1)) {
        Some(()) => ExitCode::from(0),
        None => ExitCode::from(1),
    }
}
RS
cat > "$again/proofs/main/Invariants.antt" <<'RS'
-- the ledger is the blank one that was made
use Rattle.again.proofs.main.Given as goal

abbrev pub ghosts-run : goal.ghosts-run
ghosts-run a = record { name = a.blank.name; parts = a.blank.parts }
RS

cat > "$work/again.py" <<'PY'
import itertools, os, subprocess, sys, tempfile

again, library = sys.argv[1:]
MPD = ('<MPD xmlns="urn:mpeg:dash:schema:mpd:2011" type="dynamic" availabilityStartTime="2024-01-01T00:00:00Z" timeShiftBufferDepth="PT12S">'
       '<Period id="p" start="PT0S"><AdaptationSet mimeType="video/mp4"><Representation id="v" bandwidth="1000"><SegmentTemplate '
       'duration="2" initialization="i.mp4" media="s$Number$.m4s"/></Representation></AdaptationSet></Period></MPD>')
PLAYLISTS = ["first.m3u8", "tick.m3u8", "later.m3u8", "reset.m3u8"]

def run(refused, *words):
    """The status, the playlists, and what the library told."""
    with tempfile.TemporaryDirectory() as folder:
        with open(os.path.join(folder, "m.mpd"), "w") as it:
            it.write(MPD)
        ended = subprocess.run([again, *words], cwd=folder, stderr=subprocess.PIPE,
                               env={"LD_PRELOAD": library, "REFUSED": str(refused), **({"COUNTED": "1"} if words else {})})
        found = []
        for name in PLAYLISTS:
            path = os.path.join(folder, name)
            if os.path.exists(path):
                with open(path) as it:
                    found.append(it.read())
        return ended.returncode, found, ended.stderr

before = int(run(0, "prepare")[2])
status, whole, _ = run(0)
assert status == 0 and len(whole) == 4 and whole[3].count("#EXTINF") >= 6, (status, whole)
bad = 0
for number in itertools.count(before + 1):
    status, found, told = run(number)
    if told != b"refused\n":
        break
    if (status, found) != (0, whole):
        bad += 1
        print(f"without allocation {number - before} of the session it ends as {status} with {found}")
print(f"{number - before - 1} allocations, each refused in turn: {bad} leave other playlists")
sys.exit(bad != 0 or number == before + 1)
PY
(cd "$work/ours" && git init -q && cp "$here/HANDLES" . && cd crates/again && rt run > "$work/build.log" 2>&1) || true
[ -x "$again/out/again" ] || { tail "$work/build.log"; exit 1; }
python3 "$work/again.py" "$again/out/again" "$work/refuse.so"
