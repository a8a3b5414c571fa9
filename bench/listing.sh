#!/usr/bin/env bash
# Times segments in order: a million addresses joined; a million segments made by a template, and from addresses that are there already; a
# list of 230,000 equal segments laid out; and a timeline of 700,000 S elements that 200 Representations of different timescales share; and
# a million times the count of 10^18 segments and the run that they are. Each run is a program of its own; the shortest of eleven runs
# counts, with its largest memory. The word `none` does nothing.
#
# It wants `rt` and python3.
set -euo pipefail
here=$(cd "$(dirname "$0")/.." && pwd)
work=$(mktemp -d)
trap 'rm -rf "$work"' EXIT

mkdir -p "$work/ours/crates"
for crate in bridge_io exact_time template_ids url_parts mpd_entries timeline; do
    cp -r "$here/crates/$crate" "$work/ours/crates/"
    rm -rf "$work/ours/crates/$crate/out"
    grep "^$crate:" "$here/crates.txt" >> "$work/ours/crates.txt"
done
echo 'lists: bridge_io exact_time template_ids timeline url_parts' >> "$work/ours/crates.txt"
mkdir -p "$work/ours/crates/lists/src"
cat > "$work/ours/crates/lists/src/main.rt" <<'RS'
//! Lists segments or lays them out, as its word says.
#![tactic(auto)]

ghost use Rattle.std.specs.Prelude.{◌≡◌, ◌<◌};

use bridge_io::{Ledger, Steps, Text};
use exact_time::Tick;
use std::alloc::Global;
use std::env;
use std::marker::Brand;
use std::process::ExitCode;
use std::sync::ledger::Blank;
use template_ids::Template;
use timeline::{
    End, Names, PartList, RefList, RefPart, Runs, SEntry, SList, Scale, SharedTimeline, Span,
    SpanList, Window,
};
use url_parts::{Base, Part};

fn base(alloc: Global) -> Option<Base> {
    Base::of(alloc, "https://h.example/videos/main/").ok()
}

fn template(alloc: Global) -> Option<Names> {
    let media = Template::read(alloc, "$RepresentationID$/segment-$Number%05d$.m4s").ok()?;
    let id = Text::copy_of(alloc, "representation-0").ok()?;
    Some(Names::of_template(media, id, 0, base(alloc)?))
}

fn scale(ticks: u32) -> Scale
    requires { 0 < ticks }
{
    Scale {
        ticks,
        offset: 0,
        start_number: 1,
    }
}

fn seconds(count: u32) -> Tick {
    Tick {
        n: i128::from(count),
        scale: 1,
    }
}

/// Equal segments of 4 s.
fn spans(alloc: Global, count: u32) -> Option<SpanList> {
    let mut spans = SpanList::new(alloc);
    for place in 0..count {
        let start = place.saturating_mul(4);
        let span = Span {
            start: seconds(start),
            end: seconds(start.saturating_add(4)),
            number: 0,
        };
        spans.push(span).ok()?;
    }
    Some(spans)
}

fn by_template(alloc: Global) -> Option<Runs> {
    let mut list = SList::new(alloc);
    list.push(SEntry {
        t: None,
        d: 4,
        r: 999_999,
    })
    .ok()?;
    Runs::from_timeline(
        alloc,
        &list,
        End::Unbounded,
        false,
        scale(1),
        template(alloc)?,
    )
    .ok()
}

fn by_addresses(alloc: Global) -> Option<Runs> {
    let address = base(alloc)?.join(alloc, "segment.m4s").ok()?;
    let part = Part {
        address,
        range: None,
    };
    let mut parts = PartList::new(alloc);
    for _ in 0..1_000_000 {
        parts.push(part.copy(alloc).ok()?).ok()?;
    }
    Runs::from_list(
        alloc,
        &spans(alloc, 1_000_000)?,
        scale(1),
        Names::of_addresses(parts),
    )
    .ok()
}

fn by_list(alloc: Global) -> Option<Runs> {
    let mut parts = RefList::new(alloc);
    for _ in 0..230_000 {
        let part = RefPart {
            reference: None,
            range: None,
        };
        parts.push(part).ok()?;
    }
    Runs::from_list(
        alloc,
        &spans(alloc, 230_000)?,
        scale(1),
        Names::of_list(parts, base(alloc)?),
    )
    .ok()
}

fn share(alloc: Global) -> Option<()> {
    let mut list = SList::new(alloc);
    for place in 0..700_000u64 {
        list.push(SEntry {
            t: None,
            d: 4 + place % 2,
            r: 0,
        })
        .ok()?;
    }
    let shared = SharedTimeline::of(alloc, list).ok()?;
    let mut all = Vec::new(alloc);
    for ticks in 1..201u32 {
        let names = template(alloc)?;
        let runs =
            Runs::from_shared(alloc, &shared, End::Unbounded, false, scale(ticks), names).ok()?;
        all.push(runs).ok()?;
    }
    Some(())
}

/// Counts 10^18 segments, and walks over them, a million times.
fn at_once(alloc: Global) -> Option<()> {
    let runs = Runs::from_duration(
        alloc,
        1,
        End::Unbounded,
        true,
        scale(1_000_000_007),
        template(alloc)?,
    )
    .ok()?;
    for later in 0..1_000_000u32 {
        counted(&runs, 1_000_000_000_000_000_000 + i128::from(later))?;
    }
    Some(())
}

fn counted(runs: &Runs, until: i128) -> Option<(u64, u64)> {
    let window = Window {
        after: None,
        until: Some(until),
    };
    runs.count(&window).ok()?;
    let from = runs.seek(&window);
    let run = runs.walk(&from, &window).next_run()?;
    Some((runs.count_from(&from, &window), run.count))
}

fn join(alloc: Global) -> Option<()> {
    let base = base(alloc)?;
    for _ in 0..1_000_000 {
        base.join(alloc, "segment.m4s").ok()?;
    }
    Some(())
}

/// Makes all segments.
fn list<L: Ledger>(alloc: Global, runs: &Runs, steps: &mut Steps<L>) -> Option<()> {
    let window = Window {
        after: None,
        until: Some(1 << 80),
    };
    let count = runs.count(&window).ok()?;
    let mut listing = runs.resume(&runs.seek(&window), &window);
    for _ in 0..count {
        listing.next(alloc, steps).ok()??;
    }
    Some(())
}

fn run<L: Ledger>(rt: &HostRuntime, blank: Blank) -> Option<()>
    requires name { blank.name ≡ L.name }
    requires parts { blank.parts ≡ L.parts }
    requires some { 0 < blank.parts }
{
    let alloc = rt.alloc();
    let mut steps = Steps::<L>::new(blank);
    let mut words = env::args(rt).ok()?;
    match words.nth(1)?.as_str() {
        "join" => join(alloc),
        "template" => list(alloc, &by_template(alloc)?, &mut steps),
        "addresses" => list(alloc, &by_addresses(alloc)?, &mut steps),
        "addresses-only" => by_addresses(alloc).map(|_| ()),
        "list" => by_list(alloc).map(|_| ()),
        "share" => share(alloc),
        "at-once" => at_once(alloc),
        _ => Some(()),
    }
}

fn main(rt: HostRuntime) -> ExitCode {
    match run::<Brand>(&rt, Blank::new(1)) {
        Some(()) => ExitCode::from(0),
        None => ExitCode::from(1),
    }
}
RS
mkdir -p "$work/ours/crates/lists/proofs/main"
cat > "$work/ours/crates/lists/proofs/main/Invariants.antt" <<'RS'
-- the ledger is the blank one that was made
use Rattle.lists.proofs.main.Given as goal

abbrev pub ghosts-run : goal.ghosts-run
ghosts-run a = record { name = a.blank.name; parts = a.blank.parts }
RS
(cd "$work/ours" && git init -q && cd crates/lists && rt run -- none > "$work/build.log" 2>&1) || { tail "$work/build.log"; exit 1; }
ours=$work/ours/crates/lists/out/lists

for word in none join template addresses-only addresses list share at-once; do
    python3 "$here/bench/measure.py" "$word" "$ours" "$ours" "$word"
done
