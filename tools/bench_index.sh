#!/usr/bin/env bash
# Measures what an index costs: builds a scratch program over film_index in a temporary folder, beside
# copies of the crates that it stands on, and prints the time that Index::build takes for each entry of a
# link of 300,000 entries, over twenty rounds and in the fastest of them. It writes nothing in the
# repository.
set -euo pipefail
source "$(dirname "$(readlink -f "${BASH_SOURCE[0]}")")/scratch.sh"
scratch_program bench_index film_index memory
cat >src/main.rt <<'RATTLE'
//! Times the index of a link of 300,000 entries, most of them blocks that a page of 40 marks.
#![tactic(auto)]

use film_index::{Index, LinkRows, MOST_ENTRIES, Mark, Row, RowKind};
use memory::Sequence;
use std::alloc::{AllocError, Global};
use std::io;
use std::time::Instant;

/// How many entries the link has.
const ENTRIES: u32 = 300_000;

/// How often its index is built.
const ROUNDS: u32 = 20;

/// What the entry of a number is: a loss, a bad packet and a skipped one now and then, else a block,
/// one in four of them short.
fn kind_of(number: u32) -> RowKind {
    match number % 1000 {
        300 => RowKind::Lost,
        500 => RowKind::Bad,
        700 => RowKind::Skip,
        _ => RowKind::Block {
            long: number % 4 != 0,
        },
    }
}

fn rows_of(alloc: Global) -> Result<Vec<Row>, AllocError> {
    let mut rows = Vec::new(alloc);
    for number in 0..ENTRIES {
        let mark = if number % 40 == 39 {
            Some(Mark {
                granule: u64::from(number) * 1000,
                last: number + 1 == ENTRIES,
            })
        } else {
            None
        };
        rows.push(Row {
            kind: kind_of(number),
            mark,
        })?;
    }
    Ok(rows)
}

/// The index of a link of these entries, and the time that building it took.
#[tactic(auto, using(film_index::proofs::Films::one_link))]
fn timed(rt: &HostRuntime, rows: Vec<Row>) -> io::Result<(u64, u128)> {
    let alloc = rt.alloc();
    if rows.len() > MOST_ENTRIES as usize {
        return Ok((0, 0));
    }
    let link = LinkRows {
        channels: 2,
        rate: 44_100,
        short: 256,
        long: 2048,
        rows: Sequence::of(rows),
    };
    let mut links = Vec::new(alloc);
    links.push(link)?;
    let begin = Instant::now(rt)?;
    let built = Index::build(alloc, links);
    let spent = begin.elapsed(rt)?.as_nanos();
    match built {
        Ok(index) => Ok((index.total(), spent)),
        Err(_) => Ok((0, spent)),
    }
}

fn main(rt: HostRuntime) -> io::Result<()> {
    let mut all: u128 = 0;
    let mut fastest = u128::MAX;
    let mut frames: u64 = 0;
    for _ in 0..ROUNDS {
        let (total, time) = timed(&rt, rows_of(rt.alloc())?)?;
        frames = total;
        all = all.saturating_add(time);
        fastest = fastest.min(time);
    }
    let each = all / (u128::from(ROUNDS) * u128::from(ENTRIES));
    let least = fastest / u128::from(ENTRIES);
    println!(rt; "an index of {ENTRIES} entries: {each} ns an entry, {least} ns in the fastest of {ROUNDS} rounds ({frames} frames)")
}
RATTLE
print_times
