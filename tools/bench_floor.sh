#!/usr/bin/env bash
# Measures what a floor's curve costs: builds a scratch program over floor_one in a temporary folder,
# beside copies of the crates that it stands on, and prints the times of drawing a curve of 32 points over
# 1,024 lines and of decoding it, and of a plain loop that writes 1,024 bytes. It writes nothing in the repository.
set -euo pipefail
source "$(dirname "$(readlink -f "${BASH_SOURCE[0]}")")/scratch.sh"
scratch_program bench_floor floor_one codebooks bit_reader
cat >src/main.rt <<'RATTLE'
//! Times drawing a floor's curve over 1,024 lines, and decoding its points.
#![tactic(auto)]

use bit_reader::Bits;
use codebooks::{Book, Budget};
use floor_one::{Floor, Floored};
use std::io;
use std::time::Instant;

/// How often each is done.
const ROUNDS: u32 = 20_000;

/// An ordered book of 256 entries of eight bits.
const BOOK: [u8; 11] = [66, 67, 86, 1, 0, 0, 1, 0, 15, 64, 0];

/// Five partitions of six values each, multiplier 2, lines up to 1024.
const FLOOR: [u8; 43] = [5, 0, 0, 74, 64, 74, 207, 151, 46, 26, 178, 151, 234, 107, 154, 23, 232, 148, 68, 180, 233, 192, 232, 90, 135, 167, 80, 141, 240, 20, 195, 255, 183, 226, 169, 152, 245, 140, 232, 93, 246, 168, 220];

const PACKET: [u8; 41] = [77, 9, 0, 0, 4, 37, 1, 0, 38, 0, 0, 0, 0, 36, 8, 0, 8, 16, 0, 19, 24, 34, 37, 21, 1, 0, 0, 10, 20, 0, 0, 13, 36, 7, 30, 4, 9, 27, 0, 0, 39];

/// Something of each line, for comparison.
fn write_plainly(lines: &mut [u8], first: u8) {
    let mut value = first;
    for line in lines.iter_mut() {
        *line = value;
        value = value.wrapping_add(3);
    }
}

fn sum_of(lines: &[u8]) -> u32 {
    let mut sum: u32 = 0;
    for line in lines {
        sum = sum.wrapping_mul(31).wrapping_add(u32::from(*line));
    }
    sum
}

fn main(rt: HostRuntime) -> io::Result<()> {
    let mut budget = Budget {
        entries: 1000,
        multiplicands: 1000,
    };
    let Ok(book) = Book::read(rt.alloc(), &mut Bits::new(&BOOK), &mut budget) else {
        return Ok(());
    };
    let books = [book];
    let Ok(floor) = Floor::read(&mut Bits::new(&FLOOR), 1) else {
        return Ok(());
    };
    let Floored::Curve(finals) = floor.decode(&mut Bits::new(&PACKET), &books) else {
        return Ok(());
    };
    let mut lines = [0u8; 1024];
    let begin = Instant::now(&rt)?;
    let mut sum: u32 = 0;
    for round in 0..ROUNDS {
        write_plainly(&mut lines, (round % 256) as u8);
        sum = sum.wrapping_add(u32::from(lines[(round % 1024) as usize]));
    }
    let spent = begin.elapsed(&rt)?.as_nanos();
    println!(rt; "a plain loop: {spent} ns for {ROUNDS} times 1024 lines (sum {sum})")?;
    let begin = Instant::now(&rt)?;
    let mut sum: u32 = 0;
    for round in 0..ROUNDS {
        floor.curve(&finals, &mut lines);
        sum = sum.wrapping_add(u32::from(lines[(round % 1024) as usize]));
    }
    let spent = begin.elapsed(&rt)?.as_nanos();
    println!(rt; "curves: {spent} ns (sum {sum})")?;
    let begin = Instant::now(&rt)?;
    let mut used: u32 = 0;
    for _ in 0..ROUNDS {
        if let Floored::Curve(_finals) = floor.decode(&mut Bits::new(&PACKET), &books) {
            used = used.wrapping_add(1);
        }
    }
    let spent = begin.elapsed(&rt)?.as_nanos();
    let curve = sum_of(&lines);
    println!(rt; "decoding its points: {spent} ns ({used} used, curve {curve})")
}
RATTLE
print_times
