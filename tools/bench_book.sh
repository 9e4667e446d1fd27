#!/usr/bin/env bash
# Measures what the largest codebook costs: builds a scratch program over codebooks in a temporary folder, beside copies of
# the crates that it stands on, and prints the time of reading a book of 2^20 entries of 20 bits each, whose lengths stand
# in order in one and each by itself in the other, and that of an entry of it, which is found by a bisect. It writes
# nothing in the repository.
set -euo pipefail
source "$(dirname "$(readlink -f "${BASH_SOURCE[0]}")")/scratch.sh"
scratch_program bench_book codebooks bit_reader
cat >src/main.rt <<'RATTLE'
//! Times reading a codebook of 2^20 entries, and entries by it.
#![tactic(auto)]

use bit_reader::Bits;
use codebooks::{Book, Budget};
use std::alloc::{AllocError, Global};
use std::io;
use std::time::Instant;

/// How often entries are read from the packet.
const ROUNDS: u32 = 10_000;

/// How many entries of 20 bits the packet has.
const READ: u32 = 50;

/// What a book of one dimension and 2^20 entries begins with.
const HEAD: [u8; 8] = [66, 67, 86, 1, 0, 0, 0, 16];

/// The rest, where one number says that all entries have 20 bits.
const ORDERED: [u8; 4] = [39, 0, 0, 4];

/// Where each entry says it: the first byte, five that come again and again, and the last.
const FIRST: u8 = 204;
const AGAIN: [u8; 5] = [57, 231, 156, 115, 206];
const LAST: [u8; 5] = [57, 231, 156, 115, 2];

/// A book whose entries say their lengths, each by itself.
fn unordered(alloc: Global) -> Result<Vec<u8>, AllocError> {
    let mut bytes = Vec::new(alloc);
    bytes.extend_from_slice(&HEAD)?;
    bytes.push(FIRST)?;
    for _ in 0..131_071u32 {
        bytes.extend_from_slice(&AGAIN)?;
    }
    bytes.extend_from_slice(&LAST)?;
    Ok(bytes)
}

/// A book whose lengths are in order.
fn ordered(alloc: Global) -> Result<Vec<u8>, AllocError> {
    let mut bytes = Vec::new(alloc);
    bytes.extend_from_slice(&HEAD)?;
    bytes.extend_from_slice(&ORDERED)?;
    Ok(bytes)
}

/// Reads entries of a packet, as many as it has.
fn read_entries(book: &Book, packet: &[u8]) -> u32 {
    let mut bits = Bits::new(packet);
    let mut sum: u32 = 0;
    for _ in 0..READ {
        if let Some(entry) = book.entry(&mut bits) {
            sum = sum.wrapping_add(entry);
        }
    }
    sum
}

/// Times reading entries again and again.
fn time_entries(rt: &HostRuntime, book: &Book) -> io::Result<()> {
    let packet = [0x9du8; 125];
    let mut sum: u32 = 0;
    let begin = Instant::now(rt)?;
    for _ in 0..ROUNDS {
        sum = sum.wrapping_add(read_entries(book, &packet));
    }
    let spent = begin.elapsed(rt)?.as_nanos();
    println!(rt; "{READ} entries of it, {ROUNDS} times: {spent} ns (sum {sum})")
}

/// Times reading a book.
fn time_book(rt: &HostRuntime, name: &str, bytes: &[u8]) -> io::Result<()> {
    let mut budget = Budget {
        entries: 1 << 20,
        multiplicands: 0,
    };
    let begin = Instant::now(rt)?;
    let read = Book::read(rt.alloc(), &mut Bits::new(bytes), &mut budget);
    let spent = begin.elapsed(rt)?.as_nanos();
    println!(rt; "a book of 2^20 entries, {name}: {spent} ns")?;
    match read {
        Ok(book) => time_entries(rt, &book),
        Err(_) => println!(rt; "it is refused, in 0 ns"),
    }
}

fn main(rt: HostRuntime) -> io::Result<()> {
    let bytes = ordered(rt.alloc())?;
    time_book(&rt, "in order", &bytes)?;
    let bytes = unordered(rt.alloc())?;
    time_book(&rt, "each by itself", &bytes)
}
RATTLE
print_times
