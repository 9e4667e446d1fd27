#!/usr/bin/env bash
# Measures what decoding a residue costs: builds a scratch program over residues in a temporary folder,
# beside copies of the crates that it stands on, and prints the time of decoding two interleaved vectors of
# 1,024 values from a packet of 500 bytes, and that of a plain loop that writes as many values. It writes
# nothing in the repository.
set -euo pipefail
source "$(dirname "$(readlink -f "${BASH_SOURCE[0]}")")/scratch.sh"
scratch_program bench_residues residues codebooks bit_reader
cat >src/main.rt <<'RATTLE'
//! Times decoding a residue of type 2 over two vectors of 1,024 values.
#![tactic(auto)]

use bit_reader::Bits;
use codebooks::{Book, BookFault, Budget};
use residues::{Residue, zero_lines};
use std::alloc::Global;
use std::io;
use std::time::Instant;

/// How often each is done.
const ROUNDS: u32 = 10_000;

/// Books of class words, of pairs of values, and of four values.
const BOOK_0: [u8; 19] = [66, 67, 86, 2, 0, 16, 0, 0, 140, 49, 198, 24, 99, 140, 49, 198, 24, 99, 0];

const BOOK_1: [u8; 29] = [66, 67, 86, 2, 0, 16, 0, 0, 140, 49, 198, 24, 99, 140, 49, 198, 24, 99, 196, 0, 0, 152, 120, 0, 0, 160, 88, 32, 7];

const BOOK_2: [u8; 24] = [66, 67, 86, 4, 0, 16, 0, 0, 6, 67, 113, 36, 9, 0, 17, 0, 0, 36, 30, 0, 0, 36, 6, 4];

const RESIDUE: [u8; 17] = [0, 0, 0, 0, 7, 0, 31, 0, 0, 3, 0, 68, 140, 64, 64, 128, 0];

const PACKET: [u8; 500] = [130, 183, 14, 238, 127, 26, 80, 57, 190, 240, 126, 194, 52, 127, 6, 110, 208, 143, 93, 199, 81, 36, 71, 227, 64, 67, 0, 2, 107, 110, 84, 85, 148, 160, 101, 104, 93, 100, 196, 152, 11, 184, 212, 84, 74, 135, 33, 169, 154, 1, 173, 33, 158, 181, 156, 246, 161, 94, 246, 241, 90, 29, 131, 11, 183, 206, 9, 214, 187, 192, 4, 231, 23, 92, 100, 60, 125, 236, 176, 181, 128, 236, 55, 188, 151, 18, 221, 46, 106, 174, 185, 75, 174, 141, 47, 159, 162, 156, 90, 40, 76, 158, 247, 82, 24, 41, 207, 16, 121, 176, 128, 233, 215, 74, 28, 16, 252, 171, 106, 66, 67, 211, 54, 86, 222, 190, 76, 30, 215, 150, 72, 232, 86, 232, 249, 162, 245, 140, 149, 240, 206, 75, 57, 193, 91, 255, 173, 92, 45, 251, 139, 184, 32, 182, 17, 156, 186, 143, 248, 135, 150, 174, 91, 5, 242, 128, 166, 140, 237, 147, 182, 178, 140, 176, 209, 179, 88, 230, 186, 171, 72, 85, 101, 185, 244, 144, 40, 213, 87, 215, 154, 138, 14, 100, 81, 225, 92, 112, 92, 21, 241, 115, 84, 27, 68, 56, 162, 92, 247, 99, 18, 212, 238, 179, 194, 36, 104, 121, 191, 0, 179, 207, 142, 209, 58, 191, 18, 154, 48, 151, 173, 150, 180, 66, 214, 209, 189, 239, 72, 80, 195, 244, 101, 68, 46, 179, 0, 195, 55, 166, 72, 166, 192, 219, 221, 115, 252, 149, 245, 194, 196, 81, 133, 154, 254, 128, 212, 10, 163, 157, 251, 146, 73, 244, 12, 62, 227, 125, 150, 20, 69, 200, 6, 245, 140, 124, 242, 18, 125, 250, 137, 79, 146, 150, 252, 243, 60, 8, 64, 153, 144, 172, 151, 13, 237, 179, 184, 67, 18, 1, 129, 233, 55, 97, 7, 219, 218, 246, 197, 243, 200, 100, 151, 238, 33, 155, 1, 221, 146, 241, 159, 73, 84, 244, 254, 169, 78, 217, 24, 35, 117, 136, 43, 32, 13, 170, 219, 35, 207, 249, 25, 63, 62, 112, 56, 68, 149, 224, 76, 93, 94, 211, 82, 34, 109, 22, 55, 194, 36, 143, 29, 60, 204, 68, 5, 221, 46, 161, 250, 250, 180, 191, 28, 70, 150, 77, 148, 112, 134, 32, 120, 130, 145, 68, 120, 190, 232, 199, 91, 67, 9, 174, 43, 18, 46, 63, 232, 122, 199, 236, 245, 165, 55, 15, 196, 27, 77, 219, 114, 59, 42, 251, 108, 71, 192, 181, 120, 148, 170, 178, 197, 193, 69, 183, 151, 221, 185, 18, 110, 92, 202, 32, 49, 18, 16, 95, 103, 100, 20, 250, 246, 178, 0, 218, 240, 153, 219, 165, 238, 236, 51, 98, 79, 81, 36, 191, 197, 240, 77, 130, 56, 142, 82, 146, 120, 16, 246, 16, 176, 188, 161, 30, 11, 233, 241, 79, 60, 166, 149, 232, 122, 83, 17, 102, 12, 118, 40, 205, 186, 159];

fn read_book(alloc: Global, bytes: &[u8]) -> Result<Book, BookFault> {
    let mut budget = Budget {
        entries: 1000,
        multiplicands: 1000,
    };
    Book::read(alloc, &mut Bits::new(bytes), &mut budget)
}

/// As many values as two vectors have.
fn write_plainly(values: &mut [i64], first: i64) {
    let mut value = first;
    for place in values.iter_mut() {
        *place = value;
        value = value.wrapping_add(3);
    }
}

fn main(rt: HostRuntime) -> io::Result<()> {
    let alloc = rt.alloc();
    let (Ok(classes), Ok(pairs), Ok(fours)) = (
        read_book(alloc, &BOOK_0),
        read_book(alloc, &BOOK_1),
        read_book(alloc, &BOOK_2),
    ) else {
        return Ok(());
    };
    let books = [classes, pairs, fours];
    let Ok(residue) = Residue::read(alloc, &mut Bits::new(&RESIDUE), 2, &books) else {
        return Ok(());
    };
    let mut values = vec![in alloc; 0i64; 2048]?;
    let begin = Instant::now(&rt)?;
    let mut sum: i64 = 0;
    for round in 0..ROUNDS {
        write_plainly(&mut values, i64::from(round));
        sum = sum.wrapping_add(values.iter().fold(0i64, |a, b| a.wrapping_add(*b)));
    }
    let spent = begin.elapsed(&rt)?.as_nanos();
    println!(rt; "a plain loop: {spent} ns for {ROUNDS} times 2048 values (sum {sum})")?;
    let begin = Instant::now(&rt)?;
    let mut decoded: u32 = 0;
    let mut left: u32 = 0;
    for _ in 0..ROUNDS {
        let mut bits = Bits::new(&PACKET);
        let Ok(mut vectors) = zero_lines(alloc, 2, 1024) else {
            return Ok(());
        };
        if residue.decode(alloc, &mut bits, &books, &[true, true], &mut vectors).is_ok() {
            decoded = decoded.wrapping_add(1);
        }
        if bits.take(1).is_some() {
            left = left.wrapping_add(1);
        }
    }
    let spent = begin.elapsed(&rt)?.as_nanos();
    println!(rt; "decoding: {spent} ns ({decoded} decoded, {left} with bits left)")
}
RATTLE
print_times
