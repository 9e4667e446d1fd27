#!/usr/bin/env bash
# Measures what reading bits costs: builds a scratch program over bit_reader in a temporary folder,
# beside copies of the crates that it stands on, and prints the times. It writes nothing in the repository.
set -euo pipefail
source "$(dirname "$(readlink -f "${BASH_SOURCE[0]}")")/scratch.sh"
scratch_program bench_bits bit_reader
cat >src/main.rt <<'RATTLE'
//! Times reading a packet of a thousand bytes many times, whole bytes and fields of some widths.
#![tactic(auto)]

ghost use Rattle.std.specs.Prelude.{◌≤◌};

use bit_reader::Bits;
use std::io;
use std::time::Instant;

/// How many packets are read for each line.
const PACKETS: u32 = 20_000;

/// Each byte once, for comparison.
fn bytes_sum(bytes: &[u8]) -> u32 {
    let mut sum: u32 = 0;
    for byte in bytes {
        sum = sum.wrapping_mul(31).wrapping_add(u32::from(*byte));
    }
    sum
}

/// Fields of one width, up to the end of the packet.
fn fields_sum(bytes: &[u8], width: u32) -> u32
    requires { width ≤ 32 }
{
    let mut bits = Bits::new(bytes);
    let mut sum: u32 = 0;
    for _ in 0..8000u32 {
        let Some(field) = bits.take(width) else {
            return sum;
        };
        sum = sum.wrapping_mul(31).wrapping_add(field);
    }
    sum
}

fn main(rt: HostRuntime) -> io::Result<()> {
    let mut bytes = [0u8; 1000];
    for (i, byte) in bytes.iter_mut().enumerate() {
        *byte = (i * 37 % 251) as u8;
    }
    let begin = Instant::now(&rt)?;
    let mut sum: u32 = 0;
    for _ in 0..PACKETS {
        sum = sum.wrapping_add(bytes_sum(&bytes));
    }
    let spent = begin.elapsed(&rt)?.as_nanos();
    println!(rt; "bytes one by one: {spent} ns for {PACKETS} packets of 1000 bytes (sum {sum})")?;
    for width in [1u32, 3, 5, 8, 13, 16, 24, 32] {
        let begin = Instant::now(&rt)?;
        let mut sum: u32 = 0;
        for _ in 0..PACKETS {
            sum = sum.wrapping_add(fields_sum(&bytes, width));
        }
        let spent = begin.elapsed(&rt)?.as_nanos();
        println!(rt; "fields of {width} bits: {spent} ns (sum {sum})")?;
    }
    Ok(())
}
RATTLE
print_times
