#!/usr/bin/env bash
# Measures what scripts cost: builds a scratch program over player_script in a temporary folder, beside copies
# of the crates that it stands on, and prints the time that Script::read takes for a script of nearly 2^20 bytes, and
# reply_text for a read of 65,536 frames of 8 channels, each in the fastest of twenty rounds. It writes nothing
# in the repository.
set -euo pipefail
source "$(dirname "$(readlink -f "${BASH_SOURCE[0]}")")/scratch.sh"
scratch_program bench_script player_script model_cursor
cat >src/main.rt <<'RATTLE'
//! Times the reading of a long script, and the text of a long reply.
#![tactic(auto)]

use model_cursor::{Frames, Reply};
use player_script::{Answer, Command, Script, reply_text};
use std::alloc::{AllocError, Global};
use std::io;
use std::time::Instant;

/// How many bytes the script has at most.
const BYTES: usize = 1 << 20;

/// How many values the reply has: 65,536 frames of 8 channels.
const VALUES: usize = 1 << 19;

/// How often each is timed.
const ROUNDS: u32 = 20;

/// A lane and seeks, as many as fit.
fn script_of(alloc: Global) -> Result<Vec<u8>, AllocError> {
    let mut bytes = Vec::from_slice(alloc, b"lane\n")?;
    for _ in 0..(BYTES - 5) / 19 {
        bytes.extend_from_slice(b"seek 15 1234567890\n")?;
    }
    Ok(bytes)
}

/// Reads a script, and gives the lanes and the time that it took.
fn timed_read(rt: &HostRuntime, bytes: &[u8]) -> io::Result<(u32, u128)> {
    if bytes.len() > BYTES {
        return Ok((0, 0));
    }
    let begin = Instant::now(rt)?;
    let read = Script::read(rt.alloc(), bytes);
    let spent = begin.elapsed(rt)?.as_nanos();
    match read {
        Ok(script) => Ok((script.lanes(), spent)),
        Err(_) => Ok((0, spent)),
    }
}

/// Values of all sizes.
fn values_of(alloc: Global) -> Result<Vec<i64>, AllocError> {
    let mut values = Vec::new(alloc);
    for number in 0..VALUES {
        values.push((number as i64) * 2 - (1 << 19))?;
    }
    Ok(values)
}

/// Writes a reply, and gives the length of its text and the time that it took.
fn timed_reply(rt: &HostRuntime, values: Vec<i64>) -> io::Result<(usize, u128)> {
    if values.len() / 8 * 8 != values.len() {
        return Ok((0, 0));
    }
    let frames = Frames::of(8, values);
    let answer = Answer::Given {
        reply: Reply::Frames { link: 0, frames },
    };
    let command = Command::Read { c: 0, n: 65536 };
    let mut out = Vec::new(rt.alloc());
    let begin = Instant::now(rt)?;
    let written = reply_text(&command, &answer, 8, &mut out);
    let spent = begin.elapsed(rt)?.as_nanos();
    match written {
        Ok(()) => Ok((out.len(), spent)),
        Err(_) => Ok((0, spent)),
    }
}

fn main(rt: HostRuntime) -> io::Result<()> {
    let bytes = script_of(rt.alloc())?;
    let mut reading = u128::MAX;
    let mut writing = u128::MAX;
    let mut lanes = 0;
    let mut length = 0;
    for _ in 0..ROUNDS {
        let (count, time) = timed_read(&rt, &bytes)?;
        lanes = count;
        reading = reading.min(time);
        let (text, time) = timed_reply(&rt, values_of(rt.alloc())?)?;
        length = text;
        writing = writing.min(time);
    }
    let size = bytes.len();
    println!(rt; "a script of {size} bytes ({lanes} lane): {reading} ns")?;
    println!(rt; "a reply of {length} bytes: {writing} ns")
}
RATTLE
print_times
