#!/usr/bin/env bash
# Measures what reading a setup packet costs: builds a scratch program over setup_header in a temporary folder, beside
# copies of the crates that it stands on, and prints the time of reading the setup of a stereo film that oggenc makes at
# quality 5, tables and all. It writes nothing in the repository.
set -euo pipefail
source "$(dirname "$(readlink -f "${BASH_SOURCE[0]}")")/scratch.sh"
need oggenc
scratch_program bench_setup setup_header
cat >src/main.rt <<'RATTLE'
//! Times reading a setup packet.
#![tactic(auto)]

use setup_header::Setup;
use std::io;
use std::time::Instant;

/// How often it is read.
const ROUNDS: u32 = 2_000;

RATTLE
python3 -B "$root/tools/setups.py" bench >>src/main.rt
cat >>src/main.rt <<'RATTLE'

fn main(rt: HostRuntime) -> io::Result<()> {
    let alloc = rt.alloc();
    let begin = Instant::now(&rt)?;
    let mut books: usize = 0;
    for _ in 0..ROUNDS {
        if let Ok(setup) = Setup::read(alloc, 2, SETUP) {
            books = books.wrapping_add(setup.books().len());
        }
    }
    let spent = begin.elapsed(&rt)?.as_nanos();
    let bytes = SETUP.len();
    println!(rt; "reading a setup of {bytes} bytes {ROUNDS} times: {spent} ns ({books} books)")
}
RATTLE
print_times
