#!/usr/bin/env bash
# Compares the setups of real films with what `setup_bytes` writes of them.
#
#     tools/check_setups.sh [--small]
#
# Makes films of one, two and six channels at three qualities by `sox` and `oggenc`; with --small one of each. A scratch
# program over setup_header reads the setup packet of each, writes the setup, reads it again and writes it again. A film
# passes where both times the same bytes are written, and where tools/decode.py, which shares nothing with the crates, reads
# of them what it reads of the film's own packet.
#
# Where a program that it needs is missing it says so, compares nothing, and its status is 0. Else the last line is
# 'N passed, N failed', and the status is 1 where something failed. Writes only below a folder of its own in the place for
# temporary files, and removes it.
set -euo pipefail

source "$(dirname "$(readlink -f "${BASH_SOURCE[0]}")")/checks.sh"
qualities=(-1 5 10)
if is_small "$@"; then qualities=(5); fi
skip_without rt oggenc sox python3
made=$work
source "$root/tools/scratch.sh"
trap 'rm -rf "$made" "$work"' EXIT

films=()
for channels in 1 2 6; do
    for quality in "${qualities[@]}"; do
        films+=("$made/$channels.$quality.ogg")
        noise_film "$made/$channels.$quality.ogg" 1 "$channels" 44100 1 "$quality"
    done
done

# python PROGRAM..: runs a program beside the tools' own modules
python() {
    PYTHONPATH=$root/tools python3 -B "$@"
}

scratch_program check_setups setup_header
{
    cat <<'RATTLE'
//! Reads setups, writes them, and reads them again.
#![tactic(auto)]

use setup_header::{Setup, setup_bytes};
use std::alloc::Global;
use std::io;

/// A setup packet, and the channels of its stream.
struct Row {
    channels: u8,
    packet: &'static [u8],
}

RATTLE
    python - "${films[@]}" <<'PYTHON'
import sys

from decode import packets_of
from setups import rust_packet

print(f'const ROWS: [Row; {len(sys.argv) - 1}] = [')
for path in sys.argv[1:]:
    with open(path, 'rb') as film:
        head, _, setup = packets_of(film.read())[:3]
    print(f'Row {{ channels: {head[11]}, packet: {rust_packet(setup)} }},')
print('];')
PYTHON
    cat <<'RATTLE'

/// The bytes of the setup of a packet, where those of the setup that they are read as are the same.
fn rewritten(alloc: Global, channels: u8, packet: &[u8]) -> Option<Vec<u8>> {
    if channels < 1 || 8 < channels {
        return None;
    }
    let setup = Setup::read(alloc, channels, packet).ok()?;
    let bytes = setup_bytes(alloc, &setup).ok()?;
    let again = Setup::read(alloc, channels, &bytes).ok()?;
    let bytes_again = setup_bytes(alloc, &again).ok()?;
    if bytes == bytes_again { Some(bytes) } else { None }
}

fn main(rt: HostRuntime) -> io::Result<()> {
    for row in &ROWS {
        match rewritten(rt.alloc(), row.channels, row.packet) {
            Some(bytes) => println!(rt; "{bytes:?}")?,
            None => println!(rt; "[]")?,
        }
    }
    Ok(())
}
RATTLE
} >src/main.rt
if ! rt run >"$made/written" 2>"$made/log"; then
    cat "$made/log" "$made/written"
    exit 1
fi

# holds_the_same FILM LINE: what is written of a film's setup holds what the film's own packet holds
holds_the_same() {
    python - "$1" "$2" <<'PYTHON'
import json
import sys

from decode import Setup, packets_of

with open(sys.argv[1], 'rb') as film:
    head, _, packet = packets_of(film.read())[:3]
written = bytes(json.loads(sys.argv[2]))


def plain(part):
    """A part as a text, without what is found from the rest, and without how wide its multiplicands are written."""
    if hasattr(part, '__dict__'):
        part = {name: value for name, value in vars(part).items() if name not in ('words', 'width')}
        return plain(sorted(part.items()))
    if isinstance(part, (list, tuple)):
        return '[' + ', '.join(plain(item) for item in part) + ']'
    return repr(part)


if not written or plain(Setup(written, head[11])) != plain(Setup(packet, head[11])):
    sys.exit(1)
print(f'{len(packet)} bytes read, {len(written)} written')
PYTHON
}

mapfile -t lines < <(grep '^\[' "$made/written")
for number in "${!films[@]}"; do
    name=$(basename "${films[$number]}" .ogg)
    name="${name%%.*} channels, quality ${name#*.}"
    if said=$(holds_the_same "${films[$number]}" "${lines[$number]:-[]}"); then
        echo "ok: $name: $said"
        pass
    else
        fail "$name"
    fi
done
tell_results
