#!/usr/bin/env bash
# Measures where the time of decoding a block goes: builds a scratch program over block_decoding in a temporary folder, beside
# copies of the crates that it stands on, and prints the time of each part of a block over the packets of a stereo film of ten
# seconds that oggenc makes at quality 5. The copy of block_decoding gets a module that decodes a packet up to a part, proved
# as the rest; a part's time is what it adds to that of the parts before it, each the fastest of ten rounds. It writes nothing
# in the repository.
set -euo pipefail
source "$(dirname "$(readlink -f "${BASH_SOURCE[0]}")")/scratch.sh"
need oggenc sox
scratch_program bench_block block_decoding setup_header constants_file

# a module of the copy of block_decoding
decoding=$work/crates/block_decoding
sed -i 's/^fn bin_count/pub fn bin_count/' "$decoding/src/block.rt"
sed -i 's/^fn write_spectrum/pub fn write_spectrum/' "$decoding/src/channels.rt"
sed -i 's/^mod wanted;/mod until;\n&/; s/^pub use memory::NoMemory;/&\npub use until::decode_until;/' "$decoding/src/lib.rt"
mkdir -p "$decoding/proofs/until"/{parts_until,decode_until,synthesize_until}
cat >"$decoding/src/until.rt" <<'RATTLE'
//! Decodes a packet up to a part, for measuring: 0 is its head, 1 its floors, 2 its residues, 3 the coupling, 4 the curves,
//! 5 the transform and 6 the window.

ghost use Rattle.std.specs.Prelude.{◌≡◌, ◌<◌, ◌*◌, length, IfSome};
ghost use Rattle.std.specs.List.{All};
ghost use Rattle.model_setup.specs.AudioHead.{head_of};
ghost use Rattle.model_synthesis.specs.Coupling.{AreChannels};
ghost use Rattle.model_synthesis.specs.Spectrum.{IsBin};
ghost use Rattle.model_line.specs.PacketRows.{block_flags};
ghost use Rattle.block_decoding.specs.Setups.{IsOfLink, AreSizes, IsBlockHead};
ghost use Rattle.block_decoding.specs.Shapes.{IsShape};

use crate::block::bin_count;
use crate::channels::{Shape, write_spectrum};
use crate::curves::{Curve, read_curves};
use crate::head::{BlockHead, read_head};
use crate::submap_residues::read_residues;
use crate::wanted::wanted_channels;
use bit_reader::Bits;
use constants_file::Constants;
use fixed_synthesis::{transform, uncouple_all};
use lap_window::window;
use model_block::BlockSizes;
use residues::Line;
use memory::NoMemory;
use setup_header::Setup;
use std::alloc::Global;

/// Makes the values of a channel from its spectrum.
fn write_some(constants: &Constants, shape: Shape, spectrum: &[i64], out: &mut [i64], last: u8)
    requires shape { IsShape shape (length spectrum.now) }
    requires out { length out.old ≡ 2 * length spectrum.now }
    requires bins { All IsBin spectrum.now }
{
    if last <= 4 {
        return;
    }
    transform(constants, spectrum, out);
    if last <= 5 {
        return;
    }
    window(
        constants,
        shape.short,
        shape.long,
        shape.previous,
        shape.next,
        out,
    );
}

/// Makes the values of all channels, and keeps those of the last one alone.
fn synthesize_until(
    alloc: Global,
    constants: &Constants,
    shape: Shape,
    residues: &[Line],
    curves: &[Option<Curve>],
    size: usize,
    last: u8,
) -> Result<i64, NoMemory>
    requires shape { IsShape shape size }
    requires residues { AreChannels size residues.now }
    requires count { length residues.now ≡ length curves.now }
    requires curves { All (λ curve. IfSome curve (λ bins. length bins ≡ size)) curves.now }
{
    let mut room = vec![in alloc; 0; 3 * size]?;
    let (spectrum, values) = room.split_at_mut(size);
    for channel in 0..curves.len() {
        let residue = residues[channel].items();
        write_spectrum(constants, residue, &curves[channel], spectrum);
        write_some(constants, shape, spectrum, values, last);
    }
    let bin = spectrum.first().copied().unwrap_or(0);
    Ok(values.first().copied().unwrap_or(bin))
}

/// Decodes the parts behind the head.
fn parts_until(
    alloc: Global,
    constants: &Constants,
    setup: &Setup,
    sizes: BlockSizes,
    head: BlockHead,
    bits: &mut Bits,
    last: u8,
) -> Result<i64, NoMemory>
    requires setup { IsOfLink setup.now }
    requires sizes { AreSizes sizes }
    requires mode { head.mode < length setup.now.modes }
{
    let long = setup.long_flags()[usize::from(head.mode)];
    let size = bin_count(sizes, long);
    let mapping = setup.mapping(head.mode);
    let curves = read_curves(alloc, bits, setup, mapping, size)?;
    if last <= 1 {
        return Ok(i64::from(curves.first().is_some()));
    }
    let steps = mapping.couplings();
    let wanted = wanted_channels(alloc, steps, &curves)?;
    let mut residues = read_residues(alloc, bits, setup, mapping, &wanted, size)?;
    if last <= 2 {
        return Ok(i64::from(residues.first().is_some()));
    }
    uncouple_all(steps, &mut residues);
    if last <= 3 {
        return Ok(i64::from(residues.first().is_some()));
    }
    let shape = Shape {
        short: sizes.short,
        long,
        previous: head.previous,
        next: head.next,
    };
    synthesize_until(alloc, constants, shape, &residues, &curves, size, last)
}

/// Decodes the packet of a block up to a part.
pub fn decode_until(
    alloc: Global,
    constants: &Constants,
    setup: &Setup,
    sizes: BlockSizes,
    packet: &[u8],
    last: u8,
) -> Result<i64, NoMemory>
    requires setup { IsOfLink setup.now }
    requires sizes { AreSizes sizes }
    requires block { IsBlockHead (head_of (block_flags setup.now) packet.now) }
{
    let mut bits = Bits::new(packet);
    let head = read_head(&mut bits, setup.long_flags());
    if last == 0 {
        return Ok(i64::from(head.mode));
    }
    parts_until(alloc, constants, setup, sizes, head, &mut bits, last)
}
RATTLE
cat >"$decoding/proofs/until/parts_until/Answers.antt" <<'ANTT'
use Rattle.std.proofs.Common.{get_or, false}
use Rattle.block_decoding.proofs.ModeSteps.{shape_is}
use Rattle.block_decoding.proofs.until.parts_until.Goals as goal

pub synthesize_until-requires-clause-shape : goal.synthesize_until-requires-clause-shape
synthesize_until-requires-clause-shape c =
    (shape_is c.args.sizes c.args.head.previous c.args.head.next (get_or c.long_flags.result.now c.from.result false) c.bin_count-size.result c.requires.sizes c.bin_count-size.ensures).1
ANTT
cat >"$decoding/proofs/until/decode_until/Answers.antt" <<'ANTT'
use Rattle.block_decoding.proofs.HeadSteps.{head_is}
use Rattle.block_decoding.proofs.until.decode_until.Goals as goal

pub read_head-head-requires-clause-block : goal.read_head-head-requires-clause-block
read_head-head-requires-clause-block c =
    head_is c.args.setup.now c.args.packet.now c.long_flags.result.now c.new-bits.result.left c.long_flags.ensures c.new-bits.ensures.left c.requires.block
ANTT
cat >"$decoding/proofs/until/synthesize_until/Invariants.antt" <<'ANTT'
use Rattle.std.proofs.Common.{◌≡◌, ◌*◌, length}
use Rattle.block_decoding.proofs.until.synthesize_until.Given as goal

abbrev pub invariant-loop-channel : goal.invariant-loop-channel
invariant-loop-channel l = record {
  spectrum : length l.spectrum ≡ l.size;
  values : length l.values ≡ 2 * l.size;
}
ANTT

cat >src/main.rt <<'RATTLE'
//! Times decoding the packets of a film up to each of their parts.
#![tactic(auto)]

ghost use Rattle.block_decoding.specs.Setups.{IsOfLink};

use block_decoding::{BlockSizes, NoMemory, decode, decode_until};
use constants_file::Constants;
use setup_header::{PacketHead, Setup, head};
use std::alloc::Global;
use std::time::Instant;
use std::{env, fs, io};

/// How often the film is decoded up to each part.
const ROUNDS: u32 = 10;

/// The number of all parts and the copies of the halves.
const WHOLE: u8 = 7;

/// Each packet lies in so many bytes, of which the first two tell its length.
const SLOT: usize = 2048;

const SIZES: BlockSizes = BlockSizes {
    short: 256,
    long: 2048,
};

/// The packet in a slot.
fn packet_in(slot: &[u8]) -> &[u8] {
    let [low, high, bytes @ ..] = slot else {
        return slot;
    };
    let len = usize::from(u16::from_le_bytes([*low, *high]));
    if len <= bytes.len() {
        &bytes[..len]
    } else {
        bytes
    }
}

/// Decodes a packet up to a part.
fn decode_some(
    alloc: Global,
    constants: &Constants,
    setup: &Setup,
    packet: &[u8],
    last: u8,
) -> Result<i64, NoMemory>
    requires { IsOfLink setup.now }
{
    let PacketHead::Block { .. } = head(setup.long_flags(), packet) else {
        return Ok(0);
    };
    if last < WHOLE {
        return decode_until(alloc, constants, setup, SIZES, packet, last);
    }
    let block = decode(alloc, constants, setup, SIZES, packet)?;
    Ok(i64::from(block.left.items().first().is_some()))
}

/// Decodes all packets up to a part.
fn decode_film(
    alloc: Global,
    constants: &Constants,
    setup: &Setup,
    film: &[u8],
    last: u8,
) -> Result<i64, NoMemory>
    requires { IsOfLink setup.now }
{
    let mut sum = 0i64;
    for slot in film.chunks_exact(SLOT) {
        let some = decode_some(alloc, constants, setup, packet_in(slot), last)?;
        sum = sum.wrapping_add(some);
    }
    Ok(sum)
}

fn main(rt: HostRuntime) -> io::Result<()> {
    let alloc = rt.alloc();
    let mut words = env::args(&rt)?.skip(1);
    let (Some(setup), Some(film), Some(constants)) = (words.next(), words.next(), words.next())
    else {
        return Ok(());
    };
    let setup = fs::read(&rt, setup.as_str())?;
    let film = fs::read(&rt, film.as_str())?;
    let constants = fs::read(&rt, constants.as_str())?;
    let Ok(setup) = Setup::read(alloc, 2, &setup) else {
        return Ok(());
    };
    let Ok(constants) = Constants::read(alloc, &constants) else {
        return Ok(());
    };
    for _ in 0..ROUNDS {
        for last in 0..=WHOLE {
            let begin = Instant::now(&rt)?;
            let Ok(sum) = decode_film(alloc, &constants, &setup, &film, last) else {
                return Ok(());
            };
            let spent = begin.elapsed(&rt)?.as_nanos();
            println!(rt; "part {last}: {spent} ns (sum {sum})")?;
        }
    }
    Ok(())
}
RATTLE
mkdir -p proofs/decode_some
cat >proofs/decode_some/Answers.antt <<'ANTT'
use Rattle.std.proofs.Common.{refl, arith}
use Rattle.bench_block.proofs.decode_some.Goals as goal

pub decode-requires-clause-sizes : goal.decode-requires-clause-sizes
decode-requires-clause-sizes c = record {
  short = record { exponent = 8; at_least_64 = omega arith; at_most_8192 = omega arith; is_power = refl };
  long = record { exponent = 11; at_least_64 = omega arith; at_most_8192 = omega arith; is_power = refl };
  in_order = omega arith;
}

pub decode_until-requires-clause-sizes : goal.decode_until-requires-clause-sizes
decode_until-requires-clause-sizes c = record {
  short = record { exponent = 8; at_least_64 = omega arith; at_most_8192 = omega arith; is_power = refl };
  long = record { exponent = 11; at_least_64 = omega arith; at_most_8192 = omega arith; is_power = refl };
  in_order = omega arith;
}
ANTT

# the setup packet, and each audio packet in a slot
noise_film "$work/film.ogg" 1 2 44100 10 5
PYTHONPATH=$root/tools python3 -B - "$work" <<'PYTHON'
import pathlib
import sys

from decode import packets_of

work = pathlib.Path(sys.argv[1])
packets = packets_of((work / 'film.ogg').read_bytes())
assert all(len(packet) <= 2046 for packet in packets[3:])
(work / 'setup').write_bytes(packets[2])
(work / 'film').write_bytes(b''.join(len(p).to_bytes(2, 'little') + p.ljust(2046, b'\0') for p in packets[3:]))
PYTHON
rt run -- "$work/setup" "$work/film" "$root/constants/true.bin" >"$work/log" 2>&1 || {
    cat "$work/log"
    exit 1
}
awk -v blocks="$(($(stat -c %s "$work/film") / 2048))" '
    $1 == "part" && (!($2 in least) || $3 < least[$2]) { least[$2] = $3 }
    END {
        count = split("head,floors,residues,coupling,curves,transform,window,copies of the halves", name, ",")
        for (part = 0; part < count; part++) {
            spent = (least[part ":"] - before) / 1000 / blocks
            before = least[part ":"]
            whole = least[count - 1 ":"] / 1000 / blocks
            printf "%-22s %8.2f us a block %6.1f %%\n", name[part + 1], spent, 100 * spent / whole
        }
        printf "%-22s %8.2f us a block, of %d blocks\n", "the whole", whole, blocks
    }' "$work/log"
