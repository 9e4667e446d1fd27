#!/usr/bin/env bash
# Measures what making a block's values costs: builds a scratch program over fixed_synthesis in a temporary folder, beside
# copies of the crates that it stands on, for the default processor and for x86-64-v3. It prints the time of reading the
# constants, and for blocks of 256, 2,048 and 8,192 values, silent ones, with a third of the bins and with all, the times of
# the half sums by the product, in lanes where blocks are short, and as they are made, and of the whole transform: of each the
# fastest of some rounds. Last of all come the half sums bin by bin, which take as long for any bins. It writes nothing in the
# repository.
set -euo pipefail
source "$(dirname "$(readlink -f "${BASH_SOURCE[0]}")")/scratch.sh"
scratch_program bench_transform fixed_synthesis constants_file half_sums model_synthesis
cat >src/main.rt <<'RATTLE'
//! Times the transform of blocks.
#![tactic(auto)]

ghost use Rattle.std.specs.Prelude.{◌≡◌, ◌≤◌, ◌*◌, ◌^◌, length, IfOk, unsigned_abs};
ghost use Rattle.half_sums.specs.Places.{AreBins};

use constants_file::Constants;
use fixed_synthesis::transform;
use half_sums::{SHORT_LEVELS, Transforms};
use std::alloc::{AllocError, Global};
use std::io;
use std::time::Instant;

/// How many rounds there are of each, of which the fastest counts.
const ROUNDS: u32 = 200;

/// Which bins of a spectrum are not zero.
#[derive(Clone, Copy, Debug)]
enum Bins {
    None,
    Third,
    All,
}

/// How half sums are made.
#[derive(Clone, Copy, Debug)]
enum Way {
    AsForAFilm,
    ByTheProduct,
    InLanes,
}

/// The ways in which half sums of short blocks are made, and those of long ones.
const SHORT_WAYS: [Way; 3] = [Way::ByTheProduct, Way::InLanes, Way::AsForAFilm];
const LONG_WAYS: [Way; 2] = [Way::ByTheProduct, Way::AsForAFilm];

/// A bin of a spectrum.
fn bin(bins: Bins, k: u64) -> i64
    ensures { unsigned_abs result ≤ 2 ^ 27 }
{
    let value = match bins {
        Bins::None => 0,
        Bins::Third if k.wrapping_mul(2_654_435_761) % 3 != 0 => 0,
        _ => (k.wrapping_mul(104_729) % 268_435_457) as i64 - 134_217_728,
    };
    value.clamp(-134_217_728, 134_217_728)
}

/// A spectrum of 2^levels bins.
fn spectrum(alloc: Global, bins: Bins, levels: u32) -> Result<Vec<i64>, AllocError>
    requires least { 5 ≤ levels }
    requires most { levels ≤ 12 }
    ensures size { IfOk result (λ values. length values.items ≡ 2 ^ levels) }
    ensures bins { IfOk result (λ values. AreBins values.items) }
{
    let count: u64 = 1 << levels;
    let mut values = Vec::new(alloc);
    for k in 0..count {
        values.push(bin(bins, k))?;
    }
    Ok(values)
}

/// The half sums of a spectrum of 2^levels bins.
fn put_sums(transforms: &Transforms, way: Way, levels: u32, bins: &Vec<i64>, sums: &mut [i64])
    requires least { 5 ≤ levels }
    requires most { levels ≤ 12 }
    requires size { length bins.now.items ≡ 2 ^ levels }
    requires sums { length sums.old ≡ 2 ^ levels }
    requires bins { AreBins bins.now.items }
{
    match way {
        Way::InLanes if levels <= SHORT_LEVELS => transforms.lane_sums(levels, bins, sums),
        Way::ByTheProduct => transforms.product_sums(levels, bins, sums),
        _ => transforms.half_sums(bins, sums),
    }
}

/// The values of a block of 2^levels bins.
fn put_block(constants: &Constants, levels: u32, bins: &Vec<i64>, out: &mut [i64])
    requires least { 5 ≤ levels }
    requires most { levels ≤ 12 }
    requires size { length bins.now.items ≡ 2 ^ levels }
    requires out { length out.old ≡ 2 * 2 ^ levels }
    requires bins { AreBins bins.now.items }
{
    transform(constants, bins, out);
}

/// Half sums of a spectrum bin by bin, over numbers in place of cosines.
fn put_plainly(turn: &[i64], bins: &[i64], sums: &mut [i64]) {
    let mut step = 1usize.wrapping_add(bins.len());
    for sum in sums.iter_mut() {
        let mut at = step;
        let mut all = 0i64;
        for bin in bins {
            let place = at & turn.len().wrapping_sub(1);
            all = all.wrapping_add(bin.wrapping_mul(turn.get(place).copied().unwrap_or(0)));
            at = at.wrapping_add(step);
        }
        *sum = all;
        step = step.wrapping_add(2);
    }
}

/// A number that goes with all sums.
fn all_of(sums: &[i64]) -> i64 {
    let mut all = 0i64;
    for sum in sums {
        all = all.wrapping_mul(31).wrapping_add(*sum);
    }
    all
}

/// The time of half sums bin by bin.
fn time_plainly(rt: &HostRuntime, bins: &[i64], sums: &mut [i64]) -> io::Result<u128> {
    let mut turn = Vec::new(rt.alloc());
    for place in 0..16_384u32 {
        turn.push(i64::from(place.wrapping_mul(7919) % 8_388_609))?;
    }
    let mut fastest = u128::MAX;
    for _ in 0..4u32 {
        let begin = Instant::now(rt)?;
        put_plainly(&turn, bins, sums);
        fastest = fastest.min(begin.elapsed(rt)?.as_nanos());
    }
    Ok(fastest)
}

/// The time of half sums that are made one way.
fn time_sums(
    rt: &HostRuntime,
    transforms: &Transforms,
    way: Way,
    levels: u32,
    bins: &Vec<i64>,
    sums: &mut [i64],
) -> io::Result<u128>
    requires least { 5 ≤ levels }
    requires most { levels ≤ 12 }
    requires size { length bins.now.items ≡ 2 ^ levels }
    requires sums { length sums.old ≡ 2 ^ levels }
    requires bins { AreBins bins.now.items }
{
    let mut fastest = u128::MAX;
    for _ in 0..ROUNDS {
        let begin = Instant::now(rt)?;
        put_sums(transforms, way, levels, bins, sums);
        fastest = fastest.min(begin.elapsed(rt)?.as_nanos());
    }
    Ok(fastest)
}

/// The time of a block.
fn time_block(
    rt: &HostRuntime,
    constants: &Constants,
    levels: u32,
    bins: &Vec<i64>,
    out: &mut [i64],
) -> io::Result<u128>
    requires least { 5 ≤ levels }
    requires most { levels ≤ 12 }
    requires size { length bins.now.items ≡ 2 ^ levels }
    requires out { length out.old ≡ 2 * 2 ^ levels }
    requires bins { AreBins bins.now.items }
{
    let mut fastest = u128::MAX;
    for _ in 0..ROUNDS {
        let begin = Instant::now(rt)?;
        put_block(constants, levels, bins, out);
        fastest = fastest.min(begin.elapsed(rt)?.as_nanos());
    }
    Ok(fastest)
}

/// The ways in which half sums of 2^levels bins are made.
fn ways(levels: u32) -> &'static [Way] {
    if levels <= SHORT_LEVELS {
        &SHORT_WAYS
    } else {
        &LONG_WAYS
    }
}

/// Prints the times of half sums of a spectrum.
fn print_sums(
    rt: &HostRuntime,
    constants: &Constants,
    kind: Bins,
    levels: u32,
    bins: &Vec<i64>,
    sums: &mut [i64],
) -> io::Result<()>
    requires least { 5 ≤ levels }
    requires most { levels ≤ 12 }
    requires size { length bins.now.items ≡ 2 ^ levels }
    requires sums { length sums.old ≡ 2 ^ levels }
    requires bins { AreBins bins.now.items }
{
    for way in ways(levels) {
        let spent = time_sums(rt, constants.transforms(), *way, levels, bins, sums)?;
        println!(rt; "2^{levels} bins, {kind:?}, half sums {way:?}: {spent} ns ({})", all_of(sums))?;
    }
    Ok(())
}

/// Prints the times for blocks of 2^levels bins.
fn print_times(rt: &HostRuntime, constants: &Constants, kind: Bins, levels: u32) -> io::Result<()>
    requires least { 5 ≤ levels }
    requires most { levels ≤ 12 }
{
    let bins = spectrum(rt.alloc(), kind, levels)?;
    let mut sums = vec![in rt.alloc(); 0i64; 1 << levels]?;
    print_sums(rt, constants, kind, levels, &bins, &mut sums)?;
    let mut out = vec![in rt.alloc(); 0i64; 2 << levels]?;
    let spent = time_block(rt, constants, levels, &bins, &mut out)?;
    println!(rt; "2^{levels} bins, {kind:?}, transform: {spent} ns ({})", all_of(&out))?;
    Ok(())
}

/// Prints the time of half sums of 2^levels bins, bin by bin.
fn print_plainly(rt: &HostRuntime, levels: u32) -> io::Result<()>
    requires least { 5 ≤ levels }
    requires most { levels ≤ 12 }
{
    let bins = spectrum(rt.alloc(), Bins::All, levels)?;
    let mut sums = vec![in rt.alloc(); 0i64; 1 << levels]?;
    let spent = time_plainly(rt, &bins, &mut sums)?;
    println!(rt; "2^{levels} bins, half sums bin by bin: {spent} ns ({})", all_of(&sums))?;
    Ok(())
}

fn main(rt: HostRuntime) -> io::Result<()> {
    let mut bytes = b"VFCONST1".to_vec(rt.alloc())?;
    for index in 0..16608u32 {
        bytes.extend_from_slice(&index.wrapping_mul(500).to_le_bytes())?;
    }
    let begin = Instant::now(&rt)?;
    let Ok(constants) = Constants::read(rt.alloc(), &bytes) else {
        return Ok(());
    };
    println!(rt; "reading the constants: {} ns", begin.elapsed(&rt)?.as_nanos())?;
    for kind in [Bins::None, Bins::Third, Bins::All] {
        print_times(&rt, &constants, kind, 7)?;
        print_times(&rt, &constants, kind, 10)?;
        print_times(&rt, &constants, kind, 12)?;
    }
    print_plainly(&rt, 7)?;
    print_plainly(&rt, 10)?;
    print_plainly(&rt, 12)?;
    Ok(())
}
RATTLE
# what makes spectra and half sums here is proved as it is in the tests of half_sums
for proof in spectrum/Invariants spectrum/Answers put_sums/Answers; do
    mkdir -p "proofs/${proof%/*}"
    sed 's/half_sums\.proofs\.tests/bench_transform.proofs/' \
        "$root/crates/half_sums/proofs/tests/$proof.antt" >"proofs/$proof.antt"
done
mkdir -p proofs/put_block
cat >proofs/put_block/Answers.antt <<'PROOF'
use Rattle.std.proofs.Common.{◌∙◌, length, ap, pos, subst, sym}
use Rattle.std.specs.List.{All}
use Rattle.std.proofs.lemmas.List.Elements.{All-from_get_or}
use Rattle.model_synthesis.specs.Spectrum.{IsBin}
use Rattle.half_sums.proofs.LaidOut.{block_size_from}
use Rattle.bench_transform.proofs.put_block.Goals as goal

pub transform-requires-clause-size : goal.transform-requires-clause-size
transform-requires-clause-size c =
    block_size_from (length c.deref.result.now) c.args.levels (ap length c.deref.ensures.value ∙ c.requires.size) c.requires.least c.requires.most

pub transform-requires-clause-bins : goal.transform-requires-clause-bins
transform-requires-clause-bins c =
    subst (All IsBin) (sym c.deref.ensures.value)
    (All-from_get_or IsBin c.args.bins.now.items (pos 0) (λ i h. c.requires.bins i))
PROOF
echo "default processor"
print_times
echo "x86-64-v3"
print_times --cpu=x86-64-v3
