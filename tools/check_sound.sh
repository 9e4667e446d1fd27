#!/usr/bin/env bash
# Compares what `dump` writes of real films with what `oggdec` decodes of them, frame by frame.
#
#     tools/check_sound.sh [--small]
#
# Makes the films by `sox` and `oggenc`, most of them of the music in films/tune.ogg; with --small only four. Of each link
# alone oggdec writes its samples without a header: 16 bits, the lower byte first, channel after channel in the order of the
# standard (Vorbis I, section 4.3.9), which it keeps there, though not in WAV files. It rounds its floating values to the
# nearest sample without noise, and limits them, as `dump` does with its whole numbers. Since oggdec ends at a link of other
# channels or another rate, each link of a chain is decoded by itself, and all are put one after the other.
#
# A film passes where both give the same number of frames, as many as `info` tells, and no two samples differ by more than
# STEPS steps of 16 bits. Each film is a line of a table: the channels of its links, frames, the greatest difference of two
# samples, the part of all samples that differ, and the greatest sample, which shows that there is sound. Where the numbers of
# frames differ, both are told; where samples differ too much, the first such one.
#
# Most samples are the same, and most others differ by one step. More than that stands at one place of a block, three quarters
# through it, where the cosines of all bins meet: there it adds up that `dump` rounds each bin of a spectrum down, by half a
# unit of 2^-20 on average. It comes to at most some eleven steps, were no bin of a long block zero.
#
# Of a film in which a page is missing oggdec gives more: it overlaps the blocks before and after the gap, which are no
# neighbours, while the line of a film has no frame there. So the frames of one such overlap, at the gap, are left out.
#
# PLAYER is the program (default: the one that `player` at the repository's root runs). Where a program that it needs is
# missing it says so, compares nothing, and its status is 0. Else the last line is 'N passed, N failed', and the status is 1
# where something failed. Writes only below a folder of its own in the place for temporary files, and removes it.
set -euo pipefail

source "$(dirname "$(readlink -f "${BASH_SOURCE[0]}")")/checks.sh"
small=
if is_small "$@"; then small=1; fi
skip_without oggenc oggdec sox python3
player=$(program)
serial=0
# how many steps of 16 bits two samples may differ by
STEPS=8

# waves WORDS..: sox, which gives the same in each run, adds no noise of its own, and is silent about samples past the limit
waves() {
    sox -V1 -R -D "$@"
}

# sound NAME CHANNELS EFFECTS..: makes a sound, each of its channels by itself
sound() {
    waves -r 44100 -c "$2" -n -b 16 -t wavpcm "$work/$1.wav" "${@:3}"
}

# music NAME EFFECTS..: makes a sound of the music of the repository's film
music() {
    waves "$work/tune.wav" -b 16 -t wavpcm "$work/$1.wav" "${@:2}"
}

# film NAME QUALITY: makes the film of a sound, with a serial number of its own
film() {
    serial=$((serial + 1))
    oggenc -Q -q "$2" -s "$serial" -o "$work/$1.ogg" "$work/$1.wav"
}

# decode LINK..: what oggdec gives of films of one link, one after the other
decode() {
    local link
    for link; do oggdec -Q -R -b 16 -e 0 -s 1 -o - "$work/$link.ogg"; done
}

# compare NAME [gap]: a line of the table, and where it does not pass another one that says why
compare() {
    python3 - "$1" "$STEPS" "$work" "${2:-}" <<'PYTHON'
import array
import operator
import os
import sys

name, steps, work, gap = sys.argv[1], int(sys.argv[2]), sys.argv[3], sys.argv[4]


def samples(path):
    """The samples of a file; a byte that is left over is none."""
    with open(path, "rb") as file:
        data = file.read()
    found = array.array("h", data[: len(data) // 2 * 2])
    if sys.byteorder == "big":
        found.byteswap()
    return found


def without_overlap(ours, theirs, width, sizes):
    """Their samples without the frames of an overlap of blocks of these sizes, from the first that is another one of ours."""
    more = len(theirs) - len(ours)
    if more not in [width * (first + second) // 4 for first in sizes for second in sizes]:
        return theirs
    place = next((i for i, (a, b) in enumerate(zip(ours, theirs)) if abs(a - b) > steps), len(ours))
    place -= place % width
    return theirs[:place] + theirs[place + more :]


with open(f"{work}/said") as file:
    rows = [line.split() for line in file]
heads = [row for row in rows if row[0] == "head"]
channels = [int(row[3]) for row in heads]
frames = [int(row[3]) for row in rows if row[0] == "line"]
ours, theirs = samples(f"{work}/ours"), samples(f"{work}/theirs")
told = sum(count * width for count, width in zip(frames, channels))
bytes_given = os.path.getsize(f"{work}/ours")
if gap:
    theirs = without_overlap(ours, theirs, channels[0], [int(size) for size in heads[0][7:9]])

differences = array.array("l", map(abs, map(operator.sub, ours, theirs)))
greatest = max(differences, default=0)
other = sum(map(bool, differences)) / max(1, len(differences))
loudest = max(map(abs, theirs), default=0)
widths = "+".join(map(str, channels))
print(f"{name:<20} {widths:>8} {sum(frames):>8} {greatest:>8} {100 * other:>8.3f}% {loudest:>8}")
if bytes_given != 2 * told or len(theirs) != told:
    print(f"    info tells of {told} samples, dump writes {bytes_given} bytes, oggdec gives {len(theirs)} samples")
    sys.exit(1)
if greatest > steps:
    at = next(i for i, difference in enumerate(differences) if difference > steps)
    count = sum(difference > steps for difference in differences)
    link = place = 0
    while at - place >= frames[link] * channels[link]:
        place += frames[link] * channels[link]
        link += 1
    frame, channel = divmod(at - place, channels[link])
    print(f"    {count} samples differ by more than {steps}; the first is frame {frame}, channel {channel} of "
          f"link {link}: {ours[at]} in place of {theirs[at]}")
    sys.exit(1)
PYTHON
}

# hears NAME GAP LINK..: the program and oggdec give the same sound of a film, which is a chain of these links, each a film by
# itself; GAP is nothing, or `gap` where a page is missing
hears() {
    local status=0
    "$player" info "$work/$1.ogg" >"$work/said" 2>"$work/notes" &&
        "$player" dump "$root/constants/true.bin" "$work/$1.ogg" >"$work/ours" 2>"$work/notes" || status=$?
    decode "${@:3}" >"$work/theirs"
    if [ "$status" != 0 ]; then
        fail "$1: status $status, $(head -c 200 "$work/notes")"
    elif compare "$1" "$2"; then
        pass
    else
        fail "$1"
    fi
}

# chain NAME LINK..: a chain of films, one after the other
chain() {
    local link
    for link in "${@:2}"; do cat "$work/$link.ogg"; done >"$work/$1.ogg"
    hears "$1" '' "${@:2}"
}

# alone NAME QUALITY: a film of one link
alone() {
    film "$1" "$2"
    hears "$1" '' "$1"
}

# lose_page NAME FILM PAGE: a film in which the page of this number is missing
lose_page() {
    python3 - "$work/$2.ogg" "$3" >"$work/$1.ogg" <<'PYTHON'
import sys

with open(sys.argv[1], "rb") as file:
    data = file.read()
place, pages = 0, []
while place < len(data):
    count = data[place + 26]
    end = place + 27 + count + sum(data[place + 27 : place + 27 + count])
    pages.append(data[place:end])
    place = end
del pages[int(sys.argv[2])]
sys.stdout.buffer.write(b"".join(pages))
PYTHON
    hears "$1" gap "$1"
}

# together NAME SOUND..: makes a sound that has each of these as a channel
together() {
    local sounds=("${@:2}")
    sounds=("${sounds[@]/#/$work/}")
    waves -M "${sounds[@]/%/.wav}" -t wavpcm "$work/$1.wav"
}

# in_turns NAME CHANNELS: makes a sound in which each set of channels sounds once while the others are silent
in_turns() {
    local channel span parts=()
    for ((channel = 0; channel < $2; channel++)); do
        span=$((1 << channel))
        sound "turn_$channel" 1 synth "$((span / 5)).$((span % 5 * 2))" sine $((300 + 200 * channel)) \
            sine $((3000 - 70 * channel)) remix - vol 0.5 \
            pad "$((span / 5)).$((span % 5 * 2))" 0 repeat $(((1 << $2) / (2 * span) - 1))
        parts+=("turn_$channel")
    done
    together "$1" "${parts[@]}"
}

printf '%-20s %8s %8s %8s %9s %8s\n' film channels frames greatest differ loudest
cp "$root/films/tune.ogg" "$work/tune.ogg"
oggdec -Q -o "$work/tune.wav" "$work/tune.ogg"
if [ -z "$small" ]; then hears tune '' tune; fi

# one channel
music mono remix 1 trim 0 2
alone mono 3
# bursts of noise in silence: short and long blocks in turns
sound clicks 2 synth 0.01 whitenoise vol 0.7 pad 0 0.17 repeat 8 remix 1 2v0.6
alone clicks 5
# a few frames on one page, which cuts the end
music short trim 2 100s
alone short 5
chain chain mono clicks short

if [ -z "$small" ]; then
    for quality in -1 0 5 8 10; do
        cp "$work/tune.wav" "$work/quality_$quality.wav"
        alone "quality_$quality" "$quality"
    done
    # at the limit of the samples and past it
    sound loud 2 synth 3 pinknoise gain -n 12
    alone loud 5
    sound square 2 synth 3 square 60 square 440 vol 0.99
    alone square 3
    sound noise 2 synth 3 whitenoise vol 0.8
    alone noise 10
    sound silence 2 trim 0 2
    alone silence 3
    music low_rate remix 1 rate 8000
    alone low_rate 1
    music high_rate rate 96000 trim 1 2
    alone high_rate 6
    # one side alone; channels that sound in turns, so that any of those that are coupled may have no floor
    music one_side remix 1 0
    alone one_side 5
    in_turns sides_in_turns 2
    alone sides_in_turns 5
    # as many channels as a film may have, each another part of the music
    parts=()
    for part in 0 1 2 3 4 5 6 7; do
        music "part_$part" remix $((part % 2 + 1)) trim "0.$((12 * part))" 4
        parts+=("part_$part")
    done
    for count in 3 4 5 7 8; do
        together "channels_$count" "${parts[@]:0:count}"
        alone "channels_$count" 4
    done
    for quality in -1 5 10; do
        together "six_$quality" "${parts[@]:0:6}"
        alone "six_$quality" "$quality"
    done
    for quality in 1 5; do
        in_turns "six_in_turns_$quality" 6
        alone "six_in_turns_$quality" "$quality"
    done
    for frames in 1 2 63 64 65 1000 5000; do
        music "frames_$frames" trim 2 "${frames}s"
        alone "frames_$frames" 5
    done
    chain chain_of_two quality_5 quality_-1
    chain chain_of_four six_5 low_rate frames_1 one_side
    # films whose end is missing
    size=$(stat -c %s "$work/quality_5.ogg")
    for missing in 1 1000 20000; do
        head -c $((size - missing)) "$work/quality_5.ogg" >"$work/without_$missing.ogg"
        hears "without_$missing" '' "without_$missing"
    done
    # films in which a page is missing
    for page in 3 10; do lose_page "page_lost_$page" quality_5 "$page"; done
    lose_page mono_page_lost mono 3
fi

tell_results
