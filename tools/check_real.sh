#!/usr/bin/env bash
# Compares what `info` counts in real films with what `oggz-info`, `ogginfo` and `oggdec` say of them.
#
#     tools/check_real.sh [--small]
#
# Makes the films by `sox` and `oggenc`; with --small only five short ones. PLAYER is the program (default: the one that
# `player` at the repository's root runs). Where a program that it needs is missing it says so, compares nothing, and its
# status is 0. Else the last line is 'N passed, N failed', and the status is 1 where something failed.
# Writes only below a folder of its own in the place for temporary files, and removes it.
set -euo pipefail

source "$(dirname "$(readlink -f "${BASH_SOURCE[0]}")")/checks.sh"
small=
if is_small "$@"; then small=1; fi
skip_without oggenc ogginfo oggdec sox oggz-info oggz-merge
player=$(program)

# make NAME SERIAL CHANNELS RATE SECONDS QUALITY: makes a film of noise
make() {
    noise_film "$work/$1.ogg" "${@:2}"
}

# info NAME: what the program prints of a film goes into `said`, and its status into `status`
info() {
    status=0
    said=$("$player" info "$work/$1.ogg" 2>"$work/notes") || status=$?
}

# frames FILE CHANNELS: how many frames oggdec decodes of a file of one link
frames() {
    echo $(($(oggdec -Q -R -o - "$work/$1.ogg" | wc -c) / (2 * $2)))
}

# expected FILE LINK SERIAL CHANNELS RATE: the three lines that are wanted of a link, by the pages and packets that oggz-info
# tells of the Vorbis stream of a file, and the frames that oggdec decodes of it; only the sizes of its blocks are left open
expected() {
    local packets pages
    read -r packets pages < <(oggz-info "$work/$1.ogg" 2>/dev/null |
        sed -n '/^Vorbis/,$ s/^\t\([0-9]*\) packets in \([0-9]*\) pages.*/\1 \2/p' | head -n 1) || true
    echo "link $2 serial $3 pages $pages packets $packets lost 0"
    echo "head $2 channels $4 rate $5 blocks [0-9]+ [0-9]+"
    echo "line $2 frames $(frames "$1" "$4") gaps 0"
}

# total LINES: these lines of links, and the last line, which has the sum of their frames
total() {
    local sum=0 count
    for count in $(sed -n 's/^line [0-9]* frames \([0-9]*\) .*/\1/p' <<<"$1"); do sum=$((sum + count)); done
    echo "$1"
    echo "total $sum"
}

# damaged LINES: the same lines of a film that is cut short: the packet that was open at its end is lost, and its frames are
# not those that oggdec gives
damaged() {
    sed -E 's/lost 0/lost [01]/; s/frames [0-9]+ gaps 0/frames [0-9]+ gaps [01]/; s/^total .*/total [0-9]+/' <<<"$1"
}

# heard NAME SERIAL CHANNELS RATE: ogginfo tells of such a Vorbis stream
heard() {
    local told
    told=$(ogginfo "$work/$1.ogg" 2>&1 || true)
    grep -q "^New logical stream (#[0-9]*, serial: 0*$(printf '%x' "$2")): type vorbis\$" <<<"$told" &&
        grep -q "^Channels: $3\$" <<<"$told" && grep -q "^Rate: $4\$" <<<"$told"
}

# says NAME LINES: the program says these lines of a film
says() {
    info "$1"
    if [ "$status" != 0 ]; then
        fail "$1: status $status, $(head -c 200 "$work/notes")"
    elif [[ $said =~ ^$2$ ]]; then
        echo "ok: $1: ${said//$'\n'/; }"
        pass
    else
        fail "$1: said '$said', expected '$2'"
    fi
}

# counts NAME SERIAL CHANNELS RATE [cut]: the program and the others agree on a film of one link
counts() {
    local lines
    if heard "$1" "$2" "$3" "$4"; then
        lines=$(total "$(expected "$1" 0 "$2" "$3" "$4")")
        if [ -n "${5:-}" ]; then lines=$(damaged "$lines"); fi
        says "$1" "$lines"
    else
        fail "$1: ogginfo tells of another stream"
    fi
}

# another stream of another codec beside the sound, or else a second one of sound
multiplexed() {
    if [ -z "$(missing opusenc)" ]; then
        sox -R -n -r 48000 -c 1 -b 16 "$work/other.wav" synth 5 pinknoise vol 0.5
        opusenc --quiet "$work/other.wav" "$work/other.ogg"
    else
        make other 77 1 48000 5 1
    fi
    oggz-merge -o "$work/multiplexed.ogg" "$work/mono.ogg" "$work/other.ogg"
}

make mono 1 1 44100 3 0
counts mono 1 1 44100
make second 4000000000 2 44100 1 3
counts second 4000000000 2 44100
{
    head -c 1024 /dev/urandom
    cat "$work/mono.ogg"
} >"$work/garbage_before.ogg"
counts garbage_before 1 1 44100
size=$(stat -c %s "$work/mono.ogg")
head -c $((size - 1000)) "$work/mono.ogg" >"$work/cut_short.ogg"
counts cut_short 1 1 44100 cut

if [ -z "$small" ]; then
    make low_rate 8 1 8000 20 1
    counts low_rate 8 1 8000
    make stereo 9 2 48000 60 5
    counts stereo 9 2 48000
    make worst_quality 10 2 44100 20 -1
    counts worst_quality 10 2 44100
    make best_quality 11 2 44100 20 10
    counts best_quality 11 2 44100
    make three_channels 12 3 22050 10 4
    counts three_channels 12 3 22050
    make four_channels 13 4 44100 10 2
    counts four_channels 13 4 44100
    make five_channels 14 5 44100 10 2
    counts five_channels 14 5 44100
    make six_channels 2147483648 6 48000 10 6
    counts six_channels 2147483648 6 48000
    cat "$work/low_rate.ogg" "$work/stereo.ogg" "$work/six_channels.ogg" >"$work/three_links.ogg"
    says three_links "$(total "$(expected low_rate 0 8 1 8000)
$(expected stereo 1 9 2 48000)
$(expected six_channels 2 2147483648 6 48000)")"
    # oggz-info miscounts the packets of a multiplexed film, so the stream's own film is asked
    multiplexed
    if heard multiplexed 1 1 44100; then
        says multiplexed "$(total "$(expected mono 0 1 1 44100)")"
    else
        fail "multiplexed: ogginfo tells of another stream"
    fi
fi
cat "$work/mono.ogg" "$work/second.ogg" >"$work/chain.ogg"
says chain "$(total "$(expected mono 0 1 1 44100)
$(expected second 1 4000000000 2 44100)")"

tell_results
