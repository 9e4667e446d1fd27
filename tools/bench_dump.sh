#!/usr/bin/env bash
# Times `dump` of the proved program and `oggdec` on one film: three minutes of music in stereo, 44,100 Hz, quality 5. The
# music is that of films/tune.ogg again and again, each time faster.
#
#     tools/bench_dump.sh              of each the median of five runs, which take turns, and the most memory that a run took;
#                                      how many times as fast as it sounds `dump` is; what it takes beyond `info`, which opens
#                                      the film and writes no sound
#     tools/bench_dump.sh --v3         the same of a program that is proved and built for processors of the level x86-64-v3,
#                                      in turns with it; it needs `rt`
#     tools/bench_dump.sh --profile    where the time of `dump` goes: the part of each function, by `perf`, or where that
#                                      does not work here by `valgrind`, which counts the steps of a film of seven seconds
#
# It fails where a run does not end with status 0.
# PLAYER is the program (default: the one that `player` at the repository's root runs). FILM is a film to take in place of the
# one that is made. Writes only below a folder of its own in the place for temporary files, and removes it.
set -euo pipefail

tools=$(dirname "$(readlink -f "${BASH_SOURCE[0]}")")
mode=${1:-}
case $mode in
    '' | --profile) source "$tools/common.sh" ;;
    --v3) source "$tools/scratch.sh" ;;
    *)
        echo "usage: tools/bench_dump.sh [--v3 | --profile]" >&2
        exit 2
        ;;
esac
need oggenc oggdec sox python3 /usr/bin/time
player=$(program)
constants=$root/constants/true.bin
[ -n "${work:-}" ] || temporary_folder

# three_minutes: makes the film of three minutes
three_minutes() {
    local k
    oggdec -Q -o "$work/tune.wav" "$root/films/tune.ogg"
    for k in $(seq 10 39); do sox -V1 -R -D "$work/tune.wav" "$work/part$k.wav" speed "0.$((60 + k))"; done
    sox -V1 "$work"/part*.wav "$work/music.wav" trim 0 180
    oggenc -Q -q 5 -s 1 -o "$work/music.ogg" "$work/music.wav"
    rm "$work"/*.wav
}

# built_for LEVEL: proves and builds the program for a level of processors, in a copy, and prints its path
built_for() {
    copy_crates player_cli
    cp "$root/HANDLES" "$work"
    (cd "$work/crates/player_cli" && rt run --cpu="$1" -- info data/film.ogg) >"$work/log" 2>&1 || {
        tail -n 20 "$work/log" >&2
        exit 1
    }
    echo "$work/crates/player_cli/out/player_cli"
}

# profile FILM: the parts of functions, the greatest first
profile() {
    if perf record -q -e task-clock -F 5000 -o "$work/parts" "$player" dump "$constants" "$1" >/dev/null 2>&1; then
        perf report -q --stdio --no-children -g none -F overhead,sym -i "$work/parts" 2>/dev/null |
            sed 's/\[[.k]\] //' | awk 'NF' | head -n 30
    elif [ -z "$(missing valgrind callgrind_annotate)" ]; then
        valgrind -q --tool=callgrind --callgrind-out-file="$work/parts" "$player" dump "$constants" "$root/films/tune.ogg" \
            >/dev/null
        callgrind_annotate --auto=no "$work/parts" | sed -n '/file:function/,$ p' | head -n 32
    else
        echo "nothing was counted: perf does not work here, and valgrind is missing" >&2
        exit 1
    fi
}

film=${FILM:-}
if [ -z "$film" ]; then
    echo "making three minutes of music, which takes some seconds" >&2
    three_minutes
    film=$work/music.ogg
fi
if [ "$mode" = --profile ]; then
    profile "$film"
    exit
fi
others=()
if [ "$mode" = --v3 ]; then
    other=$(built_for x86-64-v3)
    others+=("$other")
fi

PYTHONPATH=$root/tools python3 -B - "$player" "$constants" "$film" "${others[@]}" <<'PYTHON'
import os
import subprocess
import sys

from in_turns import in_turns

player, constants, film = sys.argv[1:4]
info = subprocess.run([player, "info", film], check=True, capture_output=True, text=True)
said = [line.split() for line in info.stdout.splitlines()]
seconds = sum(int(line[3]) / int(head[5]) for head, line in zip(said[1::3], said[2::3]))
print(f"film: {os.path.getsize(film):,} bytes, {seconds:.1f} seconds of sound")
commands = {"dump": [player, "dump", constants, film], "oggdec": ["oggdec", "-Q", "-R", "-o", "-", film],
            "info": [player, "info", film]}
for other in sys.argv[4:]:
    commands["dump for x86-64-v3"] = [other, "dump", constants, film]
medians, most = in_turns(commands)
for name in commands:
    if name.startswith("dump"):
        print(f"{name}: {seconds / medians[name]:.0f} times as fast as it sounds, {medians[name] / medians['oggdec']:.2f} times "
              f"the time of oggdec; {most[name] - most['info']:.1f} MiB more than info")
PYTHON
