#!/usr/bin/env bash
# Times `info` of the proved program and `ogginfo` on one film: an hour of stereo sound at 44,100 Hz.
#
#     tools/bench_info.sh
#
# Prints the median of 101 runs of each, which take turns, their ratio, and the most memory that a run took. Both run as
# `player` runs the program, with large pages. It fails where a run does not end with status 0.
# ROUNDS is how many runs to take in place of 101: the ratio of five is anything from 1.28 to 1.89 within minutes.
# PLAYER is the program (default: the one that `player` at the repository's root runs).
# FILM is a film to take in place of the one that is made.
# Writes only below a folder of its own in the place for temporary files, and removes it.
set -euo pipefail

source "$(dirname "$(readlink -f "${BASH_SOURCE[0]}")")/common.sh"
need oggenc ogginfo sox python3
player=$(program)

temporary_folder

film=${FILM:-}
if [ -z "$film" ]; then
    film=$work/hour.ogg
    echo "making an hour of sound, which takes a minute or two" >&2
    noise_film "$film" 1 2 44100 3600 0
fi

large_pages
PYTHONPATH=$root/tools python3 -B - "$player" "$film" "${ROUNDS:-101}" <<'PYTHON'
import os
import sys

from in_turns import in_turns

player, film, rounds = sys.argv[1:]
print(f"film: {os.path.getsize(film):,} bytes")
medians, _ = in_turns({"info": [player, "info", film], "ogginfo": ["ogginfo", film]}, int(rounds))
print(f"info / ogginfo: {medians['info'] / medians['ogginfo']:.2f}")
PYTHON
