#!/usr/bin/env bash
# Compares the floors and residues of tools/reference.py with oggdec's on real films: decodes the first packets of each
# by tools/decode.py and by oggdec, and fails where a sample differs by more than the rounding. The films are made by
# sox and oggenc. Where a program that it needs is missing it says so, compares nothing, and its status is 0; else the last
# line is 'N passed, N failed'.
# Writes only below a folder of its own in the place for temporary files, and removes it.
set -euo pipefail

source "$(dirname "$(readlink -f "${BASH_SOURCE[0]}")")/checks.sh"
skip_without sox oggenc oggdec python3

# compare CHANNELS RATE QUALITY PACKETS
compare() {
    sox -R -n -r "$2" -c "$1" -b 16 "$work/sound.wav" synth 0.7 pinknoise synth 0.7 sine mix 300-3000 vol 0.5
    oggenc -Q -q "$3" -s 1 -o "$work/film.ogg" "$work/sound.wav"
    oggdec -Q -R -b 16 -o "$work/film.raw" "$work/film.ogg"
    if python3 -B "$root/tools/decode.py" "$work/film.ogg" "$4" >"$work/frames" && python3 - "$1" "$work/frames" "$work/film.raw" <<'PYTHON'
import struct, sys
channels = int(sys.argv[1])
frames = [float(word) for line in open(sys.argv[2]) for word in line.split()]
data = open(sys.argv[3], 'rb').read()
samples = struct.unpack('<%dh' % (len(data) // 2), data)
assert len(frames) > 1000 * channels
worst = max(abs(max(-32768, min(32767, a)) - b) for a, b in zip(frames, samples))
print(f'{len(frames) // channels} frames, worst difference {worst:.3f}')
sys.exit(worst > 0.6)
PYTHON
    then
        pass
    else
        fail "$1 channels, rate $2, quality $3"
    fi
}

compare 1 8000 1 10
compare 2 44100 4 12
compare 2 22050 -1 12
compare 6 48000 5 6
tell_results
