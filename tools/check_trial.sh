#!/usr/bin/env bash
# Compares what `trial` says of some numbers with what `info` and `play` say of the same constants, films and scripts, which
# tools/made_inputs.py makes: it shares nothing with the crates.
#
#     tools/check_trial.sh [--small]
#
# A number passes where `trial` writes, with two sets of counts, the links, blocks, frames and gaps that `info` tells of the
# film, and the length and the sum of the report that `play` writes, as Python counts them. Each audio packet of a made film
# is a block. The film passes where `dump` writes as many bytes as its frames have, where oggz-validate says nothing, and
# where ogginfo finds the three links and warns of nothing but the page that is missing in the second: that sequence numbers
# have a gap, and that there is a discontinuity, for which its status is 1. The cut at the end it does not mention. With
# --small there is one number.
#
# PLAYER is the program (default: the one that `player` at the repository's root runs). Without python3 it says so, compares
# nothing, and its status is 0; where oggz-validate or ogginfo is missing the films are not shown to it, and it says so. Else
# the last line is 'N passed, N failed', and the status is 1 where something failed. Writes only below a folder of its own in
# the place for temporary files, and removes it.
set -euo pipefail

source "$(dirname "$(readlink -f "${BASH_SOURCE[0]}")")/checks.sh"
numbers=(7 0 18446744073709551615)
if is_small "$@"; then numbers=(7); fi
skip_without python3
player=$(program)

# run NAME WORD..: runs the program, and says where its status is not 0; what it writes is the file of this name
run() {
    local status=0
    "$player" "${@:2}" >"$work/$1" 2>"$work/notes" || status=$?
    [ "$status" = 0 ] || {
        fail "$1 of $number: status $status, $(head -c 200 "$work/notes")"
        return 1
    }
}

# told: the first line that is wanted, by what `info` wrote
told() {
    awk '$1 == "link" { links++; blocks += $8 - 3 }
        $1 == "line" { gaps += $6 }
        $1 == "total" { frames = $2 }
        END { print "links", links, "blocks", blocks, "frames", frames, "gaps", gaps }' "$work/info"
}

# samples: how many bytes a dump has, by what `info` wrote
samples() {
    awk '$1 == "head" { width[$2] = 2 * $4 } $1 == "line" { bytes += $4 * width[$2] } END { print bytes }' "$work/info"
}

# plays COUNTS..: `trial` writes what is wanted, and `play` the same report, with these counts
plays() {
    run play play "$work/constants" "$work/film.ogg" "$work/script" "$@" || return 0
    run trial trial "$number" "$@" || return 0
    { told && python3 -B "$root/tools/made_inputs.py" sum "$work/play"; } >"$work/wanted"
    if cmp -s "$work/wanted" "$work/trial"; then
        echo "$number with $*: $(tr '\n' ' ' <"$work/trial")"
        pass
    else
        fail "trial $number $*: $(cat "$work/trial") in place of $(cat "$work/wanted")"
    fi
}

dumps() {
    run dump dump "$work/constants" "$work/film.ogg" || return 0
    if [ "$(stat -c %s "$work/dump")" = "$(samples)" ]; then pass; else fail "$number: dump writes another number of bytes"; fi
}

validates() {
    if oggz-validate "$work/film.ogg" >"$work/said" 2>&1 && ! [ -s "$work/said" ]; then
        pass
    else
        fail "$number: oggz-validate says $(head -c 200 "$work/said")"
    fi
}

# what ogginfo may warn of
ALLOWED='sequence number gap in stream 2\. Got page 22 when expecting page 21\.|discontinuity in stream \(2\)'

informs() {
    ogginfo "$work/film.ogg" >"$work/said" 2>&1 || true
    if [ "$(grep -c '^Logical stream . ended$' "$work/said")" = 3 ] &&
        [ "$(grep -cE "^WARNING: ($ALLOWED)" "$work/said")" = 2 ] && [ "$(grep -cE '^(WARNING|ERROR)' "$work/said")" = 2 ]; then
        pass
    else
        fail "$number: ogginfo says $(grep -E '^(WARNING|ERROR)' "$work/said" | head -c 300)"
    fi
}

for number in "${numbers[@]}"; do
    python3 -B "$root/tools/made_inputs.py" "$number" "$work"
    run info info "$work/film.ogg" || continue
    plays 3 16 2
    plays 0 1 1
    dumps
    if [ -z "$(missing oggz-validate)" ]; then validates; else echo "oggz-validate is missing"; fi
    if [ -z "$(missing ogginfo)" ]; then informs; else echo "ogginfo is missing"; fi
done

tell_results
