#!/usr/bin/env bash
# Times `info` on a chain of 4,096 small links, and on the films of 2^28 bytes in which no page begins.
#
#     tools/bench_links.sh
#
# Prints the best of three runs of each, in milliseconds. It fails where a run does not answer as it must: the chain is told,
# and the others are refused for having no link.
# PLAYER is the program (default: the one that `player` at the repository's root runs).
# Writes only below a folder of its own in the place for temporary files, and removes it.
set -euo pipefail

source "$(dirname "$(readlink -f "${BASH_SOURCE[0]}")")/common.sh"
need python3
player=$(program)
temporary_folder

PYTHONDONTWRITEBYTECODE=1 PYTHONPATH=$root/tools python3 - "$work" <<'PY'
import sys
import films

work = sys.argv[1]
with open(f"{work}/links", "wb") as film:
    film.write(films.F * 4096)
with open(f"{work}/zeros", "wb") as film:
    film.write(bytes(2**28))
with open(f"{work}/capture_bytes", "wb") as film:
    film.write(b"OggS" * 2**26)
PY

# best FILM STATUS: the best time of three runs, each of which must end with this status
best() {
    local best='' begin took status
    for _ in 1 2 3; do
        begin=$(date +%s%N)
        status=0
        "$player" info "$work/$1" >"$work/output" 2>"$work/notes" || status=$?
        took=$((($(date +%s%N) - begin) / 1000000))
        [ "$status" = "$2" ] || {
            echo "$1: status $status in place of $2: $(head -n 1 "$work/notes")" >&2
            exit 1
        }
        if [ -z "$best" ] || [ "$took" -lt "$best" ]; then best=$took; fi
    done
    echo "$1: $best ms"
}

best links 0
best zeros 5
best capture_bytes 5
