#!/usr/bin/env bash
# Prints one SHA-256 over what the program is built from: crates.txt, HANDLES, and the files in src/, specs/ and proofs/ of
# player_cli and of every crate below it. A file's name counts, its times do not.
set -euo pipefail
export LC_ALL=C
source "$(dirname "$(readlink -f "${BASH_SOURCE[0]}")")/common.sh"
cd "$root"

places=(crates.txt HANDLES)
crates=$(tools/crates_below.sh player_cli)
for crate in $crates; do
    for part in src specs proofs; do
        if [ -d "crates/$crate/$part" ]; then places+=("crates/$crate/$part"); fi
    done
done
find "${places[@]}" -type f -print0 | sort -z | xargs -0 sha256sum | sha256sum | cut -d' ' -f1
