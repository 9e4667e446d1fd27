#!/usr/bin/env bash
# Prints the crates with the names given and all crates of the repository below them, as crates.txt says, one a line.
set -euo pipefail
source "$(dirname "$(readlink -f "${BASH_SOURCE[0]}")")/common.sh"
cd "$root"
awk -F: -v names="$*" '
    { sub(/#.*/, "") }
    NF > 1 { split($1, name, " "); uses[name[1]] = $2 }

    # what is wanted goes to the end of the list, once
    function want(crate) {
        if (crate in wanted) return
        wanted[crate]
        list[++count] = crate
    }

    END {
        words = split(names, given, " ")
        for (word = 1; word <= words; word++) {
            if (!(given[word] in uses)) { print given[word] " is not in crates.txt" > "/dev/stderr"; exit 1 }
            want(given[word])
        }
        for (place = 1; place <= count; place++) {
            print list[place]
            words = split(uses[list[place]], below, " ")
            for (word = 1; word <= words; word++) if (below[word] in uses) want(below[word])
        }
    }' crates.txt
