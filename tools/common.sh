# shellcheck shell=bash
# For the tools, which source it: `root`, the repository's folder, and what several of them do.

unset CDPATH
export root
root=$(cd -P -- "$(dirname "$(readlink -f "${BASH_SOURCE[0]}")")/.." && pwd)

# missing PROGRAM..: the first of these programs that is not there, if one is missing
missing() {
    local program
    for program; do
        command -v "$program" >/dev/null || {
            echo "$program"
            return
        }
    done
}

# need PROGRAM..: ends a tool that measures, where one of these is missing
need() {
    local program
    program=$(missing "$@")
    [ -z "$program" ] || {
        echo "nothing was timed: $program is missing; tools/install.sh installs what the tools use" >&2
        exit 1
    }
}

# program: the path of the program to try: PLAYER where it is set, else the one that `player` runs
program() {
    if [ -n "${PLAYER:-}" ]; then
        readlink -f "$PLAYER"
    else
        "$root/tools/program.sh"
    fi
}

# temporary_folder: makes a folder for what a tool writes, `work`, which goes with the tool
temporary_folder() {
    work=$(mktemp -d)
    trap 'rm -rf "$work"' EXIT
}

# noise_film FILE SERIAL CHANNELS RATE SECONDS QUALITY: makes a film of noise, the same each time
noise_film() {
    sox -R -n -r "$4" -c "$3" -b 16 -e signed-integer -t raw - synth "$5" pinknoise vol 0.5 |
        oggenc -Q -r -B 16 -C "$3" -R "$4" -q "$6" -s "$2" -o "$1" -
}

# sum_of FILE: its SHA-256
sum_of() {
    sha256sum <"$1" 2>/dev/null | cut -d' ' -f1
}

# told WORD: what dist/PROVED says after a word
told() {
    sed -n "s/^$1 //p" "$root/dist/PROVED" 2>/dev/null || true
}

# large_pages: programs that are started from here on take memory in large pages, where the system has them. Then an hour's
# film takes a hundredth of the page faults. All of it comes from one heap, since what is mapped apart begins and ends amid a
# large page. What the user asks of the C library stands behind this, and so counts.
large_pages() {
    export GLIBC_TUNABLES=glibc.malloc.hugetlb=1:glibc.malloc.mmap_threshold=4294967296${GLIBC_TUNABLES:+:$GLIBC_TUNABLES}
}
