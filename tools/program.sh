#!/usr/bin/env bash
# Prints the path of the program that runs here, for `player` and the tools.
#
# That is the one in dist/ where dist/PROVED tells of these very bytes and of these very sources, and the machine can run
# it. Else, or where REBLUTOM_BUILD is set, it is the one that `rt` proves and builds from these sources, as far as that is
# not done yet. What this says goes to standard error. Where there is no program the status is 125.
set -u
source "$(dirname "$(readlink -f "${BASH_SOURCE[0]}")")/common.sh" || exit 125
released=$root/dist/player-x86_64-linux
crate=$root/crates/player_cli
built=$crate/out/player_cli
# what the program in out/ was built from, and its own sum
built_from=$crate/out/player_cli.from

say() {
    echo "player: $*" >&2
}

fail() {
    say "$@"
    exit 125
}

# why the program in dist/ is not to be run, if there is a reason
objection() {
    if [ -n "${REBLUTOM_BUILD:-}" ]; then
        echo "REBLUTOM_BUILD is set"
    elif [ "$(uname -s) $(uname -m)" != "Linux x86_64" ]; then
        echo "the program in dist/ is for Linux on x86-64"
    elif [ ! -x "$released" ] || [ ! -f "$root/dist/PROVED" ]; then
        echo "dist/ has no program, or not what it was proved from"
    elif [ "$(sum_of "$released")" != "$(told program)" ]; then
        echo "the program in dist/ is not the one that dist/PROVED tells of"
    elif [ "$sources" != "$(told sources)" ]; then
        echo "the sources are not those that the program in dist/ was built from"
    elif [ ! -e /lib64/ld-linux-x86-64.so.2 ]; then
        echo "this system has no /lib64/ld-linux-x86-64.so.2, which starts the program in dist/"
    fi
}

is_built() {
    [ -x "$built" ] && [ -f "$built_from" ] && [ "$(cat "$built_from")" = "$sources $(sum_of "$built")" ]
}

build() {
    local log=$crate/out/build.log status=0
    command -v rt >/dev/null || fail "and rt is not on the path, which would prove and build it: there is no program to run"
    say "proving and building it by rt, which takes many minutes where nothing is proved yet"
    if ! mkdir -p "$crate/out" || ! rm -f "$built_from"; then fail "$crate/out cannot be written"; fi
    (cd "$crate" && exec rt run -- info data/film.ogg) >"$log" 2>&1 </dev/null || status=$?
    if [ "$status" != 0 ]; then
        grep -E 'error[:[]|NOT PROVED|no proof|^rt: ' "$log" | grep -v '^rt: chose' | cut -c1-300 | tail -n 20 >&2
        fail "nothing was built: rt ended with status $status, and all that it said is in $log"
    fi
    [ "$("$root/tools/source_sum.sh")" = "$sources" ] || fail "the sources changed while they were proved: run this again"
    echo "$sources $(sum_of "$built")" >"$built_from"
}

sources=$("$root/tools/source_sum.sh") || fail "the sources cannot be read"
why=$(objection)
if [ -z "$why" ]; then
    echo "$released"
    exit
fi
say "$why"
is_built || build
echo "$built"
