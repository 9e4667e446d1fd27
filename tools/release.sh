#!/usr/bin/env bash
# Makes dist/ anew from what a run of the gate built: the program, and dist/PROVED, which tells of it.
#
#     tools/release.sh [LOG]            writes dist/
#     tools/release.sh --check [LOG]    writes nothing, and compares: its status is 1 where dist/ is not what it would write
#
# LOG is what `rt ci` wrote (default: out/gate.log, where .ci/run keeps it). It must have passed, on these very sources.
# dist/PROVED has four lines, each of a word and what it says: `program`, the SHA-256 of the program; `sources`, what
# tools/source_sum.sh prints; `kit`, what `rt version` prints; `verdict`, the line in which the prover judges player_cli.
# Where `rt ci` took that verdict from an earlier run it does not print the line again. Then that of dist/PROVED stays, if
# sources and program are the same, and else `rt check` gives one, which tells by its own words what it took from before.
set -euo pipefail
source "$(dirname "$(readlink -f "${BASH_SOURCE[0]}")")/common.sh"
cd "$root"
checks=
if [ "${1:-}" = --check ]; then
    checks=1
    shift
fi
log=${1:-out/gate.log}
built=crates/player_cli/out/player_cli

fail() {
    echo "dist: $*" >&2
    exit 1
}

verdict() {
    local line
    line=$(awk '/^== / { inside = $0 == "== player_cli" } inside && /^logic=proved / { print }' "$log" | tail -n 1)
    if [ -z "$line" ] && [ "$(told program)" = "$program" ] && [ "$(told sources)" = "$sources" ]; then
        line=$(told verdict)
    fi
    if [ -z "$line" ] && [ -z "$checks" ]; then
        line=$(cd crates/player_cli && rt check | grep '^logic=proved ' | tail -n 1) || line=
    fi
    echo "$line"
}

# words such as incremental=trusted tell how a check was made, and differ between runs that judge the same
without_trust() {
    sed '/^verdict /s/ [a-z-]*=trusted//g'
}

[ -f "$log" ] || fail "there is no $log: run .ci/run first"
grep -Eq '^[0-9]+ passed, 0 failed$' "$log" || fail "$log does not end with 0 failed: only what passed the gate goes into dist/"
[ -x "$built" ] || fail "there is no $built: run .ci/run first"
newer=$(find crates.txt HANDLES crates/*/src crates/*/specs crates/*/proofs -newer "$built" -type f -print -quit)
[ -z "$newer" ] || fail "$newer is newer than $built: run .ci/run first"

program=$(sum_of "$built")
sources=$(tools/source_sum.sh)
verdict=$(verdict)
[ -n "$verdict" ] || [ -n "$checks" ] || fail "the prover's verdict on player_cli is neither in $log nor given by rt check"
proved="program $program
sources $sources
kit $(rt version)
verdict $verdict"

if [ -n "$checks" ]; then
    cmp "$built" dist/player-x86_64-linux || fail "dist/player-x86_64-linux is not the program that was built from these sources: run tools/release.sh"
    [ -x dist/player-x86_64-linux ] || fail "dist/player-x86_64-linux cannot be executed"
    diff <(echo "$proved" | without_trust) <(without_trust <dist/PROVED) || fail "dist/PROVED does not tell of these sources, this program and this kit: run tools/release.sh"
    echo "dist: the program in dist/ is, byte for byte, the one that was proved and built just now"
else
    mkdir -p dist
    install -m 755 "$built" dist/player-x86_64-linux
    echo "$proved" >dist/PROVED
    echo "dist: made anew; commit dist/ together with the sources"
fi
