#!/usr/bin/env bash
# Times `info` on films of 16 MB that are made to cost as much as they can (tools/hostile_films.py).
#
#     tools/bench_hostile.sh
#
# Prints a table: for each film the fastest of three runs, in milliseconds and in nanoseconds a byte, and what `info` says of
# it. A film that is refused says nothing on the output, and its line is taken from the notes. It fails where a run does not
# end as it must, or where a film takes more than 50 ns a byte.
# PLAYER is the program (default: the one that `player` at the repository's root runs).
# Writes only below a folder of its own in the place for temporary files, and removes it.
set -euo pipefail

source "$(dirname "$(readlink -f "${BASH_SOURCE[0]}")")/common.sh"
need python3
player=$(program)
work=$(mktemp -d)
trap 'rm -rf "$work"' EXIT

mkdir "$work/films"
PYTHONDONTWRITEBYTECODE=1 python3 "$root/tools/hostile_films.py" "$work/films" >"$work/list"

python3 - "$player" "$work" <<'PYTHON'
import os
import subprocess
import sys

MOST = 50
player, work = sys.argv[1:]


def run(film, status):
    """The processor's seconds of one run, and the last line of what it says."""
    with open(f"{work}/out", "wb+") as out, open(f"{work}/notes", "wb+") as notes:
        child = subprocess.Popen([player, "info", film], stdout=out, stderr=notes)
        _, ended, used = os.wait4(child.pid, 0)
        ended = os.waitstatus_to_exitcode(ended)
        out.seek(0)
        notes.seek(0)
        lines = (out.read() + notes.read()).decode(errors="replace").splitlines()
    if ended != status:
        sys.exit(f"{film}: status {ended} in place of {status}: {lines[:1]}")
    return used.ru_utime + used.ru_stime, lines[0] if lines else ""


worst = 0
print("| film | ms | ns a byte | info says |\n|---|---|---|---|")
for line in open(f"{work}/list"):
    status, name = line.rstrip("\n").split(" ", 1)
    film = f"{work}/films/{name}"
    runs = [run(film, int(status)) for _ in range(3)]
    seconds = min(seconds for seconds, _ in runs)
    each = 1e9 * seconds / os.path.getsize(film)
    worst = max(worst, each)
    print(f"| {name} | {1e3 * seconds:.0f} | {each:.1f} | {runs[0][1]} |", flush=True)
if worst > MOST:
    sys.exit(f"{worst:.1f} ns a byte is more than {MOST}")
PYTHON
