#!/usr/bin/env python3
"""Runs the gate, and then prints the processor time that each crate took: its proof, its tests and its must-fail edits.

    tools/gate_times.py [COMMAND..]

COMMAND is `rt ci` where none is given, and its status is this program's. Only what was done in the run costs time: what
`rt ci` kept of earlier runs shows as nothing, and `rt ci --anew` does all of it. The times are looked up in /proc four
times a second, so that of each check up to a quarter of a second is missing; what is missing, and what the tests and
programs took when they ran, stands in the last row but one."""
import os
import re
import resource
import subprocess
import sys
import time

PAUSE = 0.25
TICKS = os.sysconf("SC_CLK_TCK")
KINDS = ("proof", "tests", "edits")
CRATE = re.compile(rb"--crate-name\0(\w+)\0")


def processes():
    """The parent and the seconds of each process, its own and those of its children that ended."""
    found = {}
    for name in os.listdir("/proc"):
        if not name.isdigit():
            continue
        try:
            with open(f"/proc/{name}/stat", "rb") as stat:
                fields = stat.read().rpartition(b")")[2].split()
        except OSError:
            continue
        seconds = sum(int(field) for field in fields[11:15]) / TICKS
        found[int(name)] = int(fields[1]), seconds, fields[19]
    return found


def job(process):
    """What a process works on: a crate and the kind of its work, or None."""
    try:
        with open(f"/proc/{process}/cmdline", "rb") as line:
            words = line.read()
        place = os.readlink(f"/proc/{process}/cwd")
    except OSError:
        return None
    found = CRATE.search(words)
    if not found:
        return None
    kind = "edits" if "/rt-edit-" in place else "tests" if b"\0--test\0" in words else "proof"
    return found.group(1).decode(), kind


def look(top, jobs):
    """Notes the seconds of each job below a process, by the highest process that works on it."""
    found = processes()
    below = {}
    for process, (parent, _, _) in found.items():
        below.setdefault(parent, []).append(process)

    def total(process):
        return found[process][1] + sum(total(child) for child in below.get(process, ()))

    def visit(process):
        what = job(process)
        if what is None:
            for child in below.get(process, ()):
                visit(child)
            return
        key = process, found[process][2], what
        jobs[key] = max(jobs.get(key, 0), total(process))

    for child in below.get(top, ()):
        visit(child)


def table(jobs, whole, wall):
    sums = {}
    for (_, _, (crate, kind)), seconds in jobs.items():
        row = sums.setdefault(crate, dict.fromkeys(KINDS, 0))
        row[kind] += seconds
    rows = [(crate, *(sums[crate][kind] for kind in KINDS)) for crate in sorted(sums)]
    rows.append(("all crates", *(sum(row[at] for row in rows) for at in (1, 2, 3))))
    print("\n| crate | proof | tests | edits | together |\n|---|---|---|---|---|")
    for crate, *seconds in rows:
        cells = " | ".join(f"{each:.0f} s" for each in (*seconds, sum(seconds)))
        print(f"| {crate} | {cells} |")
    print(f"| the rest | | | | {whole - sum(rows[-1][1:]):.0f} s |")
    print(f"| the whole run: {whole / 60:.1f} processor minutes in {wall / 60:.1f} minutes | | | | {whole:.0f} s |", flush=True)


def main(words):
    begin = time.monotonic()
    jobs = {}
    child = subprocess.Popen(words or ["rt", "ci"])
    while child.poll() is None:
        look(child.pid, jobs)
        time.sleep(PAUSE)
    used = resource.getrusage(resource.RUSAGE_CHILDREN)
    table(jobs, used.ru_utime + used.ru_stime, time.monotonic() - begin)
    return child.returncode if child.returncode >= 0 else 1


if __name__ == "__main__":
    sys.exit(main(sys.argv[1:]))
