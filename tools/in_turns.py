"""Times programs that take turns, for the tools that measure. It needs the program `/usr/bin/time`, which tells the memory:
what Python tells of a program that it began counts its own memory too."""
import os
import statistics
import subprocess
import sys
import tempfile
import time


def run(words):
    """Seconds, seconds of a processor, and the most memory in MiB of one run, whose output goes nowhere. The tool ends where
    the run's status is not 0."""
    with tempfile.NamedTemporaryFile('r') as told:
        start = time.perf_counter()
        ended = subprocess.run(['/usr/bin/time', '-f', '%U %S %M', '-o', told.name, *words], check=False,
                               stdout=subprocess.DEVNULL, stderr=subprocess.DEVNULL)
        seconds = time.perf_counter() - start
        if ended.returncode != 0:
            sys.exit(f'{words[0]} ended with status {ended.returncode}: nothing is told of it')
        user, system, memory = told.read().split()
        return seconds, float(user) + float(system), int(memory) / 1024


def in_turns(commands, rounds=5):
    """Runs each of the commands, lists of words by their names, once, and then so often in turns with the others. Prints of
    each the median of its times, all of them or of many the least and the most, the median of a processor's, which tells
    more where others run beside, and the most memory. Gives the medians in seconds, and the memory in MiB."""
    for words in commands.values():
        run(words)
    runs = {name: [] for name in commands}
    for _ in range(rounds):
        for name, words in commands.items():
            runs[name].append(run(words))
    medians, most = {}, {}
    for name, found in runs.items():
        times, processor, memory = zip(*found)
        medians[name], most[name] = statistics.median(times), max(memory)
        if rounds < 20:
            each = ' '.join(f'{1000 * seconds:.1f}' for seconds in times)
        else:
            each = f'{rounds} runs, {1000 * min(times):.1f} to {1000 * max(times):.1f}'
        print(f'{name}: median {1000 * medians[name]:.1f} ms of {each}; of a processor {statistics.median(processor):.2f} s; '
              f'at most {most[name]:.1f} MiB')
    return medians, most
