#!/usr/bin/env python3
"""Times a program on the files of a folder, and prints a line for each file and way.

    bench/time.py PROGRAM FOLDER SUFFIX [WAY..] [--beside COMMAND] [--times N]
    bench/time.py out/sval_relay_cli /tmp/scripts .script direct
    bench/time.py out/sval_json_read_cli /tmp/documents .json json --beside "yardsticks json json" --times 21

A way is the words for the program, parted by spaces where they are several. Times are processor times, the least of ten
runs or of N. The ratio is to the command over the same file, in turn with the program. Without one it is to `tr`, which
turns each byte into another one. The peak is that of the program alone: it is begun by `time` of the package of that
name, whose own memory is some 2 MB, so a peak below that isn't told.
"""

import os
import pathlib
import shlex
import subprocess
import sys
import tempfile

TIMES = 10
TR = ["tr", "0-9a-f", "1-9a-g"]
BEGINNER = "/usr/bin/time"


def run_once(command, path):
    """Runs a command with the file as its input, and answers its processor seconds and its peak memory in MB."""
    with open(path, "rb") as given, tempfile.NamedTemporaryFile("r") as told:
        words = [BEGINNER, "-f", "%M", "-o", told.name, *command]
        child = subprocess.Popen(words, stdin=given, stdout=subprocess.DEVNULL, stderr=subprocess.DEVNULL)
        _, status, usage = os.wait4(child.pid, 0)
        peak = told.read().split()[-1]
    child.returncode = os.waitstatus_to_exitcode(status)
    if child.returncode != 0:
        sys.exit(f"{' '.join(command)} < {path}: status {child.returncode}")
    return usage.ru_utime + usage.ru_stime, int(peak) * 1024 / 1e6


def best(commands, path, times):
    """The best time of each command, and its greatest peak memory, over rounds in which each runs once."""
    rounds = [[run_once(command, path) for command in commands] for _ in range(times)]
    return [(min(seconds for seconds, _ in runs), max(memory for _, memory in runs)) for runs in zip(*rounds)]


def taken_out(words, name, otherwise):
    """What stands behind an option, which is taken out of the words with it."""
    if name not in words[:-1]:
        return otherwise
    at = words.index(name)
    value = words[at + 1]
    del words[at : at + 2]
    return value


def main():
    words = sys.argv[1:]
    beside = shlex.split(taken_out(words, "--beside", "")) or TR
    times = int(taken_out(words, "--times", TIMES))
    if len(words) < 3:
        sys.exit(__doc__)
    if not os.path.exists(BEGINNER):
        sys.exit(f"{BEGINNER} isn't there: install the package time")
    program, folder, suffix, *ways = words
    program = os.path.abspath(program)
    print(f"{'file':20}{'way':12}{'bytes':>10}{'ms':>9}{'MB/s':>8}{'peak MB':>9}{'ratio':>8}")
    for path in sorted(pathlib.Path(folder).glob(f"*{suffix}")):
        size = path.stat().st_size
        for way in ways or ["direct"]:
            (other, _), (seconds, memory) = best([beside, [program, *way.split()]], path, times)
            rate = size / seconds / 1e6
            print(f"{path.stem:20}{way:12}{size:10}{seconds * 1e3:9.1f}{rate:8.0f}{memory:9.1f}{seconds / other:8.2f}")


main()
