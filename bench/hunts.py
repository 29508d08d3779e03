#!/usr/bin/env python3
"""Prints how many seeds a second of its processor a hunt looks at, by one worker, over each example that has an output `alarm`, and over the token in
bench/loads, up to tick 400: of so many seeds that they take more than half a second. It counts the seeds that have the alarm, so that it looks at all of
them. Two runs on a busy machine differ by some tenths.

usage: hunts.py PROGRAM"""
import re, resource, subprocess, sys
from pathlib import Path

EXAMPLES = Path(__file__).resolve().parent.parent / "examples"
LEAST = 0.6


def spent():
    """Returns the seconds that processors have worked for commands so far."""
    used = resource.getrusage(resource.RUSAGE_CHILDREN)
    return used.ru_utime + used.ru_stime


def seconds(source, seeds):
    words = ["hunt", source.name, "alarm", "--ticks", "400", "--seeds", f"1..{seeds}", "--workers", "1", "--count"]
    start = spent()
    subprocess.run([program, *words], cwd=source.parent, stdin=subprocess.DEVNULL, stdout=subprocess.DEVNULL, check=True)
    return spent() - start


def print_speed(source):
    seeds, took = 1, seconds(source, 1)
    while took < LEAST:
        seeds *= max(2, min(32, int(1.2 * LEAST / took)))
        took = seconds(source, seeds)
    print(f"{source.stem}: {seeds / took:,.1f} seeds a second of a processor ({seeds} seeds)", flush=True)


program = Path(sys.argv[1]).resolve()
for source in [*sorted(EXAMPLES.glob("*.ioa")), EXAMPLES.parent / "bench" / "loads" / "token.ioa"]:
    if re.search(r"^\s*output alarm\b", source.read_text(), re.M):
        print_speed(source)
