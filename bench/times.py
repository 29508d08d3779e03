#!/usr/bin/env python3
"""Prints how many turns a second the program takes on the loads in bench/loads and on others, on the token and on three examples, text to /dev/null: by
`reference`, and the speed of `run` by 1, 2 and 4 workers beside it. Each is the median of nine runs, which take turns; only a quiet machine with four processors tells
something. The runs take half a second and more, so that there is a trial of how many groups are fastest.

usage: times.py PROGRAM"""
import statistics, subprocess, sys, tempfile, time
from pathlib import Path

from generated import loads

LOADS = [("ring8", 2000000), ("ring64", 300000), ("compute64", 10000), ("phold64", 150000), ("phold64near", 150000), ("phold64w", 50000), ("phold1024", 8000),
         ("token", 800000)]
EXAMPLES = [("paxos", 400000), ("ricart-agrawala", 400000), ("bakery", 400000)]
CREWS = [1, 2, 4]


def seconds(folder, words):
    start = time.perf_counter()
    subprocess.run(words, cwd=folder, stdin=subprocess.DEVNULL, stdout=subprocess.DEVNULL, check=True)
    return time.perf_counter() - start


def print_times(folder, load, ticks):
    words = [f"{load}.ioa", "--ticks", str(ticks)]
    commands = {0: [program, "reference", *words], **{it: [program, "run", *words, "--workers", str(it)] for it in CREWS}}
    turns = subprocess.run(commands[0], cwd=folder, capture_output=True, check=True).stdout.count(b"\n")
    rounds = [{it: seconds(folder, command) for it, command in commands.items()} for _ in range(9)]
    took = {it: statistics.median(found[it] for found in rounds) for it in commands}
    beside = ", ".join(f"{took[0] / took[it]:.2f}" for it in CREWS)
    print(f"{load}: {turns} turns, {turns / took[0]:,.0f} a second by one thread; {beside} of its speed by 1, 2 and 4 workers", flush=True)


program = Path(sys.argv[1]).resolve()
with tempfile.TemporaryDirectory() as folder:
    for name, text in loads().items():
        (Path(folder) / f"{name}.ioa").write_text(text)
    for name, _ in EXAMPLES:
        (Path(folder) / f"{name}.ioa").write_text((Path(__file__).resolve().parent.parent / "examples" / f"{name}.ioa").read_text())
    for load, ticks in [*LOADS, *EXAMPLES]:
        print_times(folder, load, ticks)
