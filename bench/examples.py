#!/usr/bin/env python3
"""Prints how many instructions a turn of each source in examples/ takes under `reference`, by callgrind, and the geometric mean: the whole command with
200 ticks, text and all, less the same command with --ticks 0. Turns are drawn with seed 1, idle ones count. Then the same of the token in bench/loads, also
with requests from 0 to 99.

usage: examples.py PROGRAM [FOLDER]      (the sources of the folder too)"""
import os, statistics, sys, tempfile
from concurrent.futures import ThreadPoolExecutor
from pathlib import Path

from callgrind import count
from generated import LOADS, token_of_100

TICKS = "200"


def a_turn(source):
    """Returns the instructions of a turn, and how many turns there are."""
    words = ["reference", source.name, "--ticks"]
    start, _ = count(program, source.parent, [*words, "0"])
    whole, turns = count(program, source.parent, [*words, TICKS])
    return (whole - start) / turns, turns


def print_costs(sources):
    """Prints what a turn of each costs, and returns that."""
    costs = []
    with ThreadPoolExecutor(os.cpu_count()) as pool:
        for source, (cost, turns) in zip(sources, pool.map(a_turn, sources)):
            costs.append(cost)
            print(f"{source.stem}: {cost:,.0f} instructions a turn ({turns} turns)", flush=True)
    return costs


program = Path(sys.argv[1]).resolve()
costs = print_costs(sorted((Path(__file__).resolve().parent.parent / "examples").glob("*.ioa")))
print(f"geometric mean of {len(costs)}: {statistics.geometric_mean(costs):,.0f} instructions a turn", flush=True)
with tempfile.TemporaryDirectory() as folder:
    wide = Path(folder) / "token100.ioa"
    wide.write_text(token_of_100())
    print_costs([LOADS / "token.ioa", wide, *(source for it in sys.argv[2:3] for source in sorted(Path(it).resolve().glob("*.ioa")))])
