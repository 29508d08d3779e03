#!/usr/bin/env python3
"""Prints how many instructions the program takes, by callgrind: the same on any machine, however busy.

usage: instructions.py PROGRAM [WORD ..]      (with words only what has one of them in its line)

First a turn on the loads: the whole command, text and all, less the same command with --ticks 0. The loads: a token ring of 8, whose turns are
mostly idle; PHOLD, 64 components with a job each that goes to one of three others; the same with 64 additions at each arrival; 64 components that
add 256 numbers in each turn and send nothing; and the ring and PHOLD of 1,024. `run` is by one worker, and `check` is of what `reference` writes.

Then a byte of a source, a component, a step and a roll-back: two commands that differ in their number alone, the longer less the shorter. So a
step has its share in the reading of its line, and in the text of a turn that it commits."""
import subprocess, sys, tempfile
from pathlib import Path
from callgrind import count
from generated import in_order, loads, phold, ring, source, stragglers, there_and_back

LOADS = [("reference", "ring8", 20000, 1), ("reference", "phold64", 2000, 1), ("reference", "phold64w", 500, 1), ("reference", "compute64", 60, 256),
         ("run --workers 1", "ring8", 20000, 1), ("run --workers 1", "phold64", 1000, 1), ("run --workers 1", "phold64w", 500, 1),
         ("reference", "ring1024", 160, 1), ("reference", "phold1024", 125, 1), ("run --workers 1", "ring1024", 160, 1), ("run --workers 1", "phold1024", 125, 1)]
CHECKED = [("ring8", 20000), ("phold64", 2000), ("ring1024", 160), ("phold1024", 125)]
TICKS = ["--ticks", "40000"]


def is_asked_for(name):
    return len(sys.argv) < 3 or any(it in name for it in sys.argv[2:])


def print_turns(folder):
    for command, load, ticks, parts in LOADS:
        name = f"{command} {load}"
        if is_asked_for(name):
            first, *rest = command.split()
            words = [first, f"{load}.ioa", *rest, "--ticks"]
            start, _ = count(program, folder, [*words, "0"])
            all_of_it, turns = count(program, folder, [*words, str(ticks)])
            each = "an addition" if parts > 1 else "a turn"
            print(f"{name}: {(all_of_it - start) / turns / parts:.0f} instructions {each} ({turns} turns)", flush=True)


def written(folder, words):
    return subprocess.run([program, *words], cwd=folder, capture_output=True, check=True).stdout.decode()


def print_checks(folder):
    for load, ticks in CHECKED:
        if is_asked_for(f"check {load}"):
            text = written(folder, ["reference", f"{load}.ioa", "--ticks", str(ticks)])
            print_difference(folder, f"check {load}", "a line", ["check", f"{load}.ioa", "text"], ["", text], text.count("\n"))


def print_difference(folder, name, each, command, texts, more):
    """Prints what one of so many more takes: a command on the longer of two texts, less that on the shorter."""
    if is_asked_for(name):
        costs = []
        for text in texts:
            (folder / "text").write_text(text)
            costs.append(count(program, folder, command)[0])
        print(f"{name}: {(costs[1] - costs[0]) / more:.0f} instructions {each}", flush=True)


def print_steps(folder, name, each, lists, more):
    print_difference(folder, f"drive, {name}", each, ["drive", "ring.ioa", "text", *TICKS], ["\n".join(it) + "\n" for it in lists], more)


def print_parts(folder):
    print_difference(folder, "print, 65,536 bytes less 32,768", "a byte", ["print", "text"], [source(32768), source(65536)], 32768)
    for name, made, sizes in ("ring", ring, [2, 64, 1024]), ("PHOLD", phold, [4, 64, 1024]):
        for less, more in zip(sizes, sizes[1:]):
            texts = [made(less), made(more)]
            print_difference(folder, f"reference --ticks 0, {name} of {more} less {name} of {less}", "a component", ["reference", "text", "--ticks", "0"], texts, more - less)
    (folder / "ring.ioa").write_text(ring(2))
    turns = written(folder, ["reference", "ring.ioa", *TICKS]).splitlines()
    lists = [in_order(turns[:it]) for it in (1000, 10000)]
    print_steps(folder, "10,000 turns in order less 1,000", "a step", lists, len(lists[1]) - len(lists[0]))
    print_steps(folder, "an entry done and rolled back, 10,000 times less 1,000", "each time", [there_and_back(1000), there_and_back(10000)], 9000)
    for depth in 1, 64:
        lists = [stragglers(turns, depth, it) for it in (100, 1000)]
        print_steps(folder, f"a straggler that takes {depth} back, 1,000 times less 100", "each time", lists, 900)


program = Path(sys.argv[1]).resolve()
with tempfile.TemporaryDirectory() as folder:
    for name, text in loads().items():
        (Path(folder) / f"{name}.ioa").write_text(text)
    print_turns(Path(folder))
    print_checks(Path(folder))
    print_parts(Path(folder))
