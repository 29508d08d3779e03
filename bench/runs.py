#!/usr/bin/env python3
"""Compares `run` with `reference` byte by byte, so often: examples, token rings of 2 to 16, PHOLD and generated sources, turns of seeds, with gaps from 1
or from 0, or of tables with many turns in one tick, 1 to 64 workers at most or just 1 to 64 groups, budgets of 1 to 65,535, no window or one of 1 to 8 or 65,535
turns, all drawn together. Prints the command of each run that differs, or is still there after 20 seconds, and how many there are of both; its status is 1 if any is.
A source or table of such a command that isn't in the checkout is kept in the folder that is told.

usage: runs.py PROGRAM [TIMES [SEED]]"""
import os, random, shutil, subprocess, sys, tempfile
from concurrent.futures import ThreadPoolExecutor
from pathlib import Path

from generated import mesh, phold, ring

TOP = Path(__file__).parent.parent
PROGRAM = Path(sys.argv[1]).resolve()
TIMES = int(sys.argv[2]) if len(sys.argv) > 2 else 20000
CHANCE = random.Random(int(sys.argv[3]) if len(sys.argv) > 3 else 1)
SECONDS = 20


def up_to(most):
    """Returns a number from 1 to most, small ones and large ones equally often."""
    return min(most, int(most ** CHANCE.random()) + CHANCE.randrange(2))


def components(source):
    """Returns how many components a source has: with gaps of 1 each has a turn in the first tick."""
    words = [PROGRAM, "reference", source, "--seed", "1", "--gap", "1", "--ticks", "1"]
    return len(subprocess.run(words, stdin=subprocess.DEVNULL, capture_output=True, check=True).stdout.splitlines())


def table(count):
    """Returns rows of turns of so many components, most of them in the tick of the one before."""
    rows = [f"{CHANCE.randrange(count)} {CHANCE.choice([0, 0, 0, 0, 1, 2, 9])} 0 {CHANCE.randrange(2**32)}\n" for _ in range(up_to(400))]
    return "".join(rows)


def draw_turns(count, most_ticks, folder, number):
    """Returns the words for the turns of a source with so many components."""
    if CHANCE.randrange(4) == 0:
        file = folder / f"{number}.table"
        file.write_text(table(count))
        return ["--table", file, "--ticks", CHANCE.choice([1, 20, 2000])]
    seed = ["--seed", CHANCE.randrange(2**64), "--stream", CHANCE.randrange(4), "--ticks", up_to(most_ticks)]
    if CHANCE.randrange(2):
        return [*seed, "--from-zero", "--gap", CHANCE.choice([2, 3, 4, 8, 50])]
    return [*seed, "--gap", CHANCE.choice([1, 2, 3, 8, 50])]


def draw(sources, folder, number):
    source, count, most_ticks = CHANCE.choice(sources)
    window = CHANCE.choice([None, *range(1, 9), 1, 2, 65535])
    crew = [CHANCE.choice(["--workers", "--groups"]), up_to(64), "--budget", up_to(65535), *([] if window is None else ["--window", window])]
    return source, draw_turns(count, most_ticks, folder, number), crew


def fault_of(drawn):
    """Returns what is wrong with a run, or nothing."""
    source, turns, crew = drawn
    call = {"stdin": subprocess.DEVNULL, "capture_output": True}
    wanted = subprocess.run(list(map(str, [PROGRAM, "reference", source, *turns])), **call)
    command = list(map(str, [PROGRAM, "run", source, *turns, *crew]))
    try:
        got = subprocess.run(command, timeout=SECONDS, **call)
    except subprocess.TimeoutExpired:
        return "stays: " + " ".join(command)
    same = (wanted.returncode, wanted.stdout) == (got.returncode, got.stdout) == (0, wanted.stdout)
    return None if same else "differs: " + " ".join(command)


folder = Path(tempfile.mkdtemp(prefix="runs-"))
sources = [(file, 150) for file in sorted((TOP / "examples").glob("*.ioa"))]
made = {f"ring{size}": ring(size) for size in (2, 3, 5, 8, 16)} | {f"phold{size}": phold(size) for size in (4, 9, 64)}
made |= {f"mesh{number}": mesh(random.Random(number)) for number in range(40)}
for name, text in made.items():
    (folder / f"{name}.ioa").write_text(text)
    sources.append((folder / f"{name}.ioa", 800))
sources.append((TOP / "bench/loads/phold64w.ioa", 200))
sources = [(file, components(file), most) for file, most in sources]
drawn = [draw(sources, folder, number) for number in range(TIMES)]
with ThreadPoolExecutor(os.cpu_count()) as pool:
    faults = [it for it in pool.map(fault_of, drawn) if it]
stay = sum(it.startswith("stays") for it in faults)
print("\n".join([*faults, f"{TIMES} runs, {len(faults) - stay} differ, {stay} stay"]))
if faults:
    print(f"their files are in {folder}")
else:
    shutil.rmtree(folder)
sys.exit(bool(faults))
