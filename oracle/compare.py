#!/usr/bin/env python3
"""Compares the program with the second simulator on random turns and verdicts, byte by byte.

usage: compare.py PROGRAM SOURCE.ioa .. [--seeds N] [--settings N] [--ticks N] [--salt N]

For each source: what `print` writes, and for each seed some of twelve settings (gaps of 1 to 1,000, from 1 or from 0 on), streams and last ticks at
random, by `reference` or `run` with a crew at random, some with --trace. A third of the texts then goes to `check`, most with lines lost, doubled,
exchanged or with other arguments. Status 1 where anything differs."""
import argparse, collections, os, random, subprocess, sys, tempfile
from multiprocessing import Pool
from pathlib import Path
import simulator

SETTINGS = [["--gap", it] for it in ("1", "2", "3", "8", "20", "1000")] + [[]] + [["--from-zero", "--gap", it] for it in ("2", "3", "8", "50")] + [["--from-zero"]]


def answer(words, folder):
    """Returns status, standard output and standard error of the program."""
    ran = subprocess.run([given.program, *words], cwd=folder, stdin=subprocess.DEVNULL, capture_output=True, timeout=600)
    return ran.returncode, ran.stdout.decode("latin-1"), ran.stderr.decode("latin-1")


def with_other_argument(line, pick):
    front, inner = line[:-1].split("(", 1)
    args = inner.split(",")
    at = pick.randrange(len(args))
    if args[at].lstrip("-").isdigit():
        args[at] = str(int(args[at]) + pick.choice([-1, 1, 2, 100]))
    elif args[at] in ("true", "false"):
        args[at] = pick.choice(["true", "false", "0"])
    return f"{front}({','.join(args)})"


def changed(lines, pick):
    """Returns the lines of a trace with some changes."""
    lines = list(lines)
    for _ in range(pick.choice([1, 1, 1, 2, 5])):
        if not lines:
            break
        at, other, way = pick.randrange(len(lines)), pick.randrange(len(lines)), pick.randrange(5)
        if way == 0:
            del lines[at]
        elif way == 1:
            lines[at], lines[other] = lines[other], lines[at]
        elif way == 2:
            lines.insert(other, lines[at])
        elif way == 3:
            del lines[at:]
        elif "(" in lines[at]:
            lines[at] = with_other_argument(lines[at], pick)
    return lines


def first_difference(one, other):
    for at, (left, right) in enumerate(zip(one.split("\n"), other.split("\n")), 1):
        if left != right:
            return f"line {at}: simulator {left!r}, program {right!r}"
    return "one text is longer"


def drawn(setting, pick):
    """Returns the words of a simulation, and its seed, stream, gap and last tick."""
    gap = int(setting[-1]) if "--gap" in setting else 8
    seed, stream = pick.choice([pick.randrange(100), pick.randrange(1 << 64)]), pick.choice([0, 0, 1, (1 << 64) - 1, pick.randrange(1 << 64)])
    most = max(5, given.ticks * (gap + 1) // 9)
    ticks = pick.choice([most, most, pick.randrange(most + 1)])
    return [*setting, "--seed", str(seed), "--stream", str(stream), "--ticks", str(ticks)], seed, stream, gap, ticks


def compare(name):
    """Returns how many texts and verdicts were compared, and what differs."""
    pick, data = random.Random(f"{given.salt} {name}"), Path(name).read_bytes()
    counts, found = collections.Counter(), []
    with tempfile.TemporaryDirectory(prefix="compare-") as folder:
        Path(folder, "F").write_bytes(data)
        if simulator.serve(["print", "F"], folder) != answer(["print", "F"], folder):
            found.append(f"{name}: print differs")
        plan = simulator.Plan(simulator.read(data)[0], 1024)
        for setting in [it for _ in range(given.seeds) for it in pick.sample(SETTINGS, given.settings)]:
            words, seed, stream, gap, ticks = drawn(setting, pick)
            is_trace = pick.randrange(4) == 0
            command = ["reference"] if pick.randrange(5) else ["run", pick.choice(["--workers", "--groups"]), str(pick.randrange(1, 5)), "--budget", pick.choice(["1", "2", "7", "64"])]
            turns = simulator.seed_turns(plan, seed, stream, gap, "--from-zero" in setting)
            text = "".join(simulator.reference(plan, turns, ticks, is_trace)[0])
            words = [command[0], "F", *command[1:], *words, *["--trace"] * is_trace]
            got = answer(words, folder)
            counts["texts"] += 1
            counts["lines"] += text.count("\n")
            if got != (0, text, ""):
                found.append(f"{name}: {' '.join(words)}: status {got[0]}, {first_difference(text, got[1])}")
            if pick.randrange(3) == 0:
                lines = text.splitlines()
                Path(folder, "T").write_text("".join(f"{it}\n" for it in (changed(lines, pick) if pick.randrange(4) else lines)))
                wanted, got = simulator.serve(["check", "F", "T"], folder), answer(["check", "F", "T"], folder)
                counts["verdicts `" + (wanted[1].rstrip("0123456789 \n") or wanted[2].split()[0]) + "`"] += 1
                if wanted != got:
                    found.append(f"{name}: check after {' '.join(words)}: simulator {wanted}, program {got}")
    return counts, found


words = argparse.ArgumentParser(description=__doc__.splitlines()[0])
words.add_argument("program", type=os.path.abspath)
words.add_argument("sources", nargs="+", metavar="SOURCE.ioa")
for name, value in ("seeds", 50), ("settings", 12), ("ticks", 200), ("salt", 1):
    words.add_argument(f"--{name}", type=int, default=value)
given = words.parse_args()
total, wrong = collections.Counter(), 0
with Pool(len(os.sched_getaffinity(0))) as pool:
    for counts, found in pool.imap_unordered(compare, given.sources):
        total.update(counts)
        wrong += len(found)
        print(*found[:5], sep="\n", end="\n" * bool(found), flush=True)
print(f"{len(given.sources)} sources, {', '.join(f'{it} {total[it]:,}' for it in sorted(total))}: {wrong} differ")
sys.exit(bool(wrong))
