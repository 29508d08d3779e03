"""The cases of `draw`: the diagrams of the second simulator's turns, in SVG.

    python3 oracle/diagrams.py > crates/vectors/data/draws.jsonl
"""
import json
import os
import sys

from simulator import Plan, read, read_action, reference, seed_turns

EXAMPLES = os.path.join(os.path.dirname(os.path.abspath(__file__)), "..", "examples")
LAST = 4294967296
HEAD = """ font-family="monospace" font-size="11">
<style>svg{background:#fff}text{fill:#111;stroke:#fff;stroke-width:3;paint-order:stroke}
.n{text-anchor:middle}.t{fill:#666}line{stroke:#ccc}.a{stroke:#36c;marker-end:url(#m)}
circle{fill:#111;stroke:#111}.i{fill:#fff}path{fill:#36c}
@media(prefers-color-scheme:dark){svg{background:#111}text{fill:#eee;stroke:#111}
.t{fill:#999}line{stroke:#444}.a{stroke:#8af}circle{fill:#eee;stroke:#eee}
.i{fill:#111}path{fill:#8af}}</style>
<defs><marker id="m" refX="8" refY="4" markerWidth="8" markerHeight="8" markerUnits="userSpaceOnUse" orient="auto"><path d="M0 0L8 4L0 8z"/></marker></defs>
"""


def x_of(component):
    return 120 + 160 * component


def mark(plan, row, component, action):
    x, y = x_of(component), row + component % 6 * 4
    if action == "idle":
        return f'<circle class="i" cx="{x}" cy="{y}" r="4"/>\n'
    receivers = [j for j, _ in plan.parts(*read_action(plan, action))[2] if j != component]
    arrows = "".join(f'<line class="a" x1="{x}" y1="{y}" x2="{x_of(j)}" y2="{y}"/>\n' for j in receivers)
    return arrows + f'<circle cx="{x}" cy="{y}" r="4"/>\n<text x="{x + 8}" y="{y - 5}">{action}</text>\n'


def diagram(data, seed=1, stream=0, gap=8, from_zero=False, ticks=1000, first=0, last=LAST):
    source, _ = read(data.encode())
    plan = Plan(source, 1024)
    lines, _ = reference(plan, seed_turns(plan, seed, stream, gap, from_zero), ticks, False)
    turns = [line[:-1].split(" ", 3) for line in lines]
    turns = [(int(tick), int(component), action) for tick, component, _, action in turns]
    within = [turn for turn in turns if first <= turn[0] <= last]
    drawn = within[:2000]
    names = [name for name, _, _ in source["components"]]
    bottom = 100 + 24 * ((drawn[-1][0] if drawn else first) - first)
    out = [f'<svg xmlns="http://www.w3.org/2000/svg" width="{x_of(len(names))}" height="{bottom + 40}"', HEAD]
    for i, name in enumerate(names):
        out.append(f'<text class="n" x="{x_of(i)}" y="30">{name}</text>\n')
        out.append(f'<line x1="{x_of(i)}" y1="40" x2="{x_of(i)}" y2="{bottom}"/>\n')
    for tick, component, action in drawn:
        row = 60 + 24 * (tick - first)
        out.append(f'<text class="t" x="8" y="{row + 4}">{tick}</text>\n')
        out.append(mark(plan, row, component, action))
    if len(within) > 2000:
        out.append(f'<text class="t" x="8" y="{bottom + 20}">only the first 2000 turns are drawn</text>\n')
    return "".join(out) + "</svg>\n"


def text_of(name):
    with open(os.path.join(EXAMPLES, name + ".ioa")) as file:
        return file.read()


def row(name, words, **options):
    data = text_of(name)
    return {"words": ["draw", "F"] + words, "files": {"F": data},
            "stdout": diagram(data, **options), "stderr": "", "status": 0}


def rows():
    for name in ("alternating-bit", "dijkstra", "fan", "lcr", "peterson", "ring", "two-phase-commit",
                 "broken-lock", "paxos"):
        yield row(name, ["--ticks", "40"], ticks=40)
        yield row(name, ["--ticks", "60", "--seed", "7", "--gap", "3"], ticks=60, seed=7, gap=3)
    yield row("broken-lock", ["--seed", "31", "--ticks", "60", "--from", "20", "--to", "46"],
              seed=31, ticks=60, first=20, last=46)
    yield row("lcr", ["--ticks", "30", "--from-zero"], ticks=30, from_zero=True)
    yield row("lcr", ["--ticks", "30", "--stream", "5"], ticks=30, stream=5)
    yield {"words": ["draw", "F", "--ticks", "30", "--trace"], "files": {"F": text_of("lcr")},
           "stdout": "", "stderr": None, "status": 2}
    yield row("ring", ["--ticks", "0"], ticks=0)
    yield row("ring", ["--ticks", "30", "--from", "9", "--to", "9"], ticks=30, first=9, last=9)
    yield row("ring", ["--ticks", "30", "--from", "20", "--to", "10"], ticks=30, first=20, last=10)
    yield row("ring", ["--ticks", "30", "--from", str(LAST)], ticks=30, first=LAST)
    yield row("ring", ["--ticks", "6000"], ticks=6000)
    ring = {"F": text_of("ring")}
    for words in (["--from", str(LAST + 1)], ["--to", str(LAST + 1)], ["--to=-1"], ["--workers", "2"], ["G"]):
        yield {"words": ["draw", "F"] + words, "files": ring, "stdout": "", "stderr": None, "status": 2}
    yield {"words": ["draw"], "files": ring, "stdout": "", "stderr": None, "status": 2}
    yield {"words": ["draw", "G"], "files": ring, "stdout": "", "stderr": "fault 63\n", "status": 3}
    yield {"words": ["draw", "F"], "files": {"F": "type"}, "stdout": "", "stderr": "refused 4 at 4\n", "status": 1}


if __name__ == "__main__":
    for case in rows():
        sys.stdout.write(json.dumps(case) + "\n")
