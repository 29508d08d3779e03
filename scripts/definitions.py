#!/usr/bin/env python3
"""Counts what a reader of a contract has to believe: scripts/definitions.py [CRATE FILE FUNCTION].. For the contract of each function it prints how many
definitions of specs/ it reaches, how many lines these have (comments and imports aside), in how many files, and how many types of the code it
sees; with --list also their names by file. Words of the toolchain's library are not counted. Without arguments it prints docs/THEOREM.md's table."""
import re, sys
from pathlib import Path

top = Path(__file__).resolve().parent.parent / "crates"
WORD = re.compile(r"[\w'\-◌]+(?:\.[\w'\-]+)*", re.U)
HEADLINES = [("world", "world.rt", "run"), ("world", "world.rt", "step"), ("workers", "running.rt", "run"), ("commands", "simulating.rt", "simulate"),
             ("commands", "driving.rt", "drive"), ("reference", "checking.rt", "check_run"), ("compose", "composing.rt", "compose"), ("ioa_check", "checking.rt", "check"),
             ("service", "running.rt", "run_source"), ("service", "serve.rt", "serve")]


def imports(text):
    """Returns the names that `use` lines bring in, each with the module and its name there."""
    found = {}
    for module, names in re.findall(r"use ([\w.]+)\.\{([^}]*)\}", text):
        for name in names.split(","):
            old, _, new = name.strip().partition(" as ")
            found[new or old] = (module, old)
    for module, new in re.findall(r"use ([\w.]+) as (\w+)\s*$", text, re.M):
        found[new] = (module, None)
    return found


class Specs:
    """A file of definitions: the lines of each, and what the file imports."""

    def __init__(self, path):
        text = path.read_text()
        self.imports, self.bodies = imports(text), {}
        name, is_mutual = None, False
        for line in text.splitlines():
            if not line.strip() or re.match(r"\s*(--|(pub )?use |(pub )?mod )", line):
                continue
            if re.match(r"\s*(abbrev )?mutual$", line) or re.match(r"module ", line):
                name, is_mutual = None, line.endswith("mutual")
                continue
            is_mutual = is_mutual and line.startswith(" ")
            head = re.match(r"(?:  )?(?:(?:pub|abbrev|record|data) )+([\w'\-◌]+)(?= |:)", line)
            is_field = re.match(r"  pub [^:(]* : ", line) and not is_mutual
            if head and not is_field and not (name and line.startswith(name + " ")):
                name = head[1]
            if name:
                self.bodies.setdefault(name, []).append(line)


files = {}


def specs(module):
    """Returns the definitions of a module of this repository's specs/."""
    if module not in files:
        crate, _, rest = module.removeprefix("Rattle.").partition(".specs.")
        path = top / crate / "specs" / (rest.replace(".", "/") + ".antt")
        files[module] = Specs(path) if rest and "declared" not in rest and "contracts" not in rest and path.is_file() else None
    return files[module]


def reach(crate, file, function):
    text = (top / crate / "src" / file).read_text()
    at = re.search(rf"pub fn {function}\b", text).start()
    head = text[at:re.compile(r"^\s*\{\s*$|\{\}", re.M).search(text, at).start()]
    clauses = head[re.search(r"^\s*(ensures|requires)", head, re.M).start():]
    known, todo, seen, types = imports(re.sub(r"ghost use", "use", text)), [], {}, set()

    def visit(body, names, home):
        for word in WORD.findall(body):
            for name in {word, word.split(".")[0]}:
                if home and name in specs(home).bodies:
                    todo.append((home, name))
                elif name in names:
                    module, old = names[name]
                    old = old or word.partition(".")[2]
                    if ".specs.declared." in module:
                        types.add(re.sub(r"\.TheVariants$", "", module))
                    elif (found := specs(module)) and old in found.bodies:
                        todo.append((module, old))
                    elif found and old in found.imports:
                        visit(old, found.imports, None)

    visit(clauses, known, None)
    while todo:
        it = todo.pop()
        if it not in seen:
            found = specs(it[0])
            seen[it] = len(found.bodies[it[1]])
            visit("\n".join(found.bodies[it[1]]), found.imports, it[0])
    return seen, types


if __name__ == "__main__":
    words = [it for it in sys.argv[1:] if it != "--list"]
    for crate, file, function in zip(words[::3], words[1::3], words[2::3]) if words else HEADLINES:
        seen, types = reach(crate, file, function)
        print(f"{crate}: {file}: {function}: {len(seen)} definitions, {sum(seen.values())} lines, {len({it for it, _ in seen})} files, {len(types)} types of the code")
        if "--list" in sys.argv:
            for module in sorted({it for it, _ in seen}):
                print("  ", module, *[f"{name}({seen[module, name]})" for at, name in sorted(seen) if at == module])
