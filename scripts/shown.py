#!/usr/bin/env python3
"""Runs the commands that pages show, and compares what they write with what is shown: scripts/shown.py PROGRAM PAGE..

A page shows commands in fenced or indented blocks: a line `$ COMMAND`, and below it what it writes to standard output and error. A command runs
if it names `./warp`; a line `...` stands for any lines. A fence named `ioa FILE` is that file, and one named `diff FILE` a change of it, in which
the lines with a blank or a minus are to be there. All of a page runs in one folder, which has the program, `examples/` and `docs/`."""
import subprocess, sys, tempfile
from pathlib import Path

top = Path(__file__).resolve().parent.parent


def blocks_of(text):
    """Yields the blocks of a page: the words behind the fence, or none of an indented one, and the lines."""
    fence, lines = None, []
    for line in [*text.splitlines(), ""]:
        if fence is not None:
            if line.strip() == "```":
                yield fence, lines
                fence, lines = None, []
            else:
                lines.append(line)
        elif line.startswith("    "):
            lines.append(line[4:])
        else:
            if lines:
                yield [], lines
            fence, lines = (line[3:].split() if line.startswith("```") else None), []


def commands_of(lines):
    """Returns the commands that a block shows, each with the lines below it."""
    found = []
    for line in lines:
        if line.startswith("$ "):
            found.append((line[2:], []))
        elif found:
            found[-1][1].append(line)
    return found


def is_shown(wanted, got):
    """Whether the lines are the wanted ones, of which `...` stands for any."""
    if not wanted:
        return not got
    if wanted[0] == "...":
        return any(is_shown(wanted[1:], got[at:]) for at in range(len(got) + 1))
    return bool(got) and got[0] == wanted[0] and is_shown(wanted[1:], got[1:])


def changed(text, lines):
    """Returns the text with a change, or none where what it changes isn't there once."""
    before = "".join(line[1:] + "\n" for line in lines if line[:1] in " -")
    after = "".join(line[1:] + "\n" for line in lines if line[:1] in " +")
    return text.replace(before, after) if text.count(before) == 1 else None


def wrong_commands(folder, lines):
    """Runs the commands of a block, and yields what is wrong."""
    for command, wanted in commands_of(lines):
        if "./warp" in command:
            ran = subprocess.run(["bash", "-c", command], cwd=folder, stdin=subprocess.DEVNULL, stdout=subprocess.PIPE, stderr=subprocess.STDOUT, timeout=120)
            got = ran.stdout.decode("latin-1").splitlines()
            if not is_shown(wanted, got):
                yield f"{command}: it shows {wanted[:4]}, and got {got[:4]}"


def wrong_in(page, program, folder):
    """Returns what is wrong on a page, and how many commands ran."""
    for name, place in ("warp", program), ("examples", top / "examples"), ("docs", top / "docs"):
        (folder / name).symlink_to(place)
    wrong, count = [], 0
    for fence, lines in blocks_of(page.read_text()):
        if fence[:1] == ["ioa"] and len(fence) == 2:
            (folder / fence[1]).write_text("\n".join(lines) + "\n")
        elif fence[:1] == ["diff"] and len(fence) == 2:
            text = changed((folder / fence[1]).read_text(), lines)
            wrong += [f"a change of {fence[1]} doesn't fit"] if text is None else []
            (folder / fence[1]).write_text(text or "")
        else:
            count += sum("./warp" in command for command, _ in commands_of(lines))
            wrong += wrong_commands(folder, lines)
    return [f"{page.name}: {it}" for it in wrong], count


def main():
    program = Path(sys.argv[1]).resolve()
    wrong, count = [], 0
    for page in map(Path, sys.argv[2:]):
        with tempfile.TemporaryDirectory() as folder:
            found, more = wrong_in(page, program, Path(folder))
        wrong, count = wrong + found, count + more
    for it in wrong[:10]:
        print(f"scripts/shown.py: {it}")
    print(f"scripts/shown.py: {count} commands on {len(sys.argv) - 2} pages, {len(wrong)} wrong")
    return 1 if wrong else 0


sys.exit(main())
