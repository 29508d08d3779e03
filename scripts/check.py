#!/usr/bin/env python3
"""Tells in half a minute whether dist/ has the program of this checkout, and whether it answers as it should: hash, sha256, the toolchain's line,
the ring's four turns, what a terminal is told, the examples' layout and expected outputs by `reference` and by `run` in 1 to 8 groups, by up to 8 workers and with windows, what their watches tell in hunts over 100
seeds (over 1,000 with --whole, as the gate has it), the commands that the pages show and what they cite, what `--progress` tells first, the words in
completions, manual page and editors' files, and the cases with known answers in crates/vectors/data, whose copies of the examples are compared with these."""
import json, os, pty, re, shutil, subprocess, sys, tempfile, threading
from concurrent.futures import ThreadPoolExecutor
from pathlib import Path

top = Path(__file__).resolve().parent.parent
program = top / "dist/warp-x86_64-linux-gnu"
SEEDS = 1000 if "--whole" in sys.argv[1:] else 100
PAGES = ["README.md", "docs/LANGUAGE.md", "docs/TUTORIAL.md"]
# Commands that go on for days, and the form of the lines that they tell with `--progress`.
ENDLESS = [
    ("hunt examples/peterson.ioa crit(7) --seeds 1..18446744073709551614", r"[1-9]\d* of 18446744073709551614 seeds, \d+ seeds a second\n"),
    ("hunt examples/peterson.ioa crit(7) --seeds 5..18446744073709551614 --workers 1 --count", r"[1-9]\d* of 18446744073709551610 seeds, \d+ seeds a second\n"),
    ("run examples/lcr.ioa --ticks 4294967296", r"tick \d+ of 4294967296, \d+ turns, \d+ turns a second\n"),
    ("reference examples/lcr.ioa --ticks 4294967296", r"tick \d+ of 4294967296, \d+ turns, \d+ turns a second\n"),
]
# What a person is told at a terminal: the words, where the output goes, the status, and the lines.
TOLD = [
    ("reference nofile.ioa", os.devnull, 3, ["fault 63", "nofile.ioa: no such file"]),
    ("check examples/ring.ioa examples", os.devnull, 3, ["fault 63", "examples: it is a folder"]),
    ("reference examples/lcr.ioa --ticks 10000", "/dev/full", 3, ["fault 60: no space is left where the output goes"]),
    ("reference examples/ring.ioa --table examples/ring-a.table --gap 3", os.devnull, 0, ["--gap isn't used: the turns are those of the table"]),
    ("check examples/ring.ioa examples/ring-a.table", os.devnull, 1, ["refused 50 at 1", "examples/ring-a.table:1:1: refused 50: this line has none of the forms of its file"]),
]
RING = "1 1 0 idle\n2 0 0 pass(1)\n3 1 1 pass(0)\n4 0 1 pass(1)\n"


def answer(words, folder=top):
    """Returns status, standard output and standard error of the program."""
    ran = subprocess.run([program, *words], cwd=folder, stdin=subprocess.DEVNULL, capture_output=True, timeout=60)
    return ran.returncode, ran.stdout.decode("latin-1"), ran.stderr.decode("latin-1")


def differs(words, got, wanted):
    return [] if got == wanted else [f"{' '.join(words)}: wanted {str(wanted)[:200]}, got {str(got)[:200]}"]


def try_example(line):
    """Runs a line of examples/expected/runs, and where it is of `reference`, `run` with the same words in 1 to 8 groups, by up to 8 workers, and with windows."""
    name, words = line.split(": ", 1)
    words = words.split()
    wanted = (0, (top / f"examples/expected/{name}.txt").read_text(), "")
    found = differs(words, answer(words), wanted)
    if words[0] == "reference":
        for option in *(f"--groups {it}" for it in range(1, 9)), "--workers 8", *(f"--window {it}" for it in (1, 2, 7, 65535)):
            crew = ["run", *words[1:], *option.split()]
            found += differs(crew, answer(crew), wanted)
    return found


def try_hunt(line):
    """Runs a line of examples/expected/hunts, which tells the first line of what a hunt over the seeds 1 to 1,000 writes. All that find a seed find one below 100."""
    command, first = line.split(": ", 1)
    words = ["hunt", *command.split(), "--seeds", f"1..{SEEDS}"]
    status, text, error = answer(words)
    return differs(words, (status, text.split("\n")[0], error), (4 if first == "none" else 0, first, ""))


def try_terminal(told):
    """Runs words whose standard error is a terminal, and compares the first lines there."""
    words, out, status, lines = told
    ours, theirs = pty.openpty()
    with open(out, "wb") as sink:
        ran = subprocess.run([program, *words.split()], cwd=top, stdin=subprocess.DEVNULL, stdout=sink, stderr=theirs, timeout=60)
    os.close(theirs)
    text = b""
    try:
        while piece := os.read(ours, 4096):
            text += piece
    except OSError:
        pass
    os.close(ours)
    got = text.decode("latin-1").replace("\r", "").splitlines()[: len(lines)]
    return differs([words, "at a terminal"], (ran.returncode, got), (status, lines))


def try_layout(path):
    """Asks whether an example is laid out."""
    words = ["format", str(path.relative_to(top)), "--check"]
    return differs(words, answer(words), (0, "", ""))


def try_progress(endless):
    """Runs an endless command with `--progress` until it has told two lines, which have to have this form, and ends it."""
    command, form = endless
    words = [*command.split(), "--progress"]
    ran = subprocess.Popen([program, *words], cwd=top, stdin=subprocess.DEVNULL, stdout=subprocess.DEVNULL, stderr=subprocess.PIPE)
    timer = threading.Timer(60, ran.kill)
    timer.start()
    told = [ran.stderr.readline().decode("latin-1") for _ in range(2)]
    timer.cancel()
    ran.kill()
    ran.wait()
    return [it for line in told for it in differs(words, bool(re.fullmatch(form, line)) or line, True)]


def text_of(content):
    """Returns the text of a file: one text, or the texts of a list, each so often as a number before it says, `#` being the time and `@` the one before."""
    if isinstance(content, str):
        return content
    text, times = [], 1
    for piece in content:
        if isinstance(piece, int):
            times = piece
        else:
            text += [piece] if times == 1 else [piece.replace("#", str(it + 1)).replace("@", str(it)) for it in range(times)]
            times = 1
    return "".join(text)


def try_case(line):
    """Runs a case: words, files, and what has to come of them; null for standard output or error means anything."""
    case = json.loads(line)
    folder = Path(tempfile.mkdtemp(prefix="warp-case-"))
    try:
        for name, content in case["files"].items():
            file = folder / name
            file.parent.mkdir(parents=True, exist_ok=True)
            file.write_bytes(text_of(content).encode("latin-1"))
        got = answer(case["words"], folder)
    finally:
        shutil.rmtree(folder, ignore_errors=True)
    wanted = [case["status"], *(was if case[name] is None else case[name] for name, was in (("stdout", got[1]), ("stderr", got[2])))]
    return differs(case["words"], got, tuple(wanted))


def main():
    state = subprocess.run([top / "scripts/state"], capture_output=True, text=True)
    if state.returncode:
        print(f"scripts/check.py: {state.stdout.strip()}; scripts/refresh builds it anew")
        return 1
    built = dict(line.split(" ", 1) for line in (top / "dist/BUILT").read_text().splitlines())
    # The first word of the kit's line names a packing of the toolchain; what a proof rests on is its logic.
    logic = " ".join(built["kit"].split()[1:])
    wanted = (0, f"warp 0.1.0\nproved with Rattle, {logic}\n", "")
    found = differs(["--version"], answer(["--version"]), wanted)
    if shutil.which("rt"):
        kit = subprocess.run(["rt", "version"], capture_output=True, text=True).stdout.strip()
        if kit != built["kit"]:
            print(f"note: the toolchain here is {kit}, and dist/ was built by {built['kit']}")
        found += [] if kit.endswith(logic) else ["the logic of the toolchain here is another than that which dist/ was built by"]
    ring = ["run", "examples/ring.ioa", "--table", "examples/ring-a.table"]
    found += differs(ring, answer(ring), (0, RING, ""))
    for copy in sorted((top / "crates/vectors/data").glob("*.ioa")):
        found += [] if copy.read_bytes() == (top / "examples" / copy.name).read_bytes() else [f"{copy.relative_to(top)} differs from examples/{copy.name}"]
    hunt = ["hunt", "examples/broken-lock.ioa", "alarm", "--ticks", "60"]
    found += differs([*hunt, "--progress"], answer([*hunt, "--progress"])[:2], answer(hunt)[:2])
    runs, hunts = ((top / "examples/expected" / name).read_text().splitlines() for name in ("runs", "hunts"))
    files = sorted((top / "crates/vectors/data").glob("*.jsonl"))
    cases = [line for file in files for line in file.read_text().splitlines() if '"words"' in line and not any(it in line for it in ('"room"', '"looked"', '"person"', '"has"'))]
    examples = sorted((top / "examples").glob("*.ioa"))
    for told in TOLD:
        found += try_terminal(told)
    with ThreadPoolExecutor(os.cpu_count()) as pool:
        for it in [*pool.map(try_layout, examples), *pool.map(try_progress, ENDLESS), *pool.map(try_example, runs), *pool.map(try_hunt, hunts), *pool.map(try_case, cases)]:
            found += it
    for it in found[:10]:
        print(f"scripts/check.py: {it}")
    print(f"scripts/check.py: {len(runs)} runs and {len(hunts)} hunts over {SEEDS} seeds of examples and {len(cases)} cases, {len(found)} wrong")
    shown = subprocess.run([top / "scripts/shown.py", program, *(top / page for page in PAGES)])
    pages = [*sorted(top.glob("*.md")), top / "examples/README.md", *sorted((top / "docs").rglob("*.md"))]
    cited = subprocess.run([top / "scripts/cited.py", *pages])
    words = subprocess.run([top / "scripts/words.py", program])
    return 1 if found or shown.returncode or cited.returncode or words.returncode else 0


sys.exit(main())
