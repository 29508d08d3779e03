#!/usr/bin/env python3
"""Compares the completions, the manual page and the editors' files with the words of the program and of the language: scripts/words.py PROGRAM."""
import re, subprocess, sys
from pathlib import Path

top = Path(__file__).resolve().parent.parent
program = sys.argv[1] if len(sys.argv) > 1 else str(top / "dist/warp-x86_64-linux-gnu")


def told(*words):
    return subprocess.run([program, *words, "--help"], capture_output=True, text=True, timeout=60).stdout


def options_in(text):
    return set(re.findall(r"(?<![\w-])--([a-z][a-z-]*)", text))


def wanted():
    """Returns the commands, and the options that each tells of itself."""
    commands = re.findall(r"^  ([a-z]+)  ", told().split("Commands:")[1].split("Options:")[0], re.M)
    lines = {c: [l for l in told(c).splitlines() if re.match(r"\s+(-\w, )?--", l)] for c in commands if c != "help"}
    return commands, {c: options_in("\n".join(l.split("  ")[0] if l.startswith("-") else l for l in ls)) for c, ls in lines.items()}


def completed(command):
    """Returns the options that bash completes behind a command."""
    script = 'source "$1"; COMP_WORDS=(warp "$2" --); COMP_CWORD=2; _warp; printf "%s\\n" "${COMPREPLY[@]}"'
    ran = subprocess.run(["bash", "-c", script, "bash", top / "share/completions/warp.bash", command], capture_output=True, text=True, timeout=60)
    return options_in(ran.stdout)


def main():
    commands, options = wanted()
    every = set().union(*options.values()) | {"version"}
    bad = []
    for name in ["share/completions/warp.bash", "share/completions/_warp", "share/completions/warp.fish", "share/man/warp.1"]:
        text = (top / name).read_text().replace("\\-", "-")
        found = options_in(text) if not name.endswith(".fish") else set(re.findall(r"^complete.* -l ([a-z-]+)", text, re.M))
        bad += [f"{name}: no command {c}" for c in commands if not re.search(rf"(?<![\w-]){c}(?![\w-])", text)]
        bad += [f"{name}: no option --{o}" for o in sorted(every - found)]
        bad += [f"{name}: --{o} is no option" for o in sorted(found - every)]
    for command, its in options.items():
        bad += [f"share/completions/warp.bash: {command} has no --{o}" for o in sorted(its - completed(command))]
        bad += [f"share/completions/warp.bash: --{o} is no option of {command}" for o in sorted(completed(command) - its)]
    spelled = (top / "crates/ioa_tokens/src/spelling.rt").read_text()
    words = set(re.findall(r'"([A-Za-z]+)"', spelled))
    for name in ["editors/vim/syntax/ioa.vim", "editors/ioa.tmLanguage.json"]:
        text = (top / name).read_text()
        bad += [f"{name}: no word {w}" for w in sorted(words) if not re.search(rf"(?<![A-Za-z]){w}(?![A-Za-z])", re.sub(r"\\b", " ", text))]
    for line in bad:
        print(line)
    print(f"{len(commands)} commands, {len(every)} options, {len(words)} words: {'they agree' if not bad else 'they differ'}")
    return 1 if bad else 0


sys.exit(main())
