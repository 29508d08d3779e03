#!/usr/bin/env python3
"""Tells what the pages cite and the tree doesn't have: scripts/cited.py PAGE.. Each page is a file of this checkout.

Looked for is what stands between backquotes: a path or a file's name, which has to be a file or a folder here; a place `FILE:LINE`, where the line has to
have one of the names that stand beside it in the page's line; and a name of the code, `take_parcel`, `World::run` or `IsChunk`, each word of which has to
stand in a source, a script or a case here. And where a table's row names files `NAME.jsonl` of crates/vectors/data, its second field begins with their
numbers of cases; the words `N cases of vectors` and `N passed` have to be those of all these files and of crates/vectors/stdout."""
import functools, re, subprocess, sys
from pathlib import Path

top = Path(__file__).resolve().parent.parent
# What the toolchain and its libraries have, what a page says was there once, and patterns of names.
FOREIGN = {"START-HERE.md", "map_err", "pop_first", "sched_autogroup_enabled", "kernel", "service_tests", "NAME_tests"}
SOURCES = (".rt", ".antt", ".py", ".edit", ".md", ".ioa", ".txt", ".jsonl", "")


def files_here():
    """Returns the files of the checkout, those that aren't committed yet too."""
    said = subprocess.run(["git", "-C", top, "ls-files", "--cached", "--others", "--exclude-standard"], capture_output=True, text=True, check=True).stdout
    return [it for it in said.splitlines() if (top / it).is_file()]


def words_of(files):
    """Returns each word that stands in a file that is no page."""
    found = set()
    for file in files:
        path = top / file
        if path.suffix in SOURCES and (path.suffix != ".md" or "must-fail" in file) and not file.startswith("dist/warp"):
            found.update(re.findall(r"[A-Za-z_][A-Za-z0-9_]*", path.read_text(errors="replace")))
            found.update(re.findall(r"[A-Za-z0-9_-]+", file))
    return found


@functools.lru_cache(None)
def cases_in(name):
    return len((top / "crates/vectors/data" / name).read_text().splitlines())


class Tree:
    def __init__(self):
        self.files = files_here()
        self.words = words_of(self.files)
        self.ends = {"/" + it for it in self.files}
        self.folders = {"/" + str(parent) + "/" for it in self.files for parent in Path(it).parents}

    def has_path(self, path):
        """Whether a file's path ends so, or a folder's does; `*` stands for any letters, and a path of a crate may leave out `crates/`."""
        path = path.removeprefix("./")
        if "*" in path:
            pattern = re.compile(".*/" + re.escape(path).replace(r"\*", "[^/]*") + "$")
            return any(map(pattern.match, self.ends))
        if path.endswith("/"):
            return any(it.endswith("/" + path) for it in self.folders)
        return any(it.endswith("/" + path) for it in self.ends) or any(it.endswith("/" + path + "/") for it in self.folders)

    def wrong_place(self, file, line, names):
        """Returns what is wrong with a place, if anything is."""
        found = [it for it in self.files if ("/" + it).endswith("/" + file)]
        if len(found) != 1:
            return f"{file}: {len(found)} files"
        lines = (top / found[0]).read_text().splitlines()
        text = lines[line - 1] if line <= len(lines) else ""
        return None if any(re.search(rf"\b{re.escape(it)}\b", text) for it in names) else f"{file}:{line} has none of {', '.join(sorted(names))}"


def names_in(span):
    """Returns the words of a span that is a name of the code, and else none."""
    if not re.fullmatch(r"&?[A-Za-z_][A-Za-z0-9_]*(?:(?:::|\.)[A-Za-z_][A-Za-z0-9_]*)*(?:\(\))?", span):
        return []
    words = re.findall(r"[A-Za-z_][A-Za-z0-9_]*", span)
    return words if len(words) > 1 or "_" in span or re.search(r"[a-z][A-Z]", span) else []


def wrong_in(page, tree):
    """Yields what is wrong on a page."""
    is_fenced = False
    text = page.read_text()
    # (files that the page itself shows, as scripts/shown.py makes them)
    made = set(re.findall(r"^```ioa (\S+)$", text, re.M))
    for number, line in enumerate(text.splitlines(), 1):
        if line.startswith("```"):
            is_fenced = not is_fenced
        if is_fenced or line.startswith("    "):
            continue
        for fault in wrong_in_line(line, tree, made):
            yield f"{page.name}:{number}: {fault}"


def wrong_in_line(line, tree, made):
    spans = re.findall(r"`([^`]+)`", line)
    beside = {word for span in spans for word in re.findall(r"[A-Za-z_][A-Za-z0-9_]*", span) if "/" not in span}
    for span in spans:
        place = re.fullmatch(r"([\w./-]+\.(?:rt|antt)):(\d+)", span)
        if place:
            fault = tree.wrong_place(place[1], int(place[2]), beside)
            if fault:
                yield fault
        elif re.fullmatch(r"[\w.*/+-]+\.(?:rt|antt|py|md|ioa|jsonl|edit|svg|table|txt)", span) or re.fullmatch(r"(?:\.ci|dist|scripts|oracle|bench|crates|docs|examples|share|editors)/[\w./*+-]*", span):
            if span not in FOREIGN | made and not tree.has_path(span):
                yield f"{span}: no such file"
        else:
            for word in names_in(span):
                if word not in tree.words and word not in FOREIGN:
                    yield f"{span}: {word} stands nowhere here"
    yield from wrong_counts(line)


def wrong_counts(line):
    fields = [it.strip() for it in line.split("|")]
    names = re.findall(r"`(\w[\w-]*\.jsonl)`", fields[1]) if len(fields) > 3 else []
    if names:
        told = [int(it.replace(",", "")) for it in re.findall(r"^(\d[\d,]*)|(?<=, )(\d[\d,]*)", fields[2].split(":")[0]) for it in it if it]
        here = [cases_in(it) for it in names]
        if told != here:
            yield f"{', '.join(names)}: {told} cases are told of, and there are {here}"
    total = sum(map(cases_in, (it.name for it in (top / "crates/vectors/data").glob("*.jsonl"))))
    passed = int((top / "crates/vectors/stdout").read_text().split()[0])
    for told in re.findall(r"(\d[\d,]*) cases of `?vectors`?", line):
        if int(told.replace(",", "")) != total:
            yield f"{told} cases of vectors are told of, and there are {total:,}"
    for told in re.findall(r"`(\d+) passed, 0 failed`", line):
        if int(told) not in (passed, len((top / "crates.txt").read_text().splitlines())) and int(told) > 1000:
            yield f"{told} passed is told of, and it is {passed}"


def main():
    tree = Tree()
    wrong = [it for page in sys.argv[1:] for it in wrong_in(Path(page).resolve(), tree)]
    for it in wrong:
        print(f"scripts/cited.py: {it}")
    print(f"scripts/cited.py: {len(sys.argv) - 1} pages, {len(wrong)} wrong")
    return 1 if wrong else 0


sys.exit(main())
