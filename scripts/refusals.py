#!/usr/bin/env python3
"""Lets each request for memory of the program fail in turn, until none is left, and looks at what it answers then: what it answers with ample memory,
or `fault 1` or `fault 61` with status 3 after a beginning of that, or, of `drive`, steps refused 1 and a beginning of what `reference` writes.

usage: scripts/refusals.py [--quick] [PROGRAM]
       scripts/refusals.py --tests

Without PROGRAM it tries the program in dist/; with --quick only the ring. With --tests it tries the calls of the libraries in place of the program:
the tests that `rt test` built in the crates of tests and that mark calls run once for each N, the N-th request of each marked call is refused, and the
test has to pass. A small library that answers the N-th request with nothing is compiled in a scratch folder and loaded before the C library. Where there
is no C compiler, or the library isn't loaded, nothing is tried: it says so, and its status is 1."""
import os, shutil, subprocess, sys, tempfile
from concurrent.futures import ThreadPoolExecutor
from pathlib import Path

top = Path(__file__).resolve().parent.parent
SHIM = r"""
#define _GNU_SOURCE
#include <dlfcn.h>
#include <errno.h>
#include <fcntl.h>
#include <stdlib.h>
#include <unistd.h>
static long wanted = -1, made;
static int counts = 1;
/* What a test asks for where refusals begin and where they end, in fixtures/src/memory.rt: refused, and requests are counted from there on. */
#define BEGINNING 1000003
#define ENDING 1000033
static int fails(size_t size) {
    if (wanted < 0) {
        const char *text = getenv("REFUSED_REQUEST");
        counts = getenv("REFUSED_IN_CALLS") == NULL;
        wanted = text ? atol(text) : 0;
    }
    if (size == BEGINNING || size == ENDING) {
        made = 0;
        counts = size == BEGINNING;
        return 1;
    }
    if (!counts || __sync_add_and_fetch(&made, 1) != wanted) return 0;
    const char *name = getenv("REFUSED_FILE");
    int file = name ? open(name, O_CREAT | O_WRONLY | O_APPEND, 0600) : -1;
    if (file >= 0 && write(file, ".", 1) == 1) close(file);
    return 1;
}
void *malloc(size_t size) {
    static void *(*real)(size_t);
    if (!real) real = dlsym(RTLD_NEXT, "malloc");
    if (fails(size)) { errno = ENOMEM; return NULL; }
    return real(size);
}
void *realloc(void *old, size_t size) {
    static void *(*real)(void *, size_t);
    if (!real) real = dlsym(RTLD_NEXT, "realloc");
    if (fails(size)) { errno = ENOMEM; return NULL; }
    return real(old, size);
}
"""

# Workers ask more or less often from run to run: so many runs in a row must have asked too seldom.
LAST = 16


def commands(name, source, turns):
    """Returns the commands that are tried on a source, each with its name."""
    steps = "examples/ring.steps" if name == "ring" else None
    trace = "examples/ring.trace" if name == "ring" else None
    found = [("print", ["print", source]), ("format", ["format", source]), ("format --check", ["format", source, "--check"])]
    found.append(("reference", ["reference", source, *turns]))
    found += [(f"run, {count} groups", ["run", source, *turns, "--groups", str(count)]) for count in (1, 2, 3)]
    found.append(("run, up to 2 workers", ["run", source, *turns, "--workers", "2"]))
    if trace:
        found.append(("check", ["check", source, trace]))
    if steps:
        found.append(("drive", ["drive", source, steps, *turns]))
    return [(f"{name}: {what}", words) for what, words in found]


CASES = [
    *commands("ring", "examples/ring.ioa", ["--table", "examples/ring-a.table"]),
    *commands("fan", "examples/fan.ioa", ["--table", "examples/fan.table"]),
    *commands("lcr", "examples/lcr.ioa", ["--ticks", "12"]),
]


# The tests that mark calls, and how many runs in a row must have asked too seldom.
TESTS = [
    ("core_tests", "components::calls::a_refused_source_is_composed_later", 1),
    ("core_tests", "components::calls::a_refused_table_and_its_turns_come_later", 1),
    ("core_tests", "components::worlds::a_refused_list_of_steps_does_none", 1),
    ("core_tests", "components::refused::a_refused_entry_changes_nothing", 1),
    ("core_tests", "tests::stores::a_refused_call_leaves_the_store", 1),
    ("workers_tests", "refused::a_refused_exchange_and_its_leases_come_later", 1),
    ("workers_tests", "passes::each_lease_is_in_one_place", 1),
    ("workers_tests", "refused::a_refused_run_is_served_later", LAST),
]


class TriedTests:
    """Tests under the shim."""

    def __init__(self, shim, room):
        self.shim, self.room = shim, room

    def passes(self, program, name, request, mark):
        more = {"LD_PRELOAD": str(self.shim), "REFUSED_REQUEST": str(request), "REFUSED_IN_CALLS": "1", "REFUSED_FILE": str(mark)}
        ran = subprocess.run([program, name], env={**os.environ, **more}, stdin=subprocess.DEVNULL, capture_output=True, timeout=60)
        return ran.returncode == 0 and ran.stdout.endswith(b"test result: ok\n"), ran.stdout + ran.stderr

    def tried(self, case):
        """Returns how many requests were refused, one in each run and marked call, and what was wrong."""
        crate, name, last = case
        program = top / "crates" / crate / "out" / f"{crate}_tests"
        if not program.is_file():
            return 0, [f"{crate}: its tests aren't built: run `rt test` in crates/{crate}"]
        mark = self.room / name.replace("::", "-")
        wrong, many, request, seldom = [], 0, 0, 0
        while seldom < last:
            request += 1
            passed, said = self.passes(program, name, request, mark)
            if not passed:
                wrong.append(f"{crate}: {name}, request {request}: {str(said)[:300]}")
            if mark.exists():
                many, seldom = many + mark.stat().st_size, 0
                mark.unlink()
            else:
                seldom += 1
        return many, wrong


class Tried:
    """The program under the shim."""

    def __init__(self, program, shim, room):
        self.program, self.shim, self.room = program, shim, room

    def answer(self, words, request=0, mark=None):
        more = {"LD_PRELOAD": str(self.shim), "REFUSED_REQUEST": str(request), **({"REFUSED_FILE": str(mark)} if mark else {})}
        ran = subprocess.run([self.program, *words], cwd=top, env={**os.environ, **more}, stdin=subprocess.DEVNULL, capture_output=True, timeout=60)
        return ran.returncode, ran.stdout, ran.stderr

    def is_right(self, words, ample, whole, got):
        status, out, err = got
        if got == ample:
            return True
        if status == 3 and err in (b"fault 1\n", b"fault 61\n"):
            return ample[1].startswith(out)
        refused = err.splitlines()
        return words[0] == "drive" and status == 0 and any(line.endswith(b" refused 1") for line in refused) and whole.startswith(out)

    def tried(self, case):
        """Returns how many requests were refused, one in each run, and what was wrong."""
        name, words = case
        mark = self.room / name.replace(" ", "-").replace(":", "").replace(",", "")
        ample = self.answer(words)
        whole = self.answer(["reference", words[1], *words[3:]])[1] if words[0] == "drive" else b""
        wrong, many, request, seldom = [], 0, 0, 0
        while seldom < (LAST if words[0] == "run" else 1):
            request += 1
            got = self.answer(words, request, mark)
            if not self.is_right(words, ample, whole, got):
                wrong.append(f"{name}, request {request}: {str(got)[:200]}")
            if mark.exists():
                mark.unlink()
                many, seldom = many + 1, 0
            else:
                seldom += 1
        return many, wrong


def shim_in(room):
    """Returns the library that refuses requests, compiled in a folder, or None where that can't be done here."""
    compiler = next((it for it in ("cc", "gcc", "clang") if shutil.which(it)), None)
    if compiler is None:
        print("refusals: there is no C compiler, so none was tried")
        return None
    (room / "shim.c").write_text(SHIM)
    shim = room / "shim.so"
    if subprocess.run([compiler, "-O2", "-shared", "-fPIC", str(room / "shim.c"), "-o", str(shim), "-ldl"]).returncode:
        print("refusals: the shim isn't compiled here, so none was tried")
        return None
    return shim


def tried_all(tried, cases, names):
    """Tries all cases, and returns the status with which to end."""
    total, wrong = 0, []
    with ThreadPoolExecutor(os.cpu_count()) as pool:
        for name, (many, faults) in zip(names, pool.map(tried.tried, cases)):
            print(f"refusals: {name}: {many} requests, {len(faults)} answered wrongly")
            total, wrong = total + many, wrong + faults
    for line in wrong:
        print(line)
    if not total:
        print("refusals: the shim isn't loaded here, so none was tried")
    print(f"refusals: {total} requests refused, {len(wrong)} answered wrongly")
    return 1 if wrong or not total else 0


def main():
    words = sys.argv[1:]
    names = [it for it in words if not it.startswith("--")]
    program = Path(names[0]).resolve() if names else top / "dist/warp-x86_64-linux-gnu"
    with tempfile.TemporaryDirectory() as folder:
        room = Path(folder)
        shim = shim_in(room)
        if shim is None:
            return 1
        if "--tests" in words:
            return tried_all(TriedTests(shim, room), TESTS, [f"{crate}: {name}" for crate, name, _ in TESTS])
        # The program in dist/ need not have the right to be run.
        copy = room / "warp"
        shutil.copyfile(program, copy)
        copy.chmod(0o755)
        cases = [it for it in CASES if it[0].startswith("ring") or "--quick" not in words]
        return tried_all(Tried(copy, shim, room), cases, [name for name, _ in cases])


sys.exit(main())
