"""Counts instructions by valgrind's callgrind: they are the same on any machine, however busy."""
import re, subprocess, sys, tempfile


def count(program, folder, words):
    """Returns the instructions of a command that is given in a folder, and how many lines it wrote."""
    with tempfile.NamedTemporaryFile() as out:
        tool = ["valgrind", "--tool=callgrind", f"--callgrind-out-file={out.name}", program, *words]
        ran = subprocess.run(tool, cwd=folder, stdin=subprocess.DEVNULL, capture_output=True)
    if ran.returncode or b"refused" in ran.stderr:
        sys.exit(f"{' '.join(words)}: status {ran.returncode}, {ran.stderr.decode()}")
    return int(re.search(rb"Collected : (\d+)", ran.stderr)[1]), ran.stdout.count(b"\n")
