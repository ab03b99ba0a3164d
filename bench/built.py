"""Builds a program of a benchmark over copies of this repository's crates, and times it."""
import os
import re
import shutil
import subprocess
import sys
import time

TOP = os.path.dirname(os.path.dirname(os.path.abspath(__file__)))


def write(path, text):
    os.makedirs(os.path.dirname(path), exist_ok=True)
    with open(path, "w", encoding="utf-8") as out:
        out.write(text)


def below(names):
    """The lines of crates.txt of these crates and of those below them."""
    with open(os.path.join(TOP, "crates.txt"), encoding="utf-8") as listed:
        lines = {line.split(":")[0]: line for line in listed if re.match(r"[a-z]", line)}
    wanted = [name for name in names if name in lines]
    for name in wanted:
        wanted += [it for it in lines[name].split(":")[1].split() if it in lines and it not in wanted]
    return [line for name, line in lines.items() if name in wanted]


def built(top, name, stands_on, files):
    """The path of the program `name`, once it is proved and built in the folder `top`: a crate of these files that stands on these crates."""
    lines = below(stands_on)
    for line in lines:
        crate = line.split(":")[0]
        to = os.path.join(top, "crates", crate)
        shutil.copytree(os.path.join(TOP, "crates", crate), to, ignore=shutil.ignore_patterns("out", "must-fail"))
    folder = os.path.join(top, "crates", name)
    write(os.path.join(top, "crates.txt"), "".join(lines) + f"{name}: {' '.join(stands_on)}\n")
    for path, text in {"proofs/Lib.antt": "", "specs/Lib.antt": "", **files}.items():
        write(os.path.join(folder, path), text)
    ended = subprocess.run(["rt", "run"], cwd=folder, capture_output=True, text=True)
    program = os.path.join(folder, "out", name)
    if not os.path.exists(program):
        sys.exit(ended.stdout + ended.stderr)
    return program


def timed(program, *words):
    """Seconds, peak memory in KiB, and what is printed."""
    start = time.monotonic()
    command = ["/usr/bin/time", "-f", "%M", program, *(str(it) for it in words)]
    ended = subprocess.run(command, capture_output=True, text=True, check=True)
    seconds = time.monotonic() - start
    return seconds, int(ended.stderr.split()[-1]), ended.stdout.strip()


def instructions(program, *words):
    """How many instructions a run takes, as `valgrind --tool=callgrind` counts them."""
    command = ["valgrind", "--tool=callgrind", "--callgrind-out-file=/dev/null", program, *(str(it) for it in words)]
    ended = subprocess.run(command, capture_output=True, text=True, check=True)
    return int(re.search(r"Collected : (\d+)", ended.stderr)[1])


def quickest(program, *words):
    """The quickest of three runs, as `timed` tells it."""
    return min(timed(program, *words) for _ in range(3))
