#!/usr/bin/env python3
"""Runs the whole merge gate in a fresh clone, with nothing kept from earlier runs, and says what it costs.

    gate.py [--log FILE]

The clone is of what is committed. The gate's own lines go to the log (`gate.log` in the current folder).
Printed is a table by crate: the processor seconds of its proof, of the proof of its tests, of its must-fail
edits (with the proof that they begin with), and of what is compiled and run; the longest single job; and the
seconds for each line of code, without contracts, comments and tests. Processes are looked at ten times a
second, so a table's sum is a little below the whole, which the system counts. Linux alone."""
import argparse
import os
import re
import resource
import subprocess
import sys
import tempfile
import time

TOP = os.path.dirname(os.path.dirname(os.path.realpath(__file__)))
TICKS = os.sysconf("SC_CLK_TCK")
PARTS = ("proof", "tests", "edits", "program")
CLAUSE = re.compile(r"\s*(requires|ensures|ghost|decreases|invariant)\b")


def code_lines(folder):
    """The lines of code in a crate's src/: no blank lines, comments, contracts or tests. A crate of tests has none."""
    if folder.endswith("_tests"):
        return 0
    count = 0
    for at, _, names in os.walk(f"{folder}/src"):
        for name in names:
            if name.endswith(".rt") and "tests" not in name:
                with open(f"{at}/{name}", encoding="utf-8") as file:
                    count += lines_in(file.read())
    return count


def lines_in(text):
    """The lines of code in a file. A clause goes on until its braces are closed."""
    count = depth = 0
    for line in text.split("\n#[test]", 1)[0].splitlines():
        if depth > 0 or CLAUSE.match(line):
            depth += line.count("{") - line.count("}")
        elif line.strip() and not line.lstrip().startswith("//"):
            count += 1
    return count


def process(pid):
    """What a process is called with, where it runs, its parent, and the seconds that it took so far."""
    try:
        with open(f"/proc/{pid}/stat") as file:
            fields = file.read().rsplit(")", 1)[1].split()
        with open(f"/proc/{pid}/cmdline", "rb") as file:
            words = file.read().decode(errors="replace").split("\0")
        return words, os.readlink(f"/proc/{pid}/cwd"), int(fields[1]), (int(fields[11]) + int(fields[12])) / TICKS
    except (OSError, IndexError, ValueError):
        return None


def job_of(words, where):
    """The crate and the part that a process works for, where that shows."""
    if "--crate-name" in words:
        crate = words[words.index("--crate-name") + 1]
        if "/rt-edit-" in where:
            return crate, "edits"
        return crate, "tests" if "--test" in words else "proof"
    found = re.search(r"/crates/([a-z0-9_]+)", " ".join(words) + " " + where)
    return (found[1], "program") if found else None


class Watch:
    """The seconds of each process below one, by crate and part."""

    def __init__(self, root):
        self.root, self.jobs, self.took, self.parents = root, {}, {}, {}

    def look(self):
        for pid in filter(str.isdigit, os.listdir("/proc")):
            found = process(pid)
            if found and self.is_below(pid, found[2]):
                self.took[pid] = max(found[3], self.took.get(pid, 0))
                above = self.jobs.get(str(found[2]))
                # (what a check or a program starts works for the same job)
                self.jobs[pid] = above or job_of(*found[:2]) or self.jobs.get(pid)

    def is_below(self, pid, parent):
        self.parents[pid] = str(parent)
        for _ in range(64):
            if pid == self.root:
                return True
            pid = self.parents.get(pid, "")
        return False

    def table(self):
        seconds, longest = {}, (0, None)
        for pid, job in self.jobs.items():
            if job:
                seconds[job] = seconds.get(job, 0) + self.took[pid]
                longest = max(longest, (self.took[pid], job), key=lambda it: it[0])
        return seconds, longest


def run(repo, log):
    began = time.time()
    with open(log, "w") as out:
        gate = subprocess.Popen(["rt", "ci", "--anew"], cwd=repo, stdout=out, stderr=subprocess.STDOUT)
        watch = Watch(str(gate.pid))
        while gate.poll() is None:
            watch.look()
            time.sleep(0.1)
    used = resource.getrusage(resource.RUSAGE_CHILDREN)
    return watch, gate.returncode, time.time() - began, used.ru_utime + used.ru_stime


def tell(repo, watch, clock, whole):
    seconds, longest = watch.table()
    crates = [it.split(":")[0].strip() for it in open(f"{repo}/crates.txt") if re.match(r"[a-z]", it)]
    lines = {it: code_lines(f"{repo}/crates/{it}") for it in crates}
    print(f"| crate | lines | {' | '.join(PARTS)} | together |\n|---|{'---|' * (len(PARTS) + 2)}")
    for crate in crates:
        of = [seconds.get((crate, part), 0) for part in PARTS]
        print(f"| `{crate}` | {lines[crate]} | {' | '.join(f'{it:.0f}' for it in of)} | {sum(of):.0f} |")
    of = [sum(seconds.get((it, part), 0) for it in crates) for part in PARTS]
    print(f"| all | {sum(lines.values())} | {' | '.join(f'{it:.0f}' for it in of)} | {sum(of):.0f} |")
    print(f"\n{whole:.0f} processor seconds in {clock / 60:.0f} minutes on {os.cpu_count()} processors: {whole / sum(lines.values()):.2f} a line of code")
    print(f"the longest job: {longest[0]:.0f} seconds, {' '.join(longest[1] or ())}")


def main():
    words = argparse.ArgumentParser(description=__doc__.split("\n")[0])
    words.add_argument("--log", default="gate.log")
    log = os.path.abspath(words.parse_args().log)
    with tempfile.TemporaryDirectory(prefix="gate-") as room:
        repo = f"{room}/repo"
        subprocess.run(["git", "clone", "-q", "--no-hardlinks", TOP, repo], check=True)
        watch, status, clock, whole = run(repo, log)
        tell(repo, watch, clock, whole)
    with open(log) as file:
        print(file.read().rstrip("\n").rsplit("\n", 1)[-1])
    return status


if __name__ == "__main__":
    sys.exit(main())
