#!/usr/bin/env python3
"""Kills the built program at random moments of runs that write a manifest, and looks at what is left.

    bench/kill.py [RUNS] [PROGRAM]

In a temporary folder stands a project of 200 packages, all of version 1 or all of version 2, as its compat says. Each of the
200 runs begins with the manifest of the one and the project of the other, and is killed at a moment drawn from the time that
such a run takes, every second time from the last fifth of it. Then the manifest has to be the old or the new bytes whole, and
a run that isn't killed has to write the new ones and to leave no other file. The end of a process is tested and no loss of
power: what the disk would hold then is up to the machine. Ends with status 1 at the first run that isn't so.
"""
import os
import random
import signal
import subprocess
import sys
import tempfile
import time

from program import ROOT, identifier, place, write

PACKAGES = 200
FILES = {"Manifest.toml", "Project.toml"}


def name(number):
    return f"P{number:03}"


def world(folder):
    """A registry in which each package needs the next one in its own version."""
    registry = os.path.join(folder, "depot", "registries", "Chain")
    lines = ['name = "Chain"', f'uuid = "{identifier(1)}"', "", "[packages]"]
    for n in range(PACKAGES):
        lines.append(f'{identifier(100 + n)} = {{ name = "{name(n)}", path = "{name(n)}" }}')
        files = {
            "Package": f'name = "{name(n)}"\nuuid = "{identifier(100 + n)}"\n',
            "Versions": "".join(f'["{v}.0.0"]\ngit-tree-sha1 = "{(n * 10 + v):040x}"\n' for v in (1, 2)),
        }
        if n + 1 < PACKAGES:
            files["Deps"] = f'["1-2"]\n{name(n + 1)} = "{identifier(101 + n)}"\n'
            files["Compat"] = "".join(f'["{v}"]\n{name(n + 1)} = "{v}"\n' for v in (1, 2))
        for file, text in files.items():
            write(os.path.join(registry, name(n), file + ".toml"), text)
    write(os.path.join(registry, "Registry.toml"), "\n".join(lines) + "\n")


def ask(folder, version):
    """The project that wants all packages in this version."""
    text = f'[deps]\n{name(0)} = "{identifier(100)}"\n\n[compat]\n{name(0)} = "{version}"\n'
    write(os.path.join(folder, "project", "Project.toml"), text)


class Runs:
    def __init__(self, folder, program):
        self.folder = folder
        self.words = [program, "resolve"]
        self.env = place(folder, os.path.join(folder, "project"), os.path.join(folder, "depot"))
        self.manifest = os.path.join(folder, "project", "Manifest.toml")

    def whole(self):
        """The bytes that a run writes which isn't killed, and its seconds."""
        begin = time.monotonic()
        ended = subprocess.run(self.words, env=self.env, capture_output=True, text=True, check=False)
        spent = time.monotonic() - begin
        if ended.returncode != 0:
            sys.exit(f"a run that isn't killed ends with {ended.returncode}: {ended.stderr.strip()}")
        with open(self.manifest, "rb") as file:
            return file.read(), spent

    def killed(self, moment):
        """Whether a run was killed that many seconds after its start, or had ended."""
        process = subprocess.Popen(self.words, env=self.env, stdout=subprocess.DEVNULL, stderr=subprocess.DEVNULL)
        time.sleep(moment)
        process.kill()
        return process.wait() == -signal.SIGKILL

    def left(self):
        """The files in the project's folder besides its own two."""
        return set(os.listdir(os.path.dirname(self.manifest))) - FILES


def try_one(runs, texts, moment, version):
    """Kills a run that goes over to this version; whether it was killed, whether the bytes are new, and what stood beside."""
    old, new = texts[3 - version], texts[version]
    write(runs.manifest, old)
    ask(runs.folder, version)
    was_killed = runs.killed(moment)
    with open(runs.manifest, "rb") as file:
        bytes_left = file.read()
    beside = runs.left()
    if bytes_left not in (old, new):
        sys.exit(f"killed after {moment:.4f} s: the manifest has {len(bytes_left)} bytes, which are neither the {len(old)} old nor the {len(new)} new ones")
    again, _ = runs.whole()
    if again != new:
        sys.exit(f"killed after {moment:.4f} s: the next run doesn't write the new manifest")
    if runs.left():
        sys.exit(f"killed after {moment:.4f} s: the next run leaves {sorted(runs.left())}")
    return was_killed, bytes_left == new, bool(beside)


def main():
    count = int(sys.argv[1]) if len(sys.argv) > 1 else 200
    program = os.path.abspath(sys.argv[2]) if len(sys.argv) > 2 else os.path.join(ROOT, "crates", "jlpkg", "out", "jlpkg")
    random.seed(1)
    with tempfile.TemporaryDirectory() as folder:
        world(folder)
        runs = Runs(folder, program)
        texts, spent = {}, 0.0
        for version in (1, 2, 1, 2):
            ask(folder, version)
            texts[version], spent = runs.whole()
        told = []
        for n in range(count):
            moment = spent * random.uniform(0.8 if n % 2 else 0.0, 1.1)
            told.append(try_one(runs, texts, moment, 1 + n % 2))
        killed = [it for it in told if it[0]]
        print(f"{count} runs of {spent:.3f} s, {len(killed)} of them killed: {sum(it[1] for it in killed)} with the new manifest and the others with the old one;")
        print(f"{sum(it[2] for it in killed)} left a file beside it, which the next run took away")


if __name__ == "__main__":
    main()
