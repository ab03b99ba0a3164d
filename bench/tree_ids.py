#!/usr/bin/env python3
"""Compares the ids of `verify` with those of git on real folders, outside the merge gate: executables, nested and empty
folders, names of every kind of byte that git and the store both take. Skipped where git is missing."""
import os
import shutil
import subprocess
import sys
import tempfile

from program import ROOT, identifier, place, slug, write

NAMES = ["a", "a0", "a.b", "A", " b", "c d", "é", "\u2264", "-x", "tab\tname", "quote'\"", "new\nline", "~", "..c", "z.jl"]


def main():
    if shutil.which("git") is None:
        print("skipped: git is missing")
        return 0
    with tempfile.TemporaryDirectory() as folder:
        work = os.path.join(folder, "work")
        for number, name in enumerate(NAMES):
            write(os.path.join(work, name), f"file {number}\n")
            write(os.path.join(work, "deep", name + "_folder", name), b"\x00" * number)
        os.makedirs(os.path.join(work, "empty", "emptier"))
        write(os.path.join(work, "bin", "run"), "#!/bin/sh\n")
        os.chmod(os.path.join(work, "bin", "run"), 0o755)
        subprocess.run(["git", "init", "-q", work], check=True)
        subprocess.run(["git", "-C", work, "add", "-A"], check=True)
        tree = subprocess.check_output(["git", "-C", work, "write-tree"], text=True).strip()
        own = identifier(5)
        home = os.path.join(folder, "depot", "packages", "Big", slug(own, tree))
        os.makedirs(os.path.dirname(home))
        os.rename(work, home)
        project = os.path.join(folder, "project")
        write(os.path.join(project, "Project.toml"), "")
        stanza = f'manifest_format = "2.0"\n[[deps.Big]]\nuuid = "{own}"\ngit-tree-sha1 = "{tree}"\n'
        write(os.path.join(project, "Manifest.toml"), stanza)
        env = place(folder, project, os.path.join(folder, "depot"))
        words = [os.path.join(ROOT, "jlpkg"), "verify", "Big", "--exec", "bin/run"]
        told = subprocess.run(words, env=env, capture_output=True, text=True)
        want = f"verified Big {own} {tree}\n"
        print("the same as git" if told.stdout == want else f"another id: {told.stdout}{told.stderr}")
        return 0 if told.stdout == want else 1


if __name__ == "__main__":
    sys.exit(main())
