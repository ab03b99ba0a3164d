#!/usr/bin/env python3
"""Times `resolve` over a registry of General's size and shape, beside the reading of the same bytes as TOML.

Makes the registry, the standard libraries and a project in a temporary folder (`bench/general.py`), for 100, 200 and 500
reached packages with 40 versions each on the average, runs the built program on it, and hands each of the files that it reads
to Python's `tomllib`, which is written in Python, and to the crate `toml` where `bench/gather.py` has built its program (its path
is the one word). Each time is the least of three runs. Needs `/usr/bin/time`.
"""
import os
import shutil
import sys
import tempfile

import general
from built import TOP, quickest, write

PROGRAM = os.path.join(TOP, "crates", "jlpkg", "out", "jlpkg")


def at(top, reached):
    """A world of so many reached packages, the files that a run over it reads, and their bytes."""
    general.REACHED, general.REACHED_VERSIONS = reached, 40 * reached
    world = os.path.join(top, str(reached))
    read = general.general(world)
    write(os.path.join(top, f"list{reached}"), "".join(path + "\n" for path in read))
    return world, read, sum(map(os.path.getsize, read))


def main():
    top = tempfile.mkdtemp(prefix="resolve-bench-")
    try:
        for reached in (100, 200, 500):
            world, read, size = at(top, reached)
            os.environ.update(
                JULIA_PROJECT=os.path.join(world, "project"),
                JULIA_DEPOT_PATH=os.path.join(world, "depot"),
                JLPKG_STDLIB=os.path.join(world, "stdlib"),
                JLPKG_JULIA="1.11.2",
            )
            seconds, memory, last = quickest(PROGRAM, "resolve")
            print(f"{reached} reached: {len(read)} files, {size} bytes: {seconds:.3f} s, {memory} KiB at most ({last})")
            if len(sys.argv) > 1:
                peer, most, _ = quickest(sys.argv[1], "toml", os.path.join(top, f"list{reached}"))
                print(f"  the same bytes as TOML: {peer:.3f} s, {most} KiB at most; resolve beside it: {seconds / peer:.2f}")
    finally:
        shutil.rmtree(top)


if __name__ == "__main__":
    main()
