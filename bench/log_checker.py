#!/usr/bin/env python3
"""A checker of refutation logs that rests on docs/FORMATS.md alone, and its comparison with the built program.

    bench/log_checker.py [LOGS] [PROGRAM]

On each of its worlds, which have no selection, `resolve --proof` writes a log, and this checker has to accept it. Then logs are
changed at random, 1,000 in all, and of each the checker has to say what `check --proof` says: refuted, not accepted, or the first
bad line. Ends with status 1 at the first that isn't so. The checker is `read_log` and `Instance`; what is below them makes the
worlds, changes the logs and runs the program.
"""
import os
import random
import re
import subprocess
import sys
import tempfile

from program import ROOT, identifier, place, write

NUMBER = rb"(0|[1-9][0-9]*)"
FIRST = re.compile(rb"jlpkg-log 1 " + NUMBER)
NODE = re.compile(rb"(-|" + NUMBER + rb") (?:leaf|branch " + NUMBER + rb" " + NUMBER + rb")")


def numbers(found):
    """The numbers of a line, None for those that it hasn't; None where one isn't below 2^32."""
    them = [None if it in (None, b"-") else int(it) for it in found.groups()]
    return them if all(it is None or it < 2**32 for it in them) else None


def read_log(text):
    """The nodes, each as its state, its package and its number of children, the last two None at a leaf; or the first bad line."""
    lines = text.split(b"\n")
    rest = lines.pop()
    found = FIRST.fullmatch(lines[0]) if lines else None
    if not found or not numbers(found):
        return 1
    (count,) = numbers(found)
    nodes = []
    for line in lines[1 : count + 1]:
        found = NODE.fullmatch(line)
        if not found or not numbers(found) or (found[1] == b"-") != (not nodes) or found[4] == b"0":
            break
        nodes.append(numbers(found)[1:])
    whole = len(nodes) == count and len(lines) == count + 1 and not rest
    return nodes if whole else len(nodes) + 2


class Instance:
    """The instance of a world that says for each package and version which versions of its dependencies it takes."""

    def __init__(self, world, roots):
        names = sorted(roots)
        for name in names:
            for version in sorted(world[name]):
                names += [it for it in sorted(world[name][version]) if it not in names]
        self.versions = [sorted(world[it]) for it in names]
        self.takes = [[{names.index(dep): it for dep, it in world[name][v].items()} for v in sorted(world[name])] for name in names]
        # a package's last state is absent, which is forbidden alone for a root
        self.offered = [set(range(len(it) + (p >= len(roots)))) for p, it in enumerate(self.versions)]
        self.closed = self.closure(self.offered)
        self.kept = set(range(len(roots))) if all(self.closed) else set()
        while more := {q for p in self.kept for i in self.closed[p] for q in self.needs(p, i)} - self.kept:
            self.kept |= more
        left = [it if p in self.kept else it & {len(self.versions[p])} for p, it in enumerate(self.closed)]
        self.standing = [self.classes(left, p) for p in range(len(left))]

    def needs(self, p, i):
        return self.takes[p][i] if i < len(self.takes[p]) else {}

    def allowed(self, p, i, q, j):
        def takes(p, i, q, j):
            here = self.needs(p, i)
            return q not in here or (j < len(self.versions[q]) and self.versions[q][j] in here[q])

        return takes(p, i, q, j) and takes(q, j, p, i)

    def closure(self, domains):
        def stays(p, i):
            return all(q == p or any(self.allowed(p, i, q, j) for j in domains[q]) for q in range(len(domains)))

        closer = [{i for i in it if stays(p, i)} for p, it in enumerate(domains)]
        return domains if closer == domains else self.closure(closer)

    def classes(self, left, p):
        """For each state that is left the greatest one that allows the same states of every other package."""
        allows = {i: [{j for j in it if self.allowed(p, i, q, j)} for q, it in enumerate(left) if q != p] for i in left[p]}
        return {i: max(j for j in left[p] if allows[j] == allows[i]) for i in left[p]}

    def accepts(self, nodes):
        """Whether the nodes are one whole tree that refutes with nothing chosen."""
        missing = 1
        for seen, (_, _, children) in enumerate(nodes):
            missing += (children or 0) - 1
            if missing == 0:
                return seen == len(nodes) - 1 and self.refutes(nodes[::-1], {})
        return False

    def refutes(self, nodes, chosen):
        """Whether the tree on which the nodes end, the last one first, refutes; it is taken away."""
        left = self.closure([{i for i in it if chosen.get(p, i) == i} for p, it in enumerate(self.offered)])
        _, p, children = nodes.pop()
        if p is None:
            return not all(left)
        if p not in self.kept or p in chosen:
            return False
        covered = set()
        for _ in range(children):
            state = nodes[-1][0]
            if state > len(self.versions[p]) or not self.refutes(nodes, {**chosen, p: state}):
                return False
            covered.add(self.standing[p].get(state, state))
        return all(self.standing[p].get(i, i) in covered for i in left[p])


# ---- worlds without a selection, each with its roots

MUTUAL = {"A": {1: {"B": [2]}}, "B": {1: {"A": [2]}}}
CYCLE = {"X": {1: {"Y": [2], "Z": [2]}, 2: {"Y": [1], "Z": [1]}}, "Y": {1: {"Z": [2]}, 2: {"Z": [1]}}, "Z": {1: {}, 2: {}}}


def holes(count):
    """Packages with one version fewer than there are of them, of which no two may have the same."""
    names = [f"P{n}" for n in range(count)]
    versions = range(1, count)
    return {
        name: {v: {other: [it for it in versions if it != v] for other in names[n + 1 :]} for v in versions} for n, name in enumerate(names)
    }


def drawn(dice):
    """Packages with four versions, each of which needs some others and takes half of their versions."""
    names = [f"P{n}" for n in range(7)]
    return {name: {v: {it: dice.sample(range(1, 5), 2) for it in dice.sample(names, 3) if it != name} for v in range(1, 5)} for name in names}


def write_world(folder, world, roots):
    ids = {name: identifier(100 + n) for n, name in enumerate(sorted(world))}
    registry = os.path.join(folder, "depot", "registries", "World")
    lines = [f'{ids[it]} = {{ name = "{it}", path = "{it}" }}\n' for it in world]
    write(os.path.join(registry, "Registry.toml"), f'name = "World"\nuuid = "{identifier(1)}"\n[packages]\n' + "".join(lines))
    for name, versions in world.items():
        tables = {"Package": f'name = "{name}"\nuuid = "{ids[name]}"\n', "Versions": "", "Deps": "", "Compat": ""}
        for v, takes in versions.items():
            tables["Versions"] += f'["{v}.0.0"]\ngit-tree-sha1 = "{v:040x}"\n'
            tables["Deps"] += f'["{v}"]\n' + "".join(f'{it} = "{ids[it]}"\n' for it in takes)
            tables["Compat"] += f'["{v}"]\n' + "".join(f"{it} = {[str(n) for n in taken]}\n" for it, taken in takes.items())
        for table, text in tables.items():
            write(os.path.join(registry, name, table + ".toml"), text)
    write(os.path.join(folder, "project", "Project.toml"), "[deps]\n" + "".join(f'{it} = "{ids[it]}"\n' for it in roots))
    write(os.path.join(folder, "project", "Manifest.toml"), 'manifest_format = "2.0"\n')


# ---- changed logs


def changed(text, dice):
    """The text with a few changes of its lines, its numbers and its bytes; its count is mended half the time."""
    lines = text.split(b"\n")
    for _ in range(dice.choice((1, 1, 1, 2, 3))):
        at, other = dice.randrange(len(lines)), dice.randrange(len(lines))
        kind = dice.randrange(8)
        if kind == 0 and len(lines) > 1:
            del lines[at]
        elif kind == 1:
            lines.insert(at, lines[other])
        elif kind in (2, 3):
            lines[at], lines[other] = lines[other], lines[at]
        elif kind in (4, 5):
            number = dice.choice((b"0", b"1", b"2", b"3", b"7", b"00", b"4294967296", b"-", b""))
            lines[at] = re.sub(rb"[0-9]+", lambda it: it[0] if dice.random() < 0.5 else number, lines[at])
        elif lines[at]:
            spot = dice.randrange(len(lines[at]))
            lines[at] = lines[at][:spot] + dice.choice((b"", b" ", b"x", b"\n", b"\xff")) + lines[at][spot + (kind == 6) :]
    if dice.random() < 0.5:
        lines[0] = b"jlpkg-log 1 %d" % max(len(lines) - 2, 0)
    return b"\n".join(lines)


def remade(text, dice, dropped):
    """The text with the children of each branch in another order, which doesn't matter, and this share of them left out."""
    lines = text.split(b"\n")[:0:-1][1:]

    def tree():
        *words, last = lines.pop().split(b" ")
        if last == b"leaf":
            return [b" ".join(words + [last])]
        children = [tree() for _ in range(int(last))]
        dice.shuffle(children)
        kept = [it for it in children if dice.random() >= dropped] or children[:1]
        return [b" ".join(words + [b"%d" % len(kept)])] + sum(kept, [])

    nodes = tree()
    return b"jlpkg-log 1 %d\n" % len(nodes) + b"".join(it + b"\n" for it in nodes)


# ---- the comparison


def run(program, folder, *words):
    env = place(folder, os.path.join(folder, "project"), os.path.join(folder, "depot"))
    ended = subprocess.run([program, *words], cwd=folder, env=env, capture_output=True, check=False)
    return (ended.stdout + ended.stderr).decode()


def verdict(instance, text, log):
    nodes = read_log(text)
    if isinstance(nodes, int):
        return f"error 3 BadFile {log} BadLog {nodes}\n"
    return "refuted\n" if instance.accepts(nodes) else f"error 13 Differs {log}\n"


def main():
    count = int(sys.argv[1]) if len(sys.argv) > 1 else 1000
    program = os.path.realpath(sys.argv[2]) if len(sys.argv) > 2 else os.path.join(ROOT, "crates", "jlpkg", "out", "jlpkg")
    dice, told, worlds = random.Random(28), {"refuted": 0, "Differs": 0, "BadLog": 0}, 0
    fixed = [(MUTUAL, ["A", "B"]), (CYCLE, ["X", "Y", "Z"]), (holes(4), ["P0", "P1", "P2", "P3"]), (holes(5), [f"P{n}" for n in range(5)])]
    while sum(told.values()) < count:
        world, roots = fixed.pop(0) if fixed else (drawn(dice), ["P0", "P1"])
        with tempfile.TemporaryDirectory() as folder:
            write_world(folder, world, roots)
            log = os.path.join(os.path.realpath(folder), "log")
            if not run(program, folder, "resolve", "--proof", "log").startswith("error 6 "):
                continue
            worlds += 1
            with open(log, "rb") as file:
                written = file.read()
            instance = Instance(world, roots)
            texts = [written] + [remade(written, dice, share) for share in [0] * 10 + [0.1] * 30] + [changed(written, dice) for _ in range(59)]
            for text in texts[: count - sum(told.values())]:
                write(log, text)
                ours, theirs = verdict(instance, text, log), run(program, folder, "check", "--proof", "log")
                if ours != theirs or (text == written and ours != "refuted\n"):
                    sys.exit(f"{text!r} of {world} with the roots {roots}: the program says {theirs!r}, the checker {ours!r}")
                name = next(it for it in told if it in ours)
                told[name] += 1
    print(f"{count} logs of {worlds} worlds: " + ", ".join(f"{number} {name}" for name, number in told.items()))


if __name__ == "__main__":
    main()
