#!/usr/bin/env python3
"""Measures the built program on worlds that it makes in a temporary folder, beside its peers in the same run.

    bench/program.py [offers] [status] [stanzas] [verify]

offers: a registry of 12,000 packages, one of them with 400 versions and 40 sections in each table; the peer reads the bytes
of the same files. status: a project file with 1 MiB of dependencies, and one of 2 MiB. stanzas: `status`, and
`which` of the last dependency, with 5,000, 10,000 and 20,000 dependencies that each have a stanza. verify: an installed tree of 20,000
files and 200 MB; the peer is git, which hashes the same files and writes the tree. Each line is the least time of three
runs, with the most memory that the process had. Needs `/usr/bin/time`.
"""
import os
import random
import subprocess
import sys
import tempfile
import time
import uuid

ROOT = os.path.dirname(os.path.dirname(os.path.realpath(__file__)))
LETTERS = "ABCDEFGHIJKLMNOPQRSTUVWXYZabcdefghijklmnopqrstuvwxyz0123456789"


def identifier(number):
    return str(uuid.UUID(int=number + (4 << 76) + (8 << 60)))


def write(path, text):
    os.makedirs(os.path.dirname(path), exist_ok=True)
    with open(path, "wb") as file:
        file.write(text if isinstance(text, bytes) else text.encode())


def measured(words, env=None, cwd=None):
    """The least time of three runs in seconds, the most memory in KiB, and what was printed."""
    best, most, out = None, 0, b""
    for _ in range(3):
        with tempfile.NamedTemporaryFile() as memory:
            begin = time.monotonic()
            ended = subprocess.run(
                ["/usr/bin/time", "-q", "-o", memory.name, "-f", "%M"] + words,
                env=env,
                cwd=cwd,
                stdout=subprocess.PIPE,
                stderr=subprocess.STDOUT,
                check=False,
            )
            spent = time.monotonic() - begin
            most = max(most, int(memory.read().split()[-1]))
        out = ended.stdout
        best = spent if best is None else min(best, spent)
    return best, most, out


def place(folder, project, depot):
    env = {"PATH": os.environ["PATH"], "JULIA_PROJECT": project, "JULIA_DEPOT_PATH": depot, "HOME": folder}
    return env


def told(name, spent, most, note):
    print(f"{name}: {spent:.3f} s, {most} KiB at most, {note}")


def offers(folder):
    depot = os.path.join(folder, "depot")
    registry = os.path.join(depot, "registries", "Big")
    lines = ['name = "Big"', f'uuid = "{identifier(1)}"', "", "[packages]"]
    for n in range(12000):
        lines.append(f'{identifier(1000 + n)} = {{ name = "P{n:05}", path = "P/P{n:05}" }}')
    write(os.path.join(registry, "Registry.toml"), "\n".join(lines) + "\n")
    package = os.path.join(registry, "P", "P06000")
    own = identifier(7000)
    write(os.path.join(package, "Package.toml"), f'name = "P06000"\nuuid = "{own}"\n')
    versions = [(1, minor, patch) for minor in range(40) for patch in range(10)]
    text = "".join(f'["1.{a}.{b}"]\ngit-tree-sha1 = "{(a * 10 + b):040x}"\n' for (_, a, b) in versions)
    write(os.path.join(package, "Versions.toml"), text)
    deps = "".join(
        f'["1.{a}"]\n' + "".join(f'D{d:02} = "{identifier(20000 + d)}"\n' for d in range(10)) for a in range(40)
    )
    write(os.path.join(package, "Deps.toml"), deps)
    compat = "".join(
        f'["1.{a}"]\njulia = "1.6-1"\n' + "".join(f'D{d:02} = "1-2"\n' for d in range(10)) for a in range(40)
    )
    write(os.path.join(package, "Compat.toml"), compat)
    files = [os.path.join(registry, "Registry.toml")]
    files += [os.path.join(package, f) for f in ("Package.toml", "Versions.toml", "Deps.toml", "Compat.toml")]
    env = place(folder, folder, depot)
    spent, most, out = measured([os.path.join(ROOT, "jlpkg"), "offers", "P06000"], env)
    told("offers P06000", spent, most, f"{len(out.splitlines())} lines")
    base, base_most, _ = measured(["cat"] + files)
    told("reading the same files (cat)", base, base_most, f"{sum(map(os.path.getsize, files))} bytes")
    print(f"ratio: {spent / base:.1f}")


def status(folder):
    for mebibytes in (1, 2):
        project = os.path.join(folder, f"project{mebibytes}")
        lines, size, n = ["[deps]"], 0, 0
        while size < mebibytes * 1048576:
            line = f'Package{n:06} = "{identifier(n)}"'
            size += len(line) + 1
            n += 1
            lines.append(line)
        write(os.path.join(project, "Project.toml"), "\n".join(lines) + "\n")
        env = place(folder, project, os.path.join(folder, "none"))
        spent, most, out = measured([os.path.join(ROOT, "jlpkg"), "status"], env)
        told(f"status of {mebibytes} MiB of dependencies", spent, most, f"{len(out.splitlines())} lines")


def stanzas(folder):
    for count in (5000, 10000, 20000):
        project = os.path.join(folder, f"stanzas{count}")
        ids = [(f"Package{n:06}", identifier(n)) for n in range(count)]
        deps = "".join(f'{name} = "{own}"\n' for name, own in ids)
        write(os.path.join(project, "Project.toml"), "[deps]\n" + deps)
        text = "".join(f'[[deps.{name}]]\nuuid = "{own}"\nversion = "1.0.0"\npath = "dev/{name}"\n' for name, own in ids)
        write(os.path.join(project, "Manifest.toml"), 'manifest_format = "2.0"\n' + text)
        last = ids[-1][0]
        write(os.path.join(project, "dev", last, "src", last + ".jl"), "")
        env = place(folder, project, os.path.join(folder, "none"))
        for words in (["status"], ["which", last]):
            spent, most, out = measured([os.path.join(ROOT, "jlpkg")] + words, env)
            told(f"{words[0]} with {count} dependencies and stanzas", spent, most, f"{len(out.splitlines())} lines")


def crc32c(data):
    crc = 0xFFFFFFFF
    for byte in data:
        crc ^= byte
        for _ in range(8):
            crc = (crc >> 1) ^ (0x82F63B78 if crc & 1 else 0)
    return crc ^ 0xFFFFFFFF


def slug(own, tree):
    number = crc32c(uuid.UUID(own).bytes[::-1] + bytes.fromhex(tree))
    letters = ""
    for _ in range(5):
        letters += LETTERS[number % 62]
        number //= 62
    return letters


def verify(folder):
    random.seed(1)
    own = identifier(5)
    work = os.path.join(folder, "work")
    for n in range(20000):
        write(os.path.join(work, f"d{n % 200:03}", f"f{n:05}"), random.randbytes(10486))
    subprocess.run(["git", "init", "-q", work], check=True)
    begin = time.monotonic()
    subprocess.run(["git", "-C", work, "add", "-A"], check=True)
    tree = subprocess.check_output(["git", "-C", work, "write-tree"], text=True).strip()
    git = time.monotonic() - begin
    depot = os.path.join(folder, "depot2")
    home = os.path.join(depot, "packages", "Big", slug(own, tree))
    os.makedirs(os.path.dirname(home), exist_ok=True)
    os.rename(work, home)
    project = os.path.join(folder, "verified")
    write(os.path.join(project, "Project.toml"), f'[deps]\nBig = "{own}"\n')
    stanza = f'manifest_format = "2.0"\n[[deps.Big]]\nuuid = "{own}"\nversion = "1.0.0"\ngit-tree-sha1 = "{tree}"\n'
    write(os.path.join(project, "Manifest.toml"), stanza)
    env = place(folder, project, depot)
    spent, most, out = measured([os.path.join(ROOT, "jlpkg"), "verify", "Big"], env)
    told("verify of 20,000 files and 200 MB", spent, most, out.decode().strip())
    print(f"git add and git write-tree of the same files: {git:.3f} s; ratio: {spent / git:.2f}")
    peer, _, _ = measured(["sh", "-c", "find . -path ./.git -prune -o -type f -print | git hash-object --stdin-paths"], cwd=home)
    print(f"git hash-object of the same files: {peer:.3f} s; ratio: {spent / peer:.2f}")


def main():
    wanted = sys.argv[1:] or ["offers", "status", "stanzas", "verify"]
    subprocess.run([os.path.join(ROOT, "jlpkg"), "which"], stdout=subprocess.DEVNULL, stderr=subprocess.DEVNULL)
    for name in wanted:
        with tempfile.TemporaryDirectory() as folder:
            {"offers": offers, "status": status, "stanzas": stanzas, "verify": verify}[name](folder)


if __name__ == "__main__":
    main()
