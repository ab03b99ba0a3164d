"""A registry of the size and shape of General: 12,000 packages with 350,000 versions, their tables compressed by ranges.

The first 500 packages have 20,000 of the versions, and depend on each other and on standard libraries alone: a project that
depends on the first ten reaches them all. One version of each of them is drawn, and what these ask of each other they hold, so
that there is a selection.
"""
import os
import random
import uuid

PACKAGES, VERSIONS = 12000, 350000
REACHED, REACHED_VERSIONS = 500, 20000
ROOTS, LIBRARIES = 10, 60


def identifier(number):
    return str(uuid.uuid5(uuid.NAMESPACE_URL, str(number)))


def write(path, text):
    os.makedirs(os.path.dirname(path), exist_ok=True)
    with open(path, "w", encoding="utf-8") as file:
        file.write(text)


def package_name(number):
    return f"Package{number:05}"


def package_id(number):
    return identifier(100000 + number)


def library_name(number):
    return f"Library{number:02}"


def library_id(number):
    return identifier(5000 + number)


NUMBERS = {package_id(number): number for number in range(PACKAGES)}


def counts(packages, versions):
    """So many versions for each package, a few of them with many, together that many."""
    weights = [random.lognormvariate(0, 0.9) for _ in range(packages)]
    scale = versions / sum(weights)
    found = [min(300, max(1, round(it * scale))) for it in weights]
    while sum(found) != versions:
        one = random.randrange(packages)
        step = 1 if sum(found) < versions else -1
        left = abs(versions - sum(found))
        for other in range(one, min(packages, one + left)):
            if found[other] + step >= 1:
                found[other] += step
    return found


def versions_of(count):
    """Rising versions: mostly patches."""
    found, now = [], (0, 1, 0)
    for _ in range(count):
        found.append(now)
        drawn = random.random()
        major, minor, patch = now
        if drawn < 0.06:
            now = (major + 1, 0, 0)
        elif drawn < 0.3:
            now = (major, minor + 1, 0)
        else:
            now = (major, minor, patch + 1)
    return found


def bound(version, other):
    """The version's numbers, as few as tell it from the next one on that side."""
    if other is None or other[0] != version[0]:
        return str(version[0])
    if other[1] != version[1]:
        return f"{version[0]}.{version[1]}"
    return ".".join(map(str, version))


def heading(versions, first, last):
    """The range that holds the versions from the first place to the last, and no other of them."""
    low = bound(versions[first], versions[first - 1] if first else None)
    high = bound(versions[last], versions[last + 1] if last + 1 < len(versions) else None)
    return low if low == high else f"{low}-{high}"


def sections(versions, entries):
    """The text of a table, of entries with a first and a last place, a name and a value."""
    found = {}
    for first, last, name, value in entries:
        found.setdefault(heading(versions, first, last), []).append((name, value))
    parts = []
    for range_text in sorted(found):
        lines = "".join(f"{name} = {value}\n" for name, value in sorted(found[range_text]))
        parts.append(f'["{range_text}"]\n{lines}')
    return "\n".join(parts)


def allowed(kept):
    """What is allowed of a package: a range, or a list of them, which holds the kept version where one is given."""
    drawn = random.random()
    if kept:
        major, minor, patch = kept
        if drawn < 0.4:
            return f'"{major}"'
        if drawn < 0.7:
            return f'"{major}.{minor}-{major}"'
        if drawn < 0.85:
            return f'"{major}.{max(minor - 1, 0)}-{major}.{minor}"'
        return f'"{major}.{minor}.{patch}-{major}"'
    minor = random.randrange(9)
    if drawn < 0.4:
        return '"1"'
    if drawn < 0.6:
        return f'"0.{minor + 1}"'
    if drawn < 0.8:
        return f'["0.{minor + 1}-0.{minor + 3}", "1"]'
    return f'"1.{minor}.{random.randrange(5)}-1"'


def pieces(first, last, most):
    """The places from the first to the last, cut into at most so many pieces."""
    cuts = sorted({random.randint(first, last) for _ in range(random.randrange(most))} - {first})
    starts = [first] + cuts
    return list(zip(starts, [it - 1 for it in cuts] + [last]))


def needed(number):
    """The packages and libraries that a package depends on in some version; a reached one leads on to reached ones alone."""
    found = [it for it in range(number * 3 + ROOTS, number * 3 + ROOTS + 3) if number < it < REACHED]
    if number < REACHED:
        later = range(number + 1, REACHED)
    else:
        later = range(0, REACHED)
    found += random.sample(later, min(len(later), random.randrange(1, 7)))
    packages = [(package_name(it), package_id(it)) for it in dict.fromkeys(found)]
    libraries = random.sample(range(LIBRARIES), random.randrange(4))
    return packages, [(library_name(it), library_id(it)) for it in libraries]


def tables(number, each, kept):
    """The files of a package, each with its text. Of the reached packages `each` has the versions, and `kept` the place of one of
    them: these together meet all that they ask of each other."""
    versions = each[number]
    count = len(versions)
    packages, libraries = needed(number)
    deps, compat = [], []
    for place, (name, own) in enumerate(packages + libraries):
        first = 0 if place < 3 else random.randint(0, (count - 1) // 2)
        deps.append((first, count - 1, name, f'"{own}"'))
        if place < len(packages):
            for low, high in pieces(first, count - 1, 5):
                other = NUMBERS[own]
                meets = number < REACHED and low <= kept[number] <= high
                compat.append((low, high, name, allowed(each[other][kept[other]] if meets else None)))
    compat += [(low, high, "julia", f'"{random.choice(("1", "1.6-1", "0.7-1", "1.10-1"))}"') for low, high in pieces(0, count - 1, 4)]
    weak, weak_compat = [], []
    if random.random() < 0.1:
        first = random.randint(0, count - 1)
        weak.append((first, count - 1, "Weak", f'"{identifier(77)}"'))
        weak_compat.append((first, count - 1, "Weak", '"1"'))
    trees = (f'["{".".join(map(str, it))}"]\ngit-tree-sha1 = "{random.getrandbits(160):040x}"\n' for it in versions)
    name = package_name(number)
    files = {
        "Package.toml": f'name = "{name}"\nuuid = "{package_id(number)}"\nrepo = "https://example.org/{name}.jl.git"\n',
        "Versions.toml": "\n".join(trees),
        "Deps.toml": sections(versions, deps),
        "Compat.toml": sections(versions, compat),
        "WeakDeps.toml": sections(versions, weak),
        "WeakCompat.toml": sections(versions, weak_compat),
    }
    return {file: text for file, text in files.items() if text}


def general(folder):
    """Makes a depot, the folder of the standard libraries and a project, and gives the files that its book is gathered of."""
    random.seed(1)
    registry = os.path.join(folder, "depot", "registries", "General")
    each = [versions_of(it) for it in counts(REACHED, REACHED_VERSIONS) + counts(PACKAGES - REACHED, VERSIONS - REACHED_VERSIONS)]
    kept = [random.randrange(len(it) // 2, len(it)) for it in each]
    listed = [f'{package_id(it)} = {{ name = "{package_name(it)}", path = "P/{package_name(it)}" }}\n' for it in range(PACKAGES)]
    head = f'name = "General"\nuuid = "{identifier(1)}"\nrepo = "https://example.org/General.git"\n\n[packages]\n'
    own = os.path.join(registry, "Registry.toml")
    write(own, head + "".join(sorted(listed)))
    read = [own]
    for number in range(PACKAGES):
        for file, text in tables(number, each, kept).items():
            path = os.path.join(registry, "P", package_name(number), file)
            write(path, text)
            if number < REACHED:
                read.append(path)
    for number in range(LIBRARIES):
        path = os.path.join(folder, "stdlib", library_name(number), "Project.toml")
        after = "".join(f'{library_name(it)} = "{library_id(it)}"\n' for it in range(number + 1, min(LIBRARIES, number + 3)))
        write(path, f'name = "{library_name(number)}"\nuuid = "{library_id(number)}"\nversion = "1.11.0"\n\n[deps]\n{after}')
        read.append(path)
    path = os.path.join(folder, "project", "Project.toml")
    write(path, "[deps]\n" + "".join(f'{package_name(it)} = "{package_id(it)}"\n' for it in range(ROOTS)))
    return read + [path]
