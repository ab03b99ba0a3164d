#!/usr/bin/env python3
"""Times the reading and the printing of manifests.

Makes a program in a temporary folder that stands on copies of this repository's crates, builds it with `rt`, and runs it on
manifests of 5,000 and 10,000 stanzas: it reads the manifest, makes its table, and prints the file's table. The time without
the program's start is that of many rounds less that of none. Needs `rt` on the path and `/usr/bin/time`.
"""
import os
import shutil
import tempfile

from built import built, timed, write

MAIN = r"""//! Reads a manifest, makes its table, and prints the file's table, again and again.
#![tactic(auto)]

use anyhow::Result;
use manifest_file::{Manifest, ManifestFault};
use std::alloc::Global;
use std::{env, fs};
use toml_view::{PrintFault, ViewFault, print_table, view};

#[derive(Drop)]
enum Lost {
    Read,
    Memory,
}

fn made_again(alloc: Global, bytes: &[u8]) -> Result<u64, Lost> {
    let manifest = match Manifest::read(alloc, bytes) {
        Ok(manifest) => manifest,
        Err(_) => return Err(Lost::Read),
    };
    match manifest.to_table(alloc) {
        Ok(table) => Ok(table.len() as u64),
        Err(_) => Err(Lost::Memory),
    }
}

fn printed_again(alloc: Global, bytes: &[u8]) -> Result<u64, Lost> {
    match view(alloc, bytes) {
        Ok(table) => match print_table(alloc, &table) {
            Ok(text) => Ok(text.items().len() as u64),
            Err(PrintFault::BadDate) => Err(Lost::Read),
            Err(PrintFault::Memory) => Err(Lost::Memory),
        },
        Err(ViewFault::Memory) => Err(Lost::Memory),
        Err(_) => Err(Lost::Read),
    }
}

fn once(alloc: Global, what: &str, bytes: &[u8]) -> u64 {
    let made = if what == "read" {
        made_again(alloc, bytes)
    } else {
        printed_again(alloc, bytes)
    };
    made.unwrap_or(0)
}

fn main(rt: HostRuntime) -> Result<()> {
    let alloc = rt.alloc();
    let mut words = env::args(&rt)?;
    let _name = words.next();
    let Some(path) = words.next() else {
        return Ok(());
    };
    let Some(what) = words.next() else {
        return Ok(());
    };
    let times = match words.next() {
        Some(text) => text.as_str().parse::<u32>().unwrap_or(0),
        None => 0,
    };
    let bytes = fs::read(&rt, path.as_str())?;
    let mut last = 0;
    for _round in 0..times {
        last = once(alloc, what.as_str(), bytes.as_slice());
    }
    println!(rt; "{last}")?;
    Ok(())
}
"""


def manifest(count):
    """A manifest in which each package needs the three before it."""
    lines = ['julia_version = "1.11.2"', 'manifest_format = "2.0"', ""]
    for n in range(count):
        deps = ", ".join(f'"Package{d:05}"' for d in range(max(0, n - 3), n))
        lines.append(f"[[deps.Package{n:05}]]")
        if deps:
            lines.append(f"deps = [{deps}]")
        lines.append(f'git-tree-sha1 = "{n:040x}"')
        lines.append(f'uuid = "00000000-0000-4000-8000-{n:012}"')
        lines.append(f'version = "1.{n % 100}.{n % 7}"')
        lines.append("")
    return "\n".join(lines)


def main():
    top = tempfile.mkdtemp(prefix="manifest-bench-")
    try:
        program = built(top, "manifest_bench", ["manifest_file", "toml_view", "anyhow"], {"src/main.rt": MAIN})
        for count in (5000, 10000):
            path = os.path.join(top, f"Manifest{count}.toml")
            write(path, manifest(count))
            for what, done in (("read", "read, and made a table"), ("print", "viewed, and printed")):
                without, _, _ = timed(program, path, what, 0)
                seconds, memory, last = timed(program, path, what, 10)
                each = (seconds - without) / 10
                print(f"{count} stanzas, {os.path.getsize(path)} bytes, {done}: {each:.3f} s, {memory} KiB at most ({last})")
    finally:
        shutil.rmtree(top)


if __name__ == "__main__":
    main()
