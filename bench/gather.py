#!/usr/bin/env python3
"""Times the gathering of a book over a registry of General's size and shape, beside the reading of the same bytes as TOML.

Makes the registry, the standard libraries and a project in a temporary folder (`bench/general.py`), and a program that
stands on copies of this repository's crates and on the store of `jlpkg` over real folders; builds it with `rt`, and runs it:
it loads the catalog and gathers the book of the project, from the store or from one that keeps what was read, or it hands
each of the files that are read to the crate `toml`, or it reads their bytes alone. Each line is the quickest of three runs.
Needs `rt` on the path and `/usr/bin/time`.
"""
import os
import shutil
import sys
import tempfile

from built import TOP, built, quickest, write
from general import LIBRARIES, REACHED, REACHED_VERSIONS, general

MAIN = r"""//! Gathers the book of a project, or reads a list of files.
#![tactic(auto)]

mod host_store;

use anyhow::Result;
use host_store::HostStore;
use offer_book::gather;
use offer_catalog::{BookFault, Catalog};
use offer_terms::{Book, Demand, FixedList};
use pkg_world::{Home, Ids, Listed, NormPath, NormPaths, PathFault, Place, Store};
use project_file::Project;
use project_places::{EnvFault, manifest_at, project_at};
use read_once::ReadOnce;
use std::alloc::{AllocError, Global};
use std::rt::Files;
use std::{env, fs};

/// Why there is no book.
#[derive(Drop)]
enum Lost {
    Path,
    Project,
    Book(BookFault),
    Memory,
}

impl From<AllocError> for Lost {
    fn from(_none: AllocError) -> Lost {
        Lost::Memory
    }
}

fn below(alloc: Global, root: &str, text: &str) -> Result<NormPath, Lost> {
    match NormPath::join(alloc, &NormPath::root(alloc), root) {
        Ok(root) => match NormPath::join(alloc, &root, text) {
            Ok(path) => Ok(path),
            Err(_) => Err(Lost::Path),
        },
        Err(_) => Err(Lost::Path),
    }
}

fn place_at(alloc: Global, root: &str) -> Result<Place, Lost> {
    let mut depots = NormPaths::make(alloc);
    let depot = below(alloc, root, "depot")?;
    depots.push(depot)?;
    Ok(Place {
        cwd: below(alloc, root, "project")?,
        depots,
        load_path: None,
        project: None,
        stdlib: Some(below(alloc, root, "stdlib")?),
        julia: [1, 11, 2],
    })
}

fn demand_of(alloc: Global, project: &Project) -> Result<Demand, AllocError> {
    Ok(Demand {
        roots: project.deps.copy(alloc)?,
        own: None,
        compat: Listed::make(alloc),
        pins: Listed::make(alloc),
        held: Listed::make(alloc),
        fixed: FixedList::make(alloc),
        julia: [1, 11, 2],
    })
}

fn project_of<S: Store>(alloc: Global, store: &mut S, home: &Home) -> Result<Project, Lost> {
    match project_at(alloc, store, &home.project) {
        Ok(Some(project)) => Ok(project),
        Ok(None) => Err(Lost::Project),
        Err(_) => Err(Lost::Project),
    }
}

fn book_of<S: Store>(
    alloc: Global,
    store: &mut S,
    place: &Place,
    home: &Home,
    project: &Project,
) -> Result<Book, Lost> {
    match manifest_at(alloc, store, &home.manifest) {
        Ok(manifest) => match Catalog::load(alloc, store, place, home, project, &manifest) {
            Ok(catalog) => book_in(alloc, store, &catalog, project),
            Err(fault) => Err(Lost::Book(fault)),
        },
        Err(_) => Err(Lost::Project),
    }
}

fn book_in<S: Store>(
    alloc: Global,
    store: &mut S,
    catalog: &Catalog,
    project: &Project,
) -> Result<Book, Lost> {
    let demand = demand_of(alloc, project)?;
    match gather(alloc, store, catalog, &demand, &Ids::make(alloc)) {
        Ok(book) => Ok(book),
        Err(fault) => Err(Lost::Book(fault)),
    }
}

fn home_at(alloc: Global, root: &str) -> Result<Home, Lost> {
    Ok(Home {
        project: below(alloc, root, "project/Project.toml")?,
        manifest: below(alloc, root, "project/Manifest.toml")?,
    })
}

fn gathered<S: Store>(alloc: Global, store: &mut S, root: &str) -> Result<Book, Lost> {
    let place = place_at(alloc, root)?;
    let home = home_at(alloc, root)?;
    match project_of(alloc, store, &home) {
        Ok(project) => book_of(alloc, store, &place, &home, &project),
        Err(lost) => Err(lost),
    }
}

fn offers_in(book: &Book) -> u64 {
    let mut offers: u64 = 0;
    for package in 0..book.packages() {
        offers = offers.wrapping_add(book.offers(package).len() as u64);
    }
    offers
}

fn told(rt: HostRuntime, found: Result<Book, Lost>) -> Result<()> {
    match found {
        Ok(book) => {
            let packages = book.packages();
            let offers = offers_in(&book);
            println!(rt; "{packages} {offers}")?;
        }
        Err(Lost::Path) => println!(rt; "no path")?,
        Err(Lost::Project) => println!(rt; "no project")?,
        Err(Lost::Book(fault)) => println!(rt; "{fault:?}")?,
        Err(Lost::Memory) => println!(rt; "no memory")?,
    }
    Ok(())
}

fn keys_in(alloc: Global, bytes: &[u8]) -> u64 {
    match toml::de::table_from_slice(alloc, bytes) {
        Ok(table) => table.len() as u64,
        Err(_) => 0,
    }
}

fn files_read(rt: HostRuntime, list: &str, parsed: bool) -> Result<()> {
    let mut bytes: u64 = 0;
    let mut keys: u64 = 0;
    for path in list.lines() {
        let found = fs::read(&rt, path)?;
        bytes = bytes.wrapping_add(found.len() as u64);
        if parsed {
            keys = keys.wrapping_add(keys_in(rt.alloc(), found.as_slice()));
        }
    }
    println!(rt; "{bytes} {keys}")?;
    Ok(())
}

fn main(rt: HostRuntime) -> Result<()> {
    let alloc = rt.alloc();
    let mut words = env::args(&rt)?;
    let _name = words.next();
    let Some(what) = words.next() else {
        return Ok(());
    };
    let Some(path) = words.next() else {
        return Ok(());
    };
    if what.as_str() == "gather" {
        let mut store = HostStore::new(rt);
        let found = gathered(alloc, &mut store, path.as_str());
        return told(rt, found);
    }
    if what.as_str() == "once" {
        let mut store = ReadOnce::over(alloc, HostStore::new(rt));
        let found = gathered(alloc, &mut store, path.as_str());
        return told(rt, found);
    }
    let list = fs::read_to_string(&rt, path.as_str())?;
    files_read(rt, list.as_str(), what.as_str() == "toml")
}
"""

STANDS_ON = "offer_book offer_catalog offer_terms project_places project_file read_once pkg_world toml anyhow"


def host_store():
    """The files of the store over real folders, for a crate of another name."""
    found = {}
    folder = os.path.join(TOP, "crates", "jlpkg")
    for path in ("src/host_store.rt", "specs/Lib.antt", "specs/Reading.antt", "proofs/host_store/whole/Invariants.antt"):
        with open(os.path.join(folder, path), encoding="utf-8") as file:
            found[path] = file.read().replace("Rattle.jlpkg.", "Rattle.gather_bench.")
    return found


def main():
    top = tempfile.mkdtemp(prefix="gather-bench-")
    try:
        program = built(top, "gather_bench", STANDS_ON.split(), {"src/main.rt": MAIN, **host_store()})
        read = general(os.path.join(top, "world"))
        write(os.path.join(top, "list"), "".join(path + "\n" for path in read))
        world, listed = os.path.join(top, "world"), os.path.join(top, "list")
        want = f"{REACHED + LIBRARIES} {REACHED_VERSIONS + LIBRARIES}"
        print(f"{len(read)} files, {sum(map(os.path.getsize, read))} bytes; packages and offers: {want}")
        times = {}
        for what, path in (("gather", world), ("once", world), ("toml", listed), ("bytes", listed)):
            seconds, memory, last = quickest(program, what, path)
            if path == world and last != want:
                sys.exit(f"{what}: {last}")
            times[what] = seconds
            print(f"{what}: {seconds:.3f} s, {memory} KiB at most ({last})")
        for what in ("gather", "once"):
            print(f"{what} beside toml: {times[what] / times['toml']:.2f}")
    finally:
        shutil.rmtree(top)


if __name__ == "__main__":
    main()
