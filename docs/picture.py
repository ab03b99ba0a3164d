#!/usr/bin/env python3
"""Draws the crates of crates.txt by layers, with what each stands on, into ARCHITECTURE.md beside this script.

An arrow that follows from others is left out. A crate that no layer names stops the script."""
import os
import re
import sys

HERE = os.path.dirname(os.path.realpath(__file__))
PAGE = f"{HERE}/ARCHITECTURE.md"
BEGIN, END = "```mermaid\n", "```\n"
LAYERS = {
    "The outside": "pkg_world",
    "Texts and values": "jl_versions compat_spec toml_view package_tables depot_hash",
    "Files": "project_file manifest_file registry_tables registered_offers",
    "Environments": "project_places home_files extension_rules entry_files env_maps import_lookup",
    "What is chosen among": "standard_libraries fixed_packages offer_terms package_offers offer_catalog offer_book selection_check package_names project_changes pkg_commands manifest_writing written_selection tree_extensions world_maker",
    "The resolver's core": "bit_rows lex_weights version_graph graph_pruning refutation_log maxsum_messages decimation_repair raise_pass instance_search book_graph resolve_core log_text alike_refutations",
    "The command": "command_answers file_replacing command_words offers_command home_commands project_phases log_check check_command resolve_lines edit_commands make_command pkg_top",
    "The edge": "read_once jlpkg",
    "Cases and tests": "worked_cases text_tests file_tests store_tests depot_tests graph_tests log_tests world_tests offer_tests selection_tests resolve_tests",
}


def crates():
    """Each crate with the crates of the repository that it stands on."""
    with open(f"{HERE}/../crates.txt", encoding="utf-8") as file:
        named = dict(re.findall(r"(?m)^(\w+)[^:\n]*:(.*)$", file.read()))
    return {crate: [it for it in below.split() if it in named] for crate, below in named.items()}


def below(stands_on, crate):
    """All crates below one."""
    found = set(stands_on[crate])
    return found.union(*(below(stands_on, it) for it in stands_on[crate]))


def picture(stands_on):
    lines = ["graph BT"]
    placed = set()
    for number, (layer, names) in enumerate(LAYERS.items()):
        here = [it for it in names.split() if it in stands_on]
        placed.update(here)
        lines += [f'  subgraph layer{number}["{layer}"]', *(f"    {it}" for it in here), "  end"]
    lost = sorted(stands_on.keys() - placed)
    if lost:
        sys.exit(f"these crates have no layer: {' '.join(lost)}")
    for crate, others in stands_on.items():
        needed = set(others).difference(*(below(stands_on, it) for it in others))
        lines += [f"  {crate} --> {it}" for it in others if it in needed]
    return "".join(f"{it}\n" for it in lines)


def main():
    with open(PAGE, encoding="utf-8") as file:
        page = file.read()
    before, rest = page.split(BEGIN, 1)
    after = rest.split(END, 1)[1]
    drawn = before + BEGIN + picture(crates()) + END + after
    with open(PAGE, "w", encoding="utf-8") as file:
        file.write(drawn)


if __name__ == "__main__":
    main()
