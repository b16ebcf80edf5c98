"""Prints a table of lines, a row a crate: code (src/), tests (all of a crate of tests), definitions
(specs/), proofs (proofs/); and the number of edits that must fail."""
import pathlib

from measures.sources import TOP, crates

HEAD = ["Crate", "Code", "Tests", "Definitions", "Proofs", "Edits"]


def lines(paths):
    """Returns how many lines some files have."""
    return sum(it.read_bytes().count(b"\n") for it in paths)


def row(crate):
    """Returns the row of a crate."""
    folder = pathlib.Path(TOP, "crates", crate)
    code = [*folder.glob("src/**/*.rt")]
    tests = [it for it in code if "tests" in f"{it.relative_to(TOP)}"]
    counts = [lines(it for it in code if it not in tests), lines(tests)]
    counts += [lines(folder.glob(f"{part}/**/*.antt")) for part in ("specs", "proofs")]
    return [crate, *counts, len([*folder.glob("**/*.edit")])]


def main():
    """Prints the table."""
    rows = [row(it) for it in crates()]
    total = ["all", *(sum(column) for column in list(zip(*rows))[1:])]
    print("| {:<12} | {:>6} | {:>6} | {:>11} | {:>6} | {:>5} |".format(*HEAD))
    print("|---|---|---|---|---|---|")
    for cells in [*rows, total]:
        print("| {:<12} | {:>6} | {:>6} | {:>11} | {:>6} | {:>5} |".format(*cells))
