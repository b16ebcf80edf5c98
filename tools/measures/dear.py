"""Tells where the time of a crate's proof goes: checks the crate from nothing with one job, its
tests too if it has any, over the libraries that `rt check` has built of those below it, and prints
the functions, types and files of lemmas that took longest, in seconds, with their dearest parts.

usage: tools/measure dear CRATE [COUNT]

A check writes a file for each part as it ends with it, so what a part took is the time since the
file before. `Lts` is the derivation of what a body borrows and drops, `Proof` are its goals,
`Answers` those that the crate answers itself. What is loaded on the way counts for the part that
asks for it first.
"""
import collections
import itertools
import pathlib
import re
import sys
import tempfile

from making import TOP
from toolchain import DEAR, checked, crate_of, script

# How many are told, and how many parts of each.
COUNT, PARTS = 30, 3
# The name of a file that holds what a check found: of a part of a function's proof, or of a file.
FOUND = re.compile(
    r"(?:Rattle-)?(.*?)(?:\.((?:Answers|Code|Given|Goals|Invariants|Key|Kinds|Layout|Lts|Met|Named"
    r"|Proof|Reads|Tie)(?:-[^.]*)?))?(?:\.decls)?\.oantt"
)


def tell(folder, count):
    """Prints what took longest, by the files of a folder."""
    took = collections.defaultdict(collections.Counter)
    files = pathlib.Path(folder).rglob("*.oantt")
    ended = sorted((it.stat().st_mtime_ns, it.name) for it in files)
    for (before, _), (now, name) in itertools.pairwise(ended):
        whole, part = FOUND.fullmatch(name).groups("")
        took[whole][part] += (now - before) / 1e9
    dearest = sorted(((it.total(), name) for name, it in took.items()), reverse=True)
    for seconds, name in dearest[:count]:
        parts = [f"{part} {it:.1f}" for part, it in took[name].most_common(PARTS) if part]
        print(f"{seconds:8.1f} {name}", *[f"({', '.join(parts)})"] * bool(parts))


def main(name="--help", count=COUNT):
    """Checks the crate and says what its parts took; returns the exit status."""
    if name == "--help":
        return __doc__
    rt = script("dear", DEAR)
    crate = rt and crate_of(rt, TOP, name)
    if not crate:
        sys.exit(f"dear: nothing was checked of {name}")
    with tempfile.TemporaryDirectory() as folder:
        flags = ["--incremental", folder, *["--test"] * bool(crate.has_tests())]
        status, text, _ = checked(rt, crate, flags, crate.folder)
        print(text if status else "", end="")
        tell(folder, int(count))
    return status
