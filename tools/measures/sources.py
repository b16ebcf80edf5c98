"""Prints two checksums, a line each, over all that the program of a name is built from: of code and definitions, and
of proofs. With `kept` it leaves them in the program's out/ too, dated before it looked."""
import hashlib
import os
import pathlib
import re
import tempfile

TOP = os.path.dirname(os.path.dirname(os.path.dirname(os.path.realpath(__file__))))


def crates():
    """Returns the lines of crates.txt, by the crate's name."""
    text = pathlib.Path(TOP, "crates.txt").read_text(encoding="utf-8")
    return {it[1]: it[0] for it in re.finditer(r"^([a-z0-9_]+)[ a-z]*:.*", text, re.M)}


def below(name):
    """Returns the names of a program and of all that it stands on, in order."""
    known, found, left = crates(), set(), [name]
    while left:
        name = left.pop()
        if name in known and name not in found:
            found.add(name)
            left += re.split("[: ]+", known[name])[1:]
    return sorted(found)


def checksum(text):
    """Returns the line that sha256sum prints of a text."""
    return f"{hashlib.sha256(text).hexdigest()}  -\n"


def listed(names, *parts):
    """Returns the lines that sha256sum prints of all files of these parts of some crates."""
    folders = (pathlib.Path(TOP, "crates", name, part) for name in names for part in parts)
    paths = [it for folder in folders for it in folder.rglob("*") if it.is_file() and not it.is_symlink()]
    sums = {os.fsencode(it.relative_to(TOP)): hashlib.sha256(it.read_bytes()).hexdigest() for it in paths}
    return b"".join(b"%s  %s\n" % (sums[it].encode(), it) for it in sorted(sums))


def sums(name):
    """Returns the two lines."""
    names, known = below(name), crates()
    handles = pathlib.Path(TOP, "HANDLES").read_bytes()
    rows = "".join(f"{it}\n" for it in sorted(known[it] for it in names))
    return checksum(handles + rows.encode() + listed(names, "src", "specs")) + checksum(listed(names, "proofs"))


def kept(name):
    """Returns the two lines, having left them in the program's out/, with the time before it looked."""
    folder = f"{TOP}/crates/{name}/out"
    os.makedirs(folder, exist_ok=True)
    with tempfile.NamedTemporaryFile(dir=folder) as begun:
        before, both = os.stat(begun.name), sums(name)
    part = f"{begun.name}.sums"
    pathlib.Path(part).write_text(both, encoding="ascii")
    os.utime(part, ns=(before.st_atime_ns, before.st_mtime_ns))
    os.replace(part, f"{folder}/sources")
    return both


def main(name, *words):
    """Prints the two lines."""
    try:
        both = kept(name) if words == ("kept",) else sums(name)
    except OSError:
        both = sums(name)
    print(both, end="")
