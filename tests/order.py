"""In which order tests/edits tries edits, and when no further check begins: what tests/tried says,
sums of what may have changed since, a rotating fifth of the crates, a sample, and the clock."""
import collections
import functools
import glob
import hashlib
import os
import re
import subprocess
import time

from programs import TOP, read, text_of, write

# Why an edit is tried, in this order; those of the first kind always are.
CHANGED, DEFINED, FIFTH, REST = range(4)
WHY = ("changed", "by their definitions", "of fifth {}", "of the others")
# The crate whose proof shows how fast a machine is, and what a log of `rt ci` says of a proof.
MEASURE, TOOK = "ss_words", re.compile(r"^(\w+) proved: (\d+) seconds", re.M)
# A part of a row of the table of docs/GATE.md: a crate, the seconds of its proof, of its edits.
PART = re.compile(r"(\w+) +(\d+)(?: {1,6}(\d+))?(?= |$)")
# Seconds of the processor: of a check before its first edit, of an edit, of the tests of programs;
# and of the longest chain of proofs that wait for one another.
BEFORE, EACH, TESTS, CHAIN = 10, 6, 300, 64 * 60
# How many edits `rt must-fail` tries too, how many of a crate at most, and how many seconds the
# proof of any crate but the first takes at most: it begins with a check of each.
SAMPLE, OF_CRATE, CHEAP = 20, 10, 250
# What a file uses of definitions: the crate, and the module, or the name of one of it.
USE = r"^ *(?:ghost )?use Rattle\.(\w+)\.specs\.([\w.]+\w)"
TRIED = f"{TOP}/tests/tried"
HEAD = """\
# What a run of ./test --all has tried, all refused: it decides in which order edits are tried.
# all AT BY: the commit, and a sum of what tries them. CRATE SUM ..: of each edit eight digits of
# the edit, its function and its proof, and eight of the definitions that its contract reaches.
"""


def sum_of(parts):
    """Returns a short sum of texts or bytes."""
    parts = [it if isinstance(it, bytes) else it.encode() for it in parts]
    return hashlib.sha256(b"".join(b"%d %s" % (len(it), it) for it in parts)).hexdigest()[:8]


def bare(text):
    """Returns a text without its lines of comments, which change no verdict."""
    return re.sub(rb"(?m)^[ \t]*(?://|--).*\n?", b"", text)


def files_below(folder):
    """Returns the names of a folder's files, and each file without comments."""
    found = sorted(filter(os.path.isfile, glob.glob(f"{folder}/**", recursive=True)))
    return [part for it in found for part in (os.path.relpath(it, folder), bare(read(it)))]


def own_sum(text, edit):
    """Returns a sum of an edit, of each function that it changes, with its contract, and of what is
    written of its proof; where it is of no function, of the files that it changes."""
    parts = [text.crate.name, os.path.basename(edit.path), read(edit.path)]
    for it in edit.functions:
        function = "\n".join(text.lines[it.file][it.first : it.last + 1])
        parts.append(bare(function.encode()))
        parts += files_below(f"{text.crate.folder}/{text.folder(it)}")
    for file in [] if edit.functions else sorted(edit.lines):
        parts += text.lines.get(file, [])
    return sum_of(parts)


@functools.lru_cache(maxsize=None)
def definitions(crate, module):
    """Returns the file of a module of definitions, also by the name of one of them; None where it
    is not of this repository, or follows from a declaration."""
    path = module.split(".")
    ends = ("/".join(path[:at]) for at in range(len(path), 0, -1))
    files = (f"{TOP}/crates/{crate}/specs/{it}.antt" for it in ends)
    return next(filter(os.path.isfile, files), None)


@functools.lru_cache(maxsize=None)
def reached(path):
    """Returns the files of definitions that a file reaches by what it uses, and these use."""
    found, left = set(), [path]
    while left:
        used = re.findall(USE, read(left.pop()).decode(), re.M)
        new = {definitions(*it) for it in used} - {None} - found
        found |= new
        left += new
    return found


@functools.lru_cache(maxsize=None)
def traits():
    """Returns the files that declare traits, by the trait's name."""
    found = collections.defaultdict(set)
    for path in glob.glob(f"{TOP}/crates/*/src/**/*.rt", recursive=True):
        for name in re.findall(r"\btrait (\w+)", read(path).decode()):
            found[name].add(path)
    return found


def contracts(text, function):
    """Returns the files that have a function's contract: its own, and those of its trait."""
    lines = text.lines[function.file]
    blocks = (it for it in reversed(lines[: function.head]) if re.match(r" *(unsafe )?impl\b", it))
    indent = lambda line: len(line) - len(line.lstrip())
    block = next((it for it in blocks if indent(it) < indent(lines[function.head])), "")
    names = re.findall(r"\b(\w+)(?:<[^{]*>)? for ", block)
    return {f"{text.crate.folder}/{function.file}"}, {it for one in names for it in traits()[one]}


def defined_sum(text, edit):
    """Returns a sum of the definitions that contracts of the functions of an edit reach by what
    their files use; where it is a trait's contract, of the files that declare the trait, too."""
    found = set()
    for it in edit.functions:
        own, declared = contracts(text, it)
        found |= declared.union(*map(reached, own | declared))
    return sum_of(part for it in sorted(found) for part in (os.path.relpath(it, TOP), bare(read(it))))


class Tried:
    """What tests/tried claims: at which commits, by what, and of each crate the edits' own sums,
    each with the sums of its definitions. Lines of two branches that were merged count both."""

    def __init__(self):
        self.commits, self.makers = [], set()
        self.sums = collections.defaultdict(lambda: collections.defaultdict(set))
        for line in filter(None, text_of(os.path.relpath(TRIED, TOP)).split("\n")):
            name, *words = line.split()
            if name == "all" and len(words) == 2:
                self.commits.append(words[0])
                self.makers.add(words[1])
            elif name != "#":
                for it in words:
                    self.sums[name][it[:8]].add(it[8:])

    def kind(self, crate, own, defined, maker):
        """Returns why an edit of these sums must be tried, or None where nothing changed."""
        if self.sums and own not in self.sums[crate]:
            return CHANGED
        is_same = maker in self.makers and defined in self.sums[crate][own]
        return None if is_same else DEFINED

    def at(self):
        """Says when all edits were last tried."""
        return f"all last tried at {', '.join(self.commits) or 'no commit'}"


def keep(sums, commit, maker):
    """Writes that all edits were tried: of each crate the pairs of sums of its edits."""
    lines = [f"all {commit} {maker}"]
    lines += [" ".join((name, *sorted(found))) for name, found in sorted(sums.items())]
    write(TRIED, HEAD + "\n".join(lines) + "\n")


def maker_sum(scripts):
    """Returns a sum of the scripts that try edits, and of the toolchain's own line."""
    return sum_of([*map(read, scripts), subprocess.check_output(["rt", "version"])])


def in_order(seed, names):
    """Returns names in an order that follows from a seed."""
    return sorted(names, key=lambda it: hashlib.sha256(f"{seed} {it}".encode()).digest())


class Costs:
    """What docs/GATE.md says that proofs and edits of crates take, in seconds of the processor."""

    def __init__(self, counts):
        self.counts, self.proof, self.of_edits = counts, {}, {}
        for line in re.findall("^    .*", text_of("docs/GATE.md"), re.M):
            for name, proof, edits in PART.findall(line):
                self.proof[name], self.of_edits[name] = int(proof), int(edits or 0)

    def edits(self, name, number):
        """Returns how long it takes to try so many edits of a crate together."""
        every = self.counts.get(name, number)
        whole = self.of_edits.get(name) or BEFORE + EACH * every
        first = min(BEFORE, whole / 4)
        return first + (whole - first) * number / max(1, every) if number else 0

    def fifths(self):
        """Returns the number of each crate's fifth, from 0: all take about as long."""
        sums, found = [0] * 5, {}
        for name in sorted(self.counts, key=lambda it: (-self.edits(it, self.counts[it]), it)):
            found[name] = sums.index(min(sums))
            sums[found[name]] += self.edits(name, self.counts[name])
        return found

    def sample(self, edits, seed):
        """Returns which edits `rt must-fail` tries too, of these of each crate, by its name: of a
        few crates, others by each seed."""
        found, room = {}, SAMPLE
        for name in in_order(seed, edits):
            if room and (not found or self.proof.get(name, 0) <= CHEAP):
                by_name = {it.name: it for it in edits[name]}
                chosen = in_order(f"{seed} {name}", by_name)[: min(room, OF_CRATE)]
                found[name] = [by_name[it] for it in chosen]
                room -= len(chosen)
        return found

    def speed(self, log):
        """Returns how many of this machine's seconds, by what its gate said of proofs, one of the
        table is; one where it has said nothing."""
        took = {name: int(it) for name, it in TOOK.findall(log) if name in self.proof}
        told = [MEASURE] if MEASURE in took else [*took]
        if not told:
            return 1
        return max(0.1, sum(took[it] for it in told) / sum(self.proof[it] for it in told))

    def expected(self, speed, lanes):
        """Returns how many minutes a gate takes, and how many of them its proofs: at this speed, so
        many checks side by side."""
        proofs, edits = (sum(it.values()) for it in (self.proof, self.of_edits))
        proved = max(CHAIN, proofs / lanes)
        whole = max(proved, (proofs + edits) / lanes) + TESTS
        return [round(it * speed / 60) for it in (whole, proved)]


class Clock:
    """The end of the time in which checks may begin: so many minutes after a beginning, in seconds
    since 1970; 0 is none."""

    def __init__(self, begun, minutes):
        self.end = begun + 60 * minutes if minutes else float("inf")

    def room(self, costs, name, number, speed):
        """Returns how many of so many edits of a crate a check can try until then."""
        left = (self.end - time.time()) / speed
        return next((it for it in range(number, 0, -1) if costs.edits(name, it) <= left), 0)
