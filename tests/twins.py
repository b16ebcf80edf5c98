"""Tries edits of a crate that must fail, as many in one check as can be: tests/edits calls it.

docs/GATE.md tells the way. An edit is refused where a function that it changes (the law that it
names) is not proved for a reason of its own, in one arm of several where a goal of that arm is not;
one of which no check says so is tried alone, over the whole crate. Beside twins a check tries a
right body, which must be proved.
"""
import collections
import copy
import glob
import os
import pathlib
import re
import shutil
import sys
import tempfile

from programs import TOP, read, write

sys.path.insert(0, f"{TOP}/tools")
from toolchain import CYCLE, HOLE, REFUSED_ANSWER, RIGHT, THE_HOLE, Said
from toolchain import as_library, checked, functions_of, refused_alone

# The root of a library, that of a program, and the function that is a program's alone.
ROOT, PROGRAM_ROOT, MAIN = "src/lib.rt", "src/main.rt", ("main",)
# A body of any type, which control would have to be proved not to reach.
NO_BODY = "unreachable!()"
# The law that an edit outside of functions makes false.
LAW = re.compile(r"^law: (\S+)$", re.M)
# What begins an arm of a match: the name of what it takes. What may be of an arm's condition.
TAKES, CONDITION = re.compile(r" *(?:\w+::)+(\w+)"), re.compile(r"\bif\b([^{]*$|.*=>)")


def twin_of(function, number):
    """Returns a function's twin with this number, which is of no cycle of calls."""
    *within, name = function.path
    return function._replace(path=(*within, f"{name}_edit_{number}"), cycle=None)


def arms_of(function, lines):
    """Returns the arms of a function that is one match, by the names of what they take: the places
    of an arm's lines. None of one of another form, or where two arms may take a case, or a name
    stands in two."""
    body = lines[function.body + 1 : function.last] or [""]
    indent, inside = re.match(" *", body[0])[0], body[1:-1]
    begins = [at for at, it in enumerate(inside) if it[len(indent) + 4 :][:1] not in " })|"]
    takes = [TAKES.match(inside[at]) for at in begins]
    is_one = body[0].startswith(f"{indent}match ") and body[-1] == indent + "}"
    is_one = is_one and all(it.startswith(indent + "    ") for it in inside)
    if not is_one or not all(takes) or any(map(CONDITION.search, inside)):
        return {}
    places = [function.body + 2 + at for at in (*begins, len(inside))]
    arms = {it[1]: range(*pair) for it, pair in zip(takes, zip(places, places[1:]))}
    count = lambda name, lines: len(re.findall(rf"\b{name}\b", "\n".join(lines)))
    is_own = (count(it, lines[a.start : a.stop]) == count(it, body) for it, a in arms.items())
    return arms if len(arms) == len(begins) and all(is_own) else {}


def of_name(function, name, lines):
    """Returns a function's lines of those of its file, under another name, behind an empty one."""
    made = lines[function.first : function.last + 1]
    at = function.head - function.first
    made[at] = made[at].replace(f"fn {function.path[-1]}", f"fn {name}", 1)
    return ["", *(it for it in made if not CYCLE.match(it))]


def of_one(text, name):
    """Returns what a cycle's proof says of the function of this name, as of one of no cycle."""
    own = rf"((?<![\w.-])|\bgoal\.)((?:invariant-|decreases-)?){name}-"
    parts = (it for it in text.split("\n\n") if "goal." not in it or re.search(own, it))
    text = re.sub(own, r"\1\2", "\n\n".join(parts))
    # an answer is given there what holds of each call of the cycle, too
    return re.sub(r"^(\S+(?: g)?) t c\b", r"\1 c", text, flags=re.M)


def cut(function, lines):
    """Takes a function's body out of the lines of its file, and the word that it is of a cycle."""
    body, last = function.body, function.last
    if body < last and " const fn " not in f" {lines[function.head]}":
        indent = lines[last][: -len("}")]
        lines[body + 1 : last] = [f"{indent}    {NO_BODY}", *[""] * (last - body - 2)]
    for number in range(function.first, function.head):
        if CYCLE.match(lines[number]):
            lines[number] = ""


class Text:
    """The text of a crate: its functions, and the lines of each file below its src/. A program is
    read as a library, without its main function: nothing is linked then."""

    def __init__(self, rt, crate):
        self.rt, self.crate, self.lines = rt, crate, {}
        self.root = PROGRAM_ROOT if crate.is_program else ROOT
        self.functions = functions_of(rt, crate.folder, self.root)
        for path in glob.glob(f"{crate.folder}/src/**/*.rt", recursive=True):
            self.lines[os.path.relpath(path, crate.folder)] = read(path).decode().split("\n")

    def around(self, file, line):
        """Returns the function in whose body a line is, or None."""
        around = (it for it in self.functions if it.file == file and it.body <= line <= it.last)
        return next(around, None)

    def folder(self, function):
        """Returns the folder of what is written of the proof of a function, or of its cycle."""
        *within, name = function.path
        folders = ["/".join(("proofs", *within, it)) for it in (f"+{function.cycle or name}", name)]
        return folders[not os.path.isdir(f"{self.crate.folder}/{folders[0]}")]

    def is_free(self, function):
        """Whether a function may have a twin: not where it calls itself, by an answer."""
        is_bound = not function.cycle and "+" in self.folder(function)
        return not (function.is_of_trait or is_bound)

    def put_hole(self, room, function):
        """Has a hole stand for a function's proof in a copy."""
        folder = f"{room}/proofs/{'/'.join(function.path)}"
        os.makedirs(folder, exist_ok=True)
        for name in ("Invariants.antt", "Answers.antt"):
            pathlib.Path(folder, name).unlink(missing_ok=True)
        path, name = ".".join(function.path), function.path[-1]
        write(f"{folder}/Proof.antt", HOLE.format(crate=self.crate.name, path=path, name=name))

    def put_twin(self, room, function, twin):
        """Has a twin's proof in a copy be what is written of its function's."""
        folders = [f"{self.folder(function)}/", f"proofs/{'/'.join(twin.path)}/"]
        modules = [f"Rattle.{self.crate.name}.{it.replace('/', '.')}" for it in folders]
        for path in glob.glob(f"{self.crate.folder}/{folders[0]}**/*.antt", recursive=True):
            made = f"{room}/{os.path.relpath(path, self.crate.folder).replace(*folders, 1)}"
            os.makedirs(os.path.dirname(made), exist_ok=True)
            text = read(path).decode().replace(*modules)
            write(made, of_one(text, function.path[-1]) if function.cycle else text)

    def end_offers(self, room, functions):
        """Has a check offer no answers for these functions of a copy that it does not prove."""
        for it in functions:
            folder = f"{room}/{self.folder(it)}"
            os.makedirs(folder, exist_ok=True)
            with open(f"{folder}/Answers.antt", "a", encoding="utf-8") as file:
                file.write(REFUSED_ANSWER)

    def put(self, room, lines, units, twins):
        """Makes a copy with these lines, which takes each function but those of these proofs by its
        contract, and has twins beside their functions, each with the lines that its file has for
        it."""
        for part in self.rt.rtlib.PARTS:
            if os.path.isdir(f"{self.crate.folder}/{part}"):
                shutil.copytree(f"{self.crate.folder}/{part}", f"{room}/{part}")
        os.makedirs(f"{room}/proofs", exist_ok=True)
        write(f"{room}/proofs/EditHole.antt", THE_HOLE)
        with open(f"{room}/proofs/Lib.antt", "a", encoding="utf-8") as it:
            it.write("\nmod EditHole\n")
        # those that stand behind come first: twins move what is behind them
        for it in sorted(self.functions, key=lambda it: -it.head):
            if it.path == MAIN:
                lines[it.file][it.first : it.last + 1] = [""] * (it.last + 1 - it.first)
            elif it.path not in units:
                self.put_hole(room, it)
                cut(it, lines[it.file])
            for twin, texts in twins.get(it, ()):
                behind = it.last + 1
                lines[it.file][behind:behind] = of_name(it, twin.path[-1], texts[it.file])
                self.put_twin(room, it, twin)
        for file, found in lines.items():
            write(f"{room}/{file}", "\n".join(found))
        os.rename(f"{room}/{self.root}", f"{room}/{ROOT}")


class Edit:
    """An edit: the lines of each file that it makes, and the function around each place that is
    other; those functions, or the laws that it names (none where it is to be tried alone), and the
    arm of each that it changes in the text itself."""

    def __init__(self, text, path):
        self.path, self.name = path, os.path.basename(path)
        texts = text.rt.read_edit(path, text.crate.folder)[0] or {}
        self.lines = {file: it.split("\n") for file, it in texts.items()}
        self.around = {}
        for file, made in self.lines.items():
            for at, (old, new) in enumerate(zip(text.lines.get(file, [None]), made)):
                if old != new:
                    self.around[file, at] = text.around(file, at)
        laws = LAW.findall(read(path).decode())
        self.laws = [it for it in text.functions if "::".join(it.path) in laws]
        functions = self.laws or [*dict.fromkeys(self.around.values())]
        is_told = all(it and it.path != MAIN for it in functions)
        self.functions = functions if is_told else []
        self.is_free = not self.laws and all(map(text.is_free, self.functions))
        placed = () if self.is_free else self.functions
        self.arms = {it: None if self.laws else self.arm(text, it) for it in placed}
        self.size = sum(it.last - it.body for it in self.functions)

    def as_right(self, text):
        """Returns an edit of the same functions that leaves all as it is."""
        made = copy.copy(self)
        made.lines = text.lines
        return made

    def arm(self, text, function):
        """Returns the name of the arm of a function that holds all that this edit changes there, if
        a goal of the arm can be told: where none has an answer, which goes by the goal's number.
        None where that is the whole function."""
        arms, made = (arms_of(function, it.lines[function.file]) for it in (text, self))
        ours = [at for (_, at), it in self.around.items() if it == function]
        within = (name for name, arm in arms.items() if all(at in arm for at in ours))
        has_answers = os.path.isdir(f"{text.crate.folder}/{text.folder(function)}")
        return next(within, None) if arms == made and not has_answers else None


def fits(edit, others):
    """Whether a check of other edits can tell of this one too."""
    for it, arm in edit.arms.items():
        arms = [other.arms[it] for other in others if it in other.arms]
        if arms and (arm in arms or None in (arm, *arms)):
            return False
    # what is outside of functions may mean something to each
    return not any(it.laws for it in (edit, *others))


def rounds_of(edits):
    """Returns edits in rounds, of each of which one check can tell."""
    rounds = []
    for edit in edits:
        home = next((it for it in rounds if fits(edit, it)), None)
        if home is None:
            rounds.append([edit])
        else:
            home.append(edit)
    return rounds


def rights(edits, tried, said):
    """Yields of each function of edits that leave all as it is whether a check says that it is
    proved, and a line that says so."""
    for it in (it for edit in edits for it in tried[edit]):
        words = said.words_of(it) or "nothing is said of it"
        yield bool(RIGHT.match(words)), f"right {said.symbol(it)}: {words[:160]}"


class Tester:
    """Tries edits of a crate, over what checks kept."""

    def __init__(self, rt, text, kept):
        self.rt, self.crate, self.text, self.kept = rt, text.crate, text, kept
        self.controls = []

    def check(self, edits, keeping=()):
        """Returns what stands in a check's text for the functions of each of these edits, with the
        arm that it changes, and what the check says."""
        lines, tried = {file: [*it] for file, it in self.text.lines.items()}, {}
        units, twins = set(), collections.defaultdict(list)
        for number, edit in enumerate(edits):
            tried[edit] = edit.arms
            if edit.is_free:
                tried[edit] = {twin_of(it, number): None for it in edit.functions}
                for function, twin in zip(edit.functions, tried[edit]):
                    twins[function].append((twin, edit.lines))
                continue
            units.update(it.path for it in edit.functions)
            for file, at in edit.around:
                lines[file][at] = edit.lines[file][at]
        with tempfile.TemporaryDirectory(prefix="edits-") as room:
            self.text.put(room, lines, units, twins)
            wrong = (found for edit, found in tried.items() if edit.lines != self.text.lines)
            self.text.end_offers(room, {it for found in wrong for it in found})
            paths = sorted({"::".join(it.path) for found in tried.values() for it in found})
            only = (word for it in paths for word in ("--only", it))
            flags = ["--allow-holes", *only, *keeping]
            _, text, took = checked(self.rt, as_library(self.crate), flags, room)
            print(f"times {self.crate.name}: {len(edits)} edits, {took}", flush=True)
            found = functions_of(self.rt, room, ROOT)
            return tried, Said(self.crate.name, text, found)

    def refusals(self, edits):
        """Returns what checks say of those edits that they refuse: with all, then the others."""
        refused, rounds = {}, rounds_of(edits)
        # what one check has made of the crate's lemmas serves the next
        keeping = ["--incremental", self.kept] if rounds[1:] else []
        for trial in rounds:
            free = sorted((it for it in trial if it.is_free), key=lambda it: it.size)
            control = [it.as_right(self.text) for it in free[:1]]
            tried, said = self.check([*trial, *control], keeping)
            self.controls += rights(control, tried, said) if said.functions else ()
            for edit, it, arm in ((edit, *it) for edit in trial for it in tried[edit].items()):
                why = said.refusal(it, arm)
                refused.update({edit: f"{said.symbol(it)}: {why[:160]}"} if why else {})
        rest = [it for it in edits if it not in refused]
        # a call of a function that was refused is not judged; where none was refused, one of them
        # may keep the whole text from being read
        parts = [rest] if refused else [rest[::2], rest[1::2]] if len(rest) > 1 else []
        for part in filter(None, parts):
            refused.update(self.refusals(part))
        return refused

    def results(self, edits):
        """Yields of edits, and of right bodies beside them, the edit (or None), whether it is as it
        must be, and a line that says so."""
        refused = self.refusals([it for it in edits if it.functions])
        for edit in edits:
            line = f"must-fail {self.crate.name}/{edit.name}: refused, as it must be: "
            is_refused = edit in refused and (True, line + refused[edit])
            yield edit, *(is_refused or refused_alone(self.rt, self.crate, edit.path, self.kept))
        for it in self.controls:
            yield None, *it

    def rights(self, edits):
        """Yields the same of right bodies in the place of these edits."""
        for trial in rounds_of([it.as_right(self.text) for it in edits if it.functions]):
            for it in rights(trial, *self.check(trial)):
                yield None, *it
