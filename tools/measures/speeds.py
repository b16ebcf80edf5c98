"""Measures how fast the program steps and how much it holds, and prints tables, all or some of
them: docs/MEASUREMENTS.md has the last ones.

usage: tools/measure speeds [PROGRAM [instructions|steps|whole ...]]

It builds nothing. The program is run as an analyst runs it, over a model, its data and commands:
RUN to the end, BACK to the start, and RUN to the end again. What a way takes is the processor time
of a process that goes it less that of one that ends before it; how many steps it has, the answers
tell. Each figure is the least of RUNS runs (3 where RUNS is not set). Instructions are counted by
callgrind (valgrind), once: neither the load of the machine nor its speed changes them. Which models
each table has, tests/answers/speeds.tsv says; they stand in tests/models, since tests/runs runs
them too; the data of each are TURNS, SIZE, and then SIZE times the number 1.
"""
import itertools
import os
import re
import resource
import subprocess
import sys

sys.path.insert(0, f"{os.path.dirname(os.path.realpath(__file__))}/../../tests")
from programs import ROOM, TOP, built, own, read, rows

RUNS = int(os.environ.get("RUNS", "3"))
# How a process is run: so that its file tells the most KiB that it held, with no share of this
# one's, or how many instructions it executed.
FILE = f"{ROOM}/told"
HELD = ["/usr/bin/time", "-o", FILE, "-f", "%M"]
COUNTED = ["valgrind", "-q", "--tool=callgrind", f"--callgrind-out-file={FILE}"]
# The commands of each way. A movement has at most a million steps; one from an end stays there.
MOVES = 9
ONWARD, HOMEWARD = ["RUN"] * MOVES, ["BACK 1000000"] * MOVES
# The last answer of each way, where all of them are as they should be.
END_START_END = r"(HALTED: STATE (\d+) CLOCK \d+ FINISHED .*)\nSTART: STATE 0 CLOCK 0 .*\n\1"
# What the processes do whose times are subtracted from each other, and those whose instructions.
WAYS = {
    "none": [],
    "RUN to the end": ONWARD,
    "the same, BACK to the start": ONWARD + HOMEWARD,
    "the same, RUN to the end": ONWARD + HOMEWARD + ONWARD,
}
SHORT_WAYS = [["SHOW CLOCK"], ["RUN"], ["RUN", "BACK 1000000"]]


def spent():
    """Returns the processor seconds of all processes that have ended."""
    return sum(resource.getrusage(resource.RUSAGE_CHILDREN)[:2])


class Case:
    """A program and a model with its data."""

    def __init__(self, program, model, turns, size):
        self.program, self.columns = program, (model, turns, size)
        self.data = f"{turns} {size}{' 1' * int(size)}\n"

    def run(self, tool, commands):
        """Runs it under a tool; returns the processor's seconds, what the tool's file says, and
        what the commands are answered."""
        model = f"{TOP}/tests/models/{self.columns[0]}.sim"
        files, before = own(self.data, "\n".join([*commands, ""])), spent()
        wrote = subprocess.check_output([*tool, self.program, model, *files], text=True)
        return spent() - before, read(FILE).decode(), wrote

    def ways(self):
        """Returns, for each way, the least seconds that a process took for it, and the least of the
        most KiB that one held."""
        rounds = [[self.run(HELD, it) for it in WAYS.values()] for _ in range(RUNS)]
        return [(min(it)[0], min(int(held) for _, held, _ in it)) for it in zip(*rounds)]

    def steps(self):
        """Returns how many steps there are to the end, having seen that all ways lead where they
        should."""
        *_, wrote = self.run([], [*WAYS.values()][-1])
        ends = "\n".join(wrote.split("\n")[MOVES - 1 : 3 * MOVES : MOVES])
        found = re.fullmatch(END_START_END, ends)
        return int(found[2]) if found else sys.exit(f"speeds: {self.columns} leads to:\n{ends}")

    def tell_steps(self):
        """Yields how fast its steps are, and what they hold."""
        steps, found = self.steps(), self.ways()
        held, idle = found[-1][1], Case(self.program, "empty", 1, 1).ways()[-1][1]
        pairs = itertools.pairwise(seconds for seconds, _ in found)
        rates = [f"{steps / (after - before) / 1e6:.1f}" for before, after in pairs]
        yield *self.columns, steps, *rates, held // 1024, (held - idle) * 1024 // steps

    def tell_instructions(self):
        """Yields how many instructions a step takes, forward and back."""
        told = [self.run(COUNTED, it)[1] for it in SHORT_WAYS]
        counts = [int(re.search(r"^(?:summary|totals): (\d+)", it, re.M)[1]) for it in told]
        steps, pairs = self.steps(), itertools.pairwise(counts)
        yield *self.columns, steps, *(round((after - before) / steps) for before, after in pairs)

    def tell_whole(self):
        """Yields what whole processes take."""
        for name, (seconds, held) in zip(WAYS, self.ways()):
            yield name, f"{seconds:.2f}", held // 1024


# The tables: what each tells, its head, and the call that yields the rows of a case.
STEPS = "Million steps a second each way; the most MiB held, and what that is a step"
WHOLE = "The program on the bank with 100,000 customers and one teller"
MODEL = "Model TURNS SIZE Steps Forward Back".split()
TABLES = {
    "instructions": ("Instructions a step", MODEL, Case.tell_instructions),
    "steps": (STEPS, [*MODEL, "Again", "MiB", "Bytes a step"], Case.tell_steps),
    "whole": (WHOLE, ["Commands", "Seconds", "MiB"], Case.tell_whole),
}


def main(program=built("simscript2"), *tables):
    """Prints these tables, or all."""
    if program == "--help" or not {*tables} <= {*TABLES}:
        return __doc__
    for table in tables or TABLES:
        what, head, tell = TABLES[table]
        print(f"\n{what}:\n\n| {' | '.join(head)} |\n|{'---|' * len(head)}")
        for name, *columns in rows("speeds.tsv"):
            if name == table:
                for cells in tell(Case(os.path.abspath(program), *columns)):
                    print(f"| {' | '.join(map(str, cells))} |", flush=True)
    return 0
