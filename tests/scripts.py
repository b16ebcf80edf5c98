"""The cases of tests/prompt on READ FROM, LOG TO and RELOAD of ssdb, which work on files: each has a
folder of its own."""
import pathlib
import re
import subprocess
import tempfile

from programs import ROOM, TOP, blocks_of, refusals, run
from terminals import Terminal

# What is changed in the model of the page, and what a model is that is refused.
ANY, OPEN = "WITH N.LINE.UP(T) = LEAST", "WITH OPEN(T) = 1 AND N.LINE.UP(T) = LEAST"
REFUSED = "MAIN\nLOOP\nEND\n"
# A line after which it is clear that the lines before it are answered.
MARK, MARKED = b"SHOW VAR ZZ\n", b"NO VARIABLE ZZ\n"
# A model whose lines are counted, the lines that lead to its state 2, and where they lead.
MODEL = "MAIN\nLET X = 1\nLET Y = 2\nLET X = 3\nLET Y = 4\nSTOP\nEND\n"
THERE = b"BREAK 4 WHEN Y = 2\nBREAK 5\nRUN\nDISPLAY VAR X\n"
KEPT = b"BREAK 4 WHEN Y = 2 SET\nBREAK 5 SET\n"
PLACE = b"DONE: STATE 2 CLOCK 0 READY IN MAIN LINE 4\n4> LET X = 3\nCHANGED VAR Y: 0 -> 2\n"
SHOWN = b"DISPLAY VAR X SET\n"


class Folder:
    """A folder with a model and data, and further files, for one case."""

    def __init__(self, program, **files):
        self.path, self.program = pathlib.Path(tempfile.mkdtemp(dir=ROOM)), str(pathlib.Path(program).absolute())
        for name, text in {"model": MODEL, "data": "", **files}.items():
            self.write(name, text)

    def write(self, name, text):
        """Writes a text to a file of the folder."""
        (self.path / name).write_text(text, encoding="utf-8")

    def read(self, name):
        """Returns the bytes of a file of the folder."""
        return (self.path / name).read_bytes()

    def words(self):
        """Returns the words that start the program there."""
        return [self.program, "model", "data"]

    def told(self, lines):
        """Returns what is written if these lines come over a pipe."""
        how = {"cwd": self.path, "capture_output": True, "check": False, "timeout": 60}
        return subprocess.run(self.words(), input=lines, **how).stdout

    def parts(self, *parts):
        """Returns what is written over a pipe after each of these texts; a part that is none is
        called in its turn."""
        how = {"cwd": self.path, "stdin": subprocess.PIPE, "stdout": subprocess.PIPE, "bufsize": 0}
        found = []
        with subprocess.Popen(self.words(), **how) as child:
            for part in parts:
                if callable(part):
                    part()
                    continue
                child.stdin.write(part + MARK)
                text = b""
                while not text.endswith(MARKED) and (more := child.stdout.read(1 << 16)):
                    text += more
                found.append(text.removesuffix(MARKED))
            child.stdin.close()
        return found


def differs(found, wanted):
    """Returns what is found if it is not what is wanted."""
    return "" if found == wanted else f"wanted {wanted}, found {found}"


def wrong_lines(program):
    """Returns what is wrong with the lines of files, one within the other, one that is not there,
    and a last line without its end."""
    folder = Folder(program, one="STEP\nread from A b\nSHOW VAR X", **{"A b": "\nSHOW CLOCK\n  Read From none\n"})
    wanted = folder.told(b"STEP\nSHOW CLOCK\n") + b"CANNOT READ none\nX = 1\nY = 0\n"
    return differs(folder.told(b"READ FROM one\nSHOW VAR Y\n"), wanted)


def wrong_depth(program):
    """Returns what is wrong with a file that reads itself."""
    folder = Folder(program, again="READ FROM again\nSHOW CLOCK\n")
    wanted = b"TOO MANY FILES\n" + 8 * b"CLOCK 0\n" + b"X = 0\n"
    return differs(folder.told(b"READ FROM again\nSHOW VAR X\n"), wanted)


def wrong_words(program):
    """Returns what is wrong with lines that are none of these commands; READ is a cut of READS."""
    lines = [b"READ FROM", b"READ x", b"LOG x", b"LOG TO", b"RELOAD x", b"RE", b"LO", b"READ FROM %s" % (200 * b"x")]
    folder = Folder(program)
    folder.write("model", "MAIN\nLET Y = X\nEND\n")
    told, cuts = folder.told(b"".join(it + b"\n" for it in lines)), folder.told(b"READS\nREAD\nrea\n")
    wanted = len(lines), 3 * b"VAR X = 0, NO CHANGE SINCE STATE 0\n"
    return differs((told.count(b"BAD COMMAND\n"), cuts), wanted)


def wrong_typed(program):
    """Returns what is wrong with lines of a file at a terminal, which look as if they were typed,
    and with the log of them."""
    folder = Folder(program, script=THERE.decode())
    first, other = Terminal(folder.words(), folder.path), Terminal(folder.words(), folder.path)
    logged = first.answer(b"LOG TO log\n")
    read = first.answer(b"READ FROM script\n", 5)
    typed = b"".join(other.answer(it) for it in THERE.splitlines(True))
    status = first.status(), other.status()
    told = (logged, read, folder.read("log"), *status)
    return differs(told, (b"LOG TO log\n(0) ", b"READ FROM script\n(0) " + typed, b"(0) " + read, 0, 0))


def wrong_log(program):
    """Returns what is wrong with logs over a pipe, one after the other."""
    folder = Folder(program, one="SHOW CLOCK\n")
    lines = b"SHOW VAR X\nlog to One log\nSTEP\nREAD FROM one\nLOG TO other\nREAD FROM none\nLOG\nSHOW VAR X\n"
    step = folder.told(b"STEP\n")
    told = folder.told(lines), folder.read("One log"), folder.read("other")
    first = b"> STEP\n" + step + b"> READ FROM one\n> SHOW CLOCK\nCLOCK 0\n> LOG TO other\n"
    second = b"> READ FROM none\nCANNOT READ none\n> LOG\n"
    return differs(told, (b"X = 0\n" + step + b"CLOCK 0\nCANNOT READ none\nX = 1\n", first, second))


def wrong_no_log(program):
    """Returns what is wrong with logs that cannot be written."""
    folder = Folder(program)
    lines = b"LOG TO log\nLOG TO none/log\nSHOW CLOCK\nLOG TO /dev/full\nSHOW CLOCK\nSHOW CLOCK\n"
    told = folder.told(lines), folder.read("log")
    first = b"> LOG TO none/log\nCANNOT WRITE none/log\n> SHOW CLOCK\nCLOCK 0\n> LOG TO /dev/full\n"
    out = b"CANNOT WRITE none/log\nCLOCK 0\nCANNOT WRITE /dev/full\nCLOCK 0\nCLOCK 0\n"
    return differs(told, (out, first))


def wrong_reload(program):
    """Returns what is wrong with a model that is changed, with a break line that lost its place,
    and with data that are changed."""
    folder = Folder(program, model=MODEL.replace("LET X = 1", "READ X"), data="1\n")
    changed = MODEL.replace("LET X = 1", "READ X").replace("LET Y = 4", "''NO PLACE\nLET Y = 4")
    back = b"RELOAD\nSHOW X\nBREAKS\n"
    found = folder.parts(
        THERE, back, lambda: folder.write("data", "7\n"), b"rel\nSHOW X\n", lambda: folder.write("model", changed), back
    )
    same = KEPT + PLACE + SHOWN
    lost = same.replace(b"BREAK 5 SET", b"NO PLACE ON LINE 5, NEXT 6")
    rows = b"4 WHEN Y = 2: LET X = 3\n"
    wanted = [same + b"X = 1\n" + rows + b"5: LET Y = 4\n", same + b"X = 7\n", lost + b"X = 7\n" + rows]
    return differs(found[1:], wanted)


def wrong_old(program):
    """Returns what is wrong where the new model is refused, or a file cannot be read: the old one
    goes on."""
    folder = Folder(program)
    found = folder.parts(
        THERE,
        lambda: folder.write("model", REFUSED),
        b"RELOAD\nSTEP\n",
        lambda: (folder.path / "data").unlink(),
        b"BACK\nRELOAD\nSHOW VAR X\n",
    )
    refusal = b"MODEL REFUSED P1 LINE 2\n"
    same = KEPT + PLACE + SHOWN
    told = [found[1].startswith(refusal), found[1].partition(KEPT)[2], found[2].partition(b"CANNOT")[1:]]
    step = b"DONE: STATE 3 CLOCK 0 READY IN MAIN LINE 5\n5> LET Y = 4\nCHANGED VAR X: 1 -> 3\nX = 3\n"
    return differs(told, [True, PLACE + SHOWN + step, (b"CANNOT", b" READ data\n" + same + b"X = 1\n")])


def wrong_growths(program):
    """Returns what is wrong where growths after RELOAD are refused in turn: that is told, and the
    dialogue goes on."""
    folder = Folder(program)
    words = [program, str(folder.path / "model"), str(folder.path / "data")]
    given, refused = THERE + b"RELOAD\nSHOW CLOCK\n", 0
    whole = run(words, given)[1]
    for growth, (status, out, _) in refusals(lambda it: run(words, given, REFUSED_BEHIND=f"5:{it}")):
        refused += out != whole
        if status or not out.endswith(b"CLOCK 0\n") or (out != whole and b"OUT OF MEMORY\n" not in out):
            return f"growth {growth}: status {status} and {out}"
    return "" if refused else "no growth was refused"


def wrong_page(program):
    """Returns what is wrong with the session of the page, in which the model is changed."""
    lines, shown = blocks_of("docs/PROMPT.md", "Files")
    bank = pathlib.Path(f"{TOP}/examples/bank.sim").read_text(encoding="utf-8")
    data = pathlib.Path(f"{TOP}/examples/bank.data").read_text(encoding="utf-8")
    folder = Folder(program, model=bank, data=data, **{"closed.txt": lines})
    terminal = Terminal(folder.words(), folder.path)
    told = b"(0) " + terminal.answer(b"READ FROM closed.txt\n", 4)
    folder.write("model", bank.replace(ANY, OPEN))
    told += terminal.answer(b"RELOAD\n", 4) + terminal.answer(b"SHOW T\n")
    status = terminal.status()
    return differs((status, re.sub(rb"\(\d+\) $", b"", told).decode()), (0, shown))


def scripted(program):
    """Yields the cases."""
    cases = [wrong_lines, wrong_depth, wrong_words, wrong_typed, wrong_log, wrong_no_log, wrong_reload]
    cases += [wrong_old, wrong_growths, wrong_page]
    yield from ((f"files: {it.__name__.removeprefix('wrong_')}", it, program) for it in cases)
