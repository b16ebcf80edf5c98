"""What scripts of tests share: models, texts that tables note, what pages show, runs of the built
programs, with growths and writes refused, and how they count what passed."""
import concurrent.futures
import glob
import itertools
import os
import pathlib
import re
import shlex
import subprocess
import sys
import tempfile
import threading

TOP = os.path.dirname(os.path.dirname(os.path.realpath(__file__)))
DATA, SCRIPT = f"{TOP}/crates/cases/data", os.path.basename(sys.argv[0])
# A folder for what the script writes, which is removed at its end.
FOLDER = tempfile.TemporaryDirectory()
ROOM = FOLDER.name
# The programs that the environment may name; where it does not, what stands in the tree is taken.
NAMED = {"simscript2": "PROGRAM", "ssdb": "PROMPT_PROGRAM", "ssdap": "ADAPTER_PROGRAM"}
NAMED["ssrun"] = "RUN_PROGRAM"
# What tests/refuse.c says of a growth that it refuses, and what builds it, by one thread.
REFUSED, BUILDING = b"growth refused\n", threading.Lock()
# The rules and faults of the language, by their letter and greatest number.
GREATEST = {"L": 5, "P": 3, "C": 14, "F": 22}
CODES = [f"{letter}{n}" for letter, most in GREATEST.items() for n in range(1, most + 1)]


def built(name):
    """Returns the program that the environment names, or else the one that stands, as `rt ci` built
    it or else the checked one."""
    made = [f"{TOP}/crates/{name}/out/{it}{name}" for it in ("", "checked/")]
    return os.environ.get(NAMED.get(name, "")) or next(filter(os.path.exists, made), made[0])


def started(name):
    """Returns the program that the environment names, or else the file that starts it, having had
    it made once, and not by each run."""
    program = os.environ.get(NAMED[name]) or f"{TOP}/{name}"
    run([program, "-x"])
    return program


def refusing():
    """Returns the library that refuses growths and writes, which it builds once."""
    file = f"{ROOM}/refuse.so"
    with BUILDING:
        if not os.path.exists(file):
            doc = subprocess.run(["rt", "doc"], check=True, stdout=subprocess.PIPE, text=True)
            clang = f"{os.path.dirname(doc.stdout.strip())}/toolchain/bin/clang"
            words = "-shared -fPIC -O1 -nostdlib -fuse-ld=lld".split()
            subprocess.run([clang, *words, f"{TOP}/tests/refuse.c", "-o", file], check=True)
    return file


def read(path):
    """Returns the bytes of a file, or none where there is none."""
    return pathlib.Path(path).read_bytes() if os.path.isfile(path) else b""


def text_of(path):
    """Returns the text of a file of the repository, or nothing where there is none."""
    return read(f"{TOP}/{path}").decode()


def write(path, text):
    """Writes a text, or bytes, to a file, and returns its path."""
    pathlib.Path(path).write_bytes(text if isinstance(text, bytes) else text.encode())
    return path


def own(*texts):
    """Writes texts to files of the calling thread, and returns their paths."""
    return [write(f"{ROOM}/{threading.get_ident()}.{at}", it) for at, it in enumerate(texts)]


def rows(name):
    """Yields the columns of each row of a table of tests/answers; `#` begins its head."""
    for line in text_of(f"tests/answers/{name}").rstrip("\n").split("\n"):
        if not line.startswith("#"):
            yield line.split("\t")


def models(*folders):
    """Returns the paths of the models of these folders, without their ending."""
    paths = (it for folder in folders for it in sorted(glob.glob(f"{TOP}/{folder}/*.sim")))
    return [it.removesuffix(".sim") for it in paths]


def model_of(path, *parts):
    """Returns the files of an example, its model, its data and these; none stands for one that is
    not there."""
    files = [f"{path}.{it}" for it in ("sim", "data", *parts)]
    return [it if os.path.exists(it) else os.devnull for it in files]


def part_of(page, head):
    """Returns the parts of a page whose head begins so."""
    return "".join(it for it in text_of(page).split("\n## ") if it.startswith(head))


def blocks_of(page, head=""):
    """Returns the blocks of a page that are set in, each as one text: those below this head, or
    all."""
    blocks = re.findall(r"(?:^    .*\n)+", part_of(page, head), re.M)
    return [re.sub("^    ", "", it, flags=re.M) for it in blocks]


def spelled(text):
    """Returns the text that one of a table stands for: '|' is a line end, and '{n x}' is x written
    n times, with its number, from 0, in place of each '#'; of several together, at their right."""

    def copies(found):
        number, it = int(found[1]), re.sub("#+", lambda it: f"{{0:{len(it[0])}}}", found[2])
        return "".join(map(it.format, range(number))) if "#" in found[2] else number * it

    while (more := re.sub(r"\{([0-9]+) ([^{}]*)\}", copies, text)) != text:
        text = more
    return text.replace("|", "\n")


def run(words, text=b"", **refused):
    """Runs a program over its standard input, bytes or an open file, with this refused, as
    tests/refuse.c is told; returns its status, what it wrote and what it said."""
    loaded = {"LD_PRELOAD": refusing()} if refused else {}
    how = {"env": {"PATH": os.environ["PATH"], **loaded, **refused}, "cwd": DATA, "timeout": 600}
    how["input" if isinstance(text, bytes) else "stdin"] = text
    ended = subprocess.run(words, capture_output=True, check=False, **how)
    return ended.returncode, ended.stdout, ended.stderr


def refusals(call):
    """Yields each growth of a run, from 1 on, and how the run ends in which it is refused: the call
    runs it so."""
    for growth in itertools.count(1):
        found = call(growth)
        if REFUSED not in found[2]:
            return
        yield growth, found


def differs(wanted, found):
    """Returns what is wrong with how a run ended, its status, what it wrote and what it said,
    beside what is wanted."""
    parts = zip(("status", "standard output", "standard error"), found, wanted)
    return "; ".join(f"{name} was {str(it)[:300]}" for name, it, right in parts if it != right)


def wrong_run(wanted, words, refused=()):
    """Returns what is wrong with how a run ends, beside what is wanted, with this refused."""
    return differs(wanted, run(words, **dict(refused)))


def fits(shown, told):
    """Whether what is told is what is shown, where a line `..` stands for lines left out."""
    if told == shown:
        return True
    parts = re.split(rb"^\.\.\n", shown, flags=re.M)
    return re.fullmatch(b"(?:.*\n)*".join(map(re.escape, parts)), told)


def calls(program, of=SCRIPT):
    """Yields the calls of a program in tests/answers/calls.tsv, those of the script that runs."""
    for script, name, *call in rows("calls.tsv"):
        if script == of:
            yield name, wrong_call, program, *call


def wrong_call(program, command, given, status, *shown):
    """Returns what is wrong with a command: its words are as in a shell, one with a '|' or '{' is a
    text that stands in a file, and TOP, ROOM and PROGRAM stand for these; so they do in what it is
    to write and to say. Its standard input is a text."""
    named = {"TOP": TOP, "ROOM": ROOM, "PROGRAM": program}
    placed = lambda text: re.sub(r"\b(TOP|ROOM|PROGRAM)\b", lambda it: named[it[0]], text)
    words = shlex.split(command)
    files = iter(own(*(spelled(it) for it in words if re.search("[|{]", it))))
    words = [next(files) if re.search("[|{]", it) else placed(it) for it in words]
    found_status, *found = run(words, spelled(given).encode())
    is_right = all(fits(spelled(placed(it)).encode(), out) for it, out in zip(shown, found))
    is_right = is_right and found_status == int(status)
    return "" if is_right else f"status {found_status}, {str(found)[-600:]}"


def tried(case):
    """Returns the name of a case and what is wrong, which it tells, or its call returns or
    raises."""
    name, it, *words = case
    try:
        return name, it(*words) if callable(it) else it
    except (AssertionError, LookupError, ValueError, subprocess.SubprocessError) as error:
        return name, repr(error)


def count(*parts):
    """Tries the cases that a script's parts yield, one part behind the other, a few cases at a
    time, prints those that failed and the last line, 'SCRIPT: N passed, M failed', and ends with
    the status."""
    passed, failed, jobs = 0, 0, int(os.environ.get("RT_JOBS") or os.cpu_count())
    with concurrent.futures.ThreadPoolExecutor(jobs) as pool:
        for name, why in (it for part in parts for it in pool.map(tried, part())):
            if why:
                print(f"{SCRIPT} {name} FAILED: {why}", flush=True)
            passed, failed = passed + (not why), failed + bool(why)
    print(f"{SCRIPT}: {passed} passed, {failed} failed")
    sys.exit(1 if failed or not passed else 0)
