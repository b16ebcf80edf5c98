"""What those who make a program have in common: where it stands, whose turn it is, and a copy of
the sources to make it of."""
import contextlib
import fcntl
import glob
import os
import pathlib
import shutil
import signal
import sys
import tempfile
import time

from measures.sources import sums

TOP = os.path.dirname(os.path.dirname(os.path.realpath(__file__)))


class Place:
    """Where a program of this name stands: a folder that has it, and the sums that it was built
    from."""

    def __init__(self, name, folder):
        self.name, self.folder = name, f"{TOP}/crates/{name}/{folder}"
        self.program, self.stamp = f"{self.folder}/{name}", pathlib.Path(self.folder, "built-from")
        self.log, self.begun = pathlib.Path(self.folder, "build.log"), time.monotonic()

    def tell(self, words):
        """Says something on standard error."""
        print(f"{self.name}: {words}", file=sys.stderr, flush=True)

    def spent(self):
        """Returns how much time has gone by since the beginning."""
        minutes, seconds = divmod(int(time.monotonic() - self.begun), 60)
        return f"{minutes} min {seconds:02} s"

    def sums(self):
        """Returns the sums of the sources: of code and definitions, and of proofs."""
        return sums(self.name)

    def has(self, sums):
        """Whether the program stands there, built from these."""
        is_there = self.stamp.exists() and os.access(self.program, os.X_OK)
        return is_there and self.stamp.read_text(encoding="ascii").startswith(sums)

    def put(self, program, sums):
        """Leaves a program there, whole, and behind it what it was built from."""
        self.stamp.unlink(missing_ok=True)
        shutil.copy(program, f"{self.program}.new")
        os.replace(f"{self.program}.new", self.program)
        new = self.stamp.with_suffix(".new")
        new.write_text(sums, encoding="ascii")
        new.rename(self.stamp)

    @contextlib.contextmanager
    def in_turn(self):
        """Waits until no other command makes what stands there."""
        os.makedirs(self.folder, exist_ok=True)
        with open(f"{self.folder}/lock", "w", encoding="ascii") as lock:
            try:
                fcntl.flock(lock, fcntl.LOCK_EX | fcntl.LOCK_NB)
            except BlockingIOError:
                self.tell("another command is making the program: waiting for it")
                fcntl.flock(lock, fcntl.LOCK_EX)
            yield


@contextlib.contextmanager
def copy_of_sources():
    """Gives a folder with a copy of the sources, so that a change of theirs does no harm. It is
    removed at the end, also where the user ends the command; those of commands that were killed are
    removed first."""
    for path in glob.glob(f"{tempfile.gettempdir()}/simscript2-[0-9]*-*"):
        if not os.path.exists(f"/proc/{path.split('-')[-2]}"):
            shutil.rmtree(path, ignore_errors=True)
    with tempfile.TemporaryDirectory(prefix=f"simscript2-{os.getpid()}-") as room:

        def leave(*_):
            shutil.rmtree(room, ignore_errors=True)
            os._exit(130)

        for it in (signal.SIGINT, signal.SIGTERM, signal.SIGHUP):
            signal.signal(it, leave)
        for name in ("crates.txt", "HANDLES"):
            shutil.copy(f"{TOP}/{name}", room)
        for part in ("src", "specs", "proofs"):
            for path in glob.glob(f"crates/*/{part}", root_dir=TOP):
                shutil.copytree(f"{TOP}/{path}", f"{room}/{path}")
        yield room
