"""What scripts of tests share about many runs: tools/replicate called, and the table that it leaves."""
import csv
import os

from programs import TOP, read, run

REPLICATE = f"{TOP}/tools/replicate"


def replicated(*words, path=""):
    """Calls tools/replicate, with the programs of a folder before others; returns its status, and what it wrote."""
    status, wrote, _ = run(["env", f"PATH={path}:{os.environ['PATH']}", REPLICATE, *words])
    return status, wrote.decode().splitlines()


def table_of(folder):
    """Returns the rows of the table of a folder."""
    return [*csv.reader(read(f"{folder}/table.csv").decode().splitlines())]
