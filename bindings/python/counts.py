"""Counts the lines of a file and the files of a folder by reason and refused class, over Dask: docs/SPREAD.md says how it is started."""
import base64
import glob

import dask.bag
import serialcheck
from dask.distributed import Client


def judged(items, read):
    """The KEY, the reason and the refused class of each item of a part, under one filter: a list, as workers hand parts to others."""
    found = []
    with serialcheck.Filter("java.util.*;!*") as check:
        for item in items:
            try:
                key, data = read(item)
            except (OSError, ValueError) as fault:
                found.append((item, type(fault).__name__, None))
                continue
            answer = check.check(data)
            found.append((key, "yes", None) if answer else (key, answer.reason, answer.class_name))
    return found


def line(text):
    key, _, value = text.rstrip("\n").rpartition("\t")
    return key, base64.b64decode(value, validate=True)


def file(path):
    with open(path, "rb") as stream:
        return path, stream.read()


def lines(pattern):
    return dask.bag.read_text(pattern, blocksize="1MiB").map_partitions(judged, line)


def files(folder):
    return dask.bag.from_sequence(sorted(glob.glob(f"{glob.escape(folder)}/**/*.ser", recursive=True)), npartitions=8).map_partitions(judged, file)


def counts(answers):
    """How many answers have each reason and class, in the order of their text."""
    return sorted(answers.map(lambda it: it[1:]).frequencies().compute(), key=str)


if __name__ == "__main__":
    with Client(scheduler_file="scheduler.json"):
        for answers in lines("values.base64"), files("sessions"):
            for (reason, name), count in counts(answers):
                print(count, reason, name or "")
