"""What the tests of packages share: streams and filters, what the program prints of them, and how a tool is run."""
import functools
import subprocess

from rows import PROGRAM, TOP

STREAMS = sorted((*TOP.glob("tests/streams/**/*.ser"), *TOP.glob("tests/evasions/*.ser")))
ARRAY_LIST = TOP / "tests" / "streams" / "array-list.ser"
# Filters, each with whether it is strict, and asked at any place.
FILTERS = (("", False, False), ("maxdepth=20;java.util.*;java.lang.*;!*", False, False), ("java.util.*;java.lang.*", True, False), ("java.util.*;!*", False, True))
STRICT, ANYWHERE = 1, 2


def run(*words, given="", **how):
    """The status of a command, and what it printed and told."""
    done = subprocess.run([str(it) for it in words], input=given, stdout=subprocess.PIPE, stderr=subprocess.STDOUT, text=True, check=False, **how)
    return done.returncode, done.stdout


@functools.lru_cache(None)
def quiet_words():
    """What a JVM is told so that it does not warn of native code, where it knows that."""
    word = "--enable-native-access=ALL-UNNAMED"
    return (word,) if run("java", word, "-version")[0] == 0 else ()


def java(*words, **how):
    """What a JVM does."""
    return run("java", *quiet_words(), *words, **how)


def compiled(folder, path, *files):
    """The folder of the classes of some files; `path` is what they need."""
    status, said = run("javac", "-Xlint:all,-serial,-path", "-Werror", "-cp", path, "-d", folder, *files)
    if status:
        raise SystemExit(f"0 passed, 1 failed: {said}")
    return folder


def wrong_objects(folder, number):
    """The objects of the C library with the wrong answer of this number (tests/packages/wrong.c)."""
    folder.mkdir()
    subprocess.run(["ar", "x", TOP / "out" / "library" / "libserialcheck.a"], cwd=folder, check=True)
    for it in folder.glob("*.o"):
        subprocess.run(["objcopy", "--redefine-sym=serialcheck_filter_check=right_serialcheck_filter_check", it], check=True)
    subprocess.run(["cc", "-std=c99", "-Wall", "-Wextra", "-Werror", "-fPIC", f"-DWRONG={number}", "-I", TOP / "include", "-c", "-o", folder / "wrong.o", TOP / "tests" / "packages" / "wrong.c"], check=True)
    return sorted(folder.glob("*.o"))


# The right answers that the wrong ones of tests/packages/wrong.c stand for; 0 is none.
WRONG = {0: None, 1: "yes 62 bytes, 1 contents, 3 refs, depth 2", 2: "no at 6 to 27: ClassRejected", 3: "no at 6 to 10: HiddenName"}


def told_by_program(*words):
    """What the program prints and tells, but that a filter has no pattern, which packages do not tell."""
    return run(PROGRAM, *words)[1].replace("filter has no pattern\n", "")


def wanted_lines():
    """The program's lines of all streams under all filters."""
    return "".join(
        told_by_program("check", f"--filter={text}", *["--strict"] * strict, *["--anywhere"] * anywhere, file) for text, strict, anywhere in FILTERS for file in STREAMS)


def wanted_classes():
    """The classes that `scan` names of all streams under all filters, without their quotes, or null."""
    for text, strict, anywhere in FILTERS:
        said = told_by_program("scan", f"--filter={text}", *["--strict"] * strict, *["--anywhere"] * anywhere, *STREAMS).splitlines()
        for line in said[: len(STREAMS)]:
            name = line.partition(' "')[2]
            yield name.removesuffix('"') if name else "null"


def lines_of(tool, *words, **how):
    """What a program of the form FLAGS FILTER MODULES FILE.. prints of all streams under all filters; `tool` is `run` or `java`."""
    return "".join(tool(*words, STRICT * strict | ANYWHERE * anywhere, text, "-", *STREAMS, **how)[1] for text, strict, anywhere in FILTERS)
