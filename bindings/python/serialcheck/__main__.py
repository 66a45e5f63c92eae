"""The commands check, show and list of the program, with its lines and statuses, over the library.

    serialcheck check [--filter T | --filter-file F] [--modules M] [--strict] [--anywhere] FILE
    serialcheck show [--limit N] FILE
    serialcheck list [--filter T] [--modules M] FILE

FILE may be `-`, standard input. Without a command it is a check.
"""
import argparse
import sys

import serialcheck

YES, REFUSED, MISUSED, FAILED, CUT = range(5)
COMMANDS = {
    "check": "says whether a file is one Java serialization stream that a filter admits",
    "show": "prints what a stream holds",
    "list": "prints a line for each class name, with what a filter says of it, which refuses nothing here",
}
EPILOG = "explain, scan, suggest, records and find are commands of the program alone."


class _Failed(Exception):
    """Why there is no answer, and the status."""


def parser_of():
    parser = argparse.ArgumentParser(prog="serialcheck", description="Checks and shows Java serialization streams, and runs none of their classes.",
                                     epilog=EPILOG, allow_abbrev=False)
    parser.add_argument("--version", "-V", action="version", version=f"serialcheck {serialcheck.__version__}")
    commands = parser.add_subparsers(dest="command", metavar="COMMAND", required=True)
    for name, about in COMMANDS.items():
        words = commands.add_parser(name, help=about, description=f"{about[0].upper()}{about[1:]}.", allow_abbrev=False)
        words.add_argument("file", metavar="FILE", help="the stream; `-` is standard input")
        if name == "show":
            words.add_argument("--limit", type=int, default=serialcheck.MOST_TEXT, metavar="N", help="at most so many bytes of text (%(default)s)")
            continue
        filters = words.add_mutually_exclusive_group()
        filters.add_argument("--filter", default="", metavar="T", help="a filter, as ObjectInputFilter.Config.createFilter takes it")
        words.add_argument("--modules", metavar="M", help="a file of lines package=module")
        if name == "check":
            filters.add_argument("--filter-file", metavar="F", help="a file of a filter, a piece a line")
            words.add_argument("--strict", action="store_true", help="refuse a class that no pattern matches")
            words.add_argument("--anywhere", action="store_true", help="ask the filter about class names at any place of the bytes")
    return parser


def told(path):
    """A path as a line has it."""
    return path if path.isascii() and path.isprintable() else ascii(path)


def read(path):
    """The bytes of a file, or of standard input."""
    if path == "-":
        return sys.stdin.buffer.read()
    try:
        file = open(path, "rb")
    except IsADirectoryError:
        raise _Failed(FAILED, "read failed")
    except OSError:
        raise _Failed(FAILED, f"cannot open {told(path)}")
    with file:
        return file.read()


def modules_of(words):
    """The table of modules."""
    try:
        return read(words.modules).decode() if words.modules is not None else ""
    except UnicodeError:
        raise _Failed(MISUSED, "modules file is not text")


def filter_of(words):
    """The filter of the words of a check."""
    given = {"modules": modules_of(words), "strict": words.strict, "anywhere": words.anywhere}
    if words.filter_file is None:
        return serialcheck.Filter(words.filter, **given)
    try:
        return serialcheck.Filter.from_file(words.filter_file, **given)
    except OSError:
        raise _Failed(FAILED, f"cannot open {told(words.filter_file)}")


def answered(words):
    """The status, and what is printed."""
    if words.command == "check":
        check = filter_of(words)
        answer = check.check(read(words.file))
        return YES if answer else REFUSED, f"{answer}\n"
    data = read(words.file)
    shown = serialcheck.show(data, words.limit) if words.command == "show" else serialcheck.list(data, words.filter, modules_of(words))
    if not shown:
        return REFUSED, f"{shown.answer}\n"
    return (CUT, f"{shown}cut at {words.limit if words.command == 'show' else serialcheck.MOST_TEXT} bytes\n") if shown.is_cut else (YES, f"{shown}")


def main():
    """Answers the words of the command line, and returns the status."""
    given = sys.argv[1:]
    if given and given[0] not in (*COMMANDS, "-h", "--help", "-V", "--version"):
        given.insert(0, "check")
    words = parser_of().parse_args(given)
    try:
        status, printed = answered(words)
    except _Failed as why:
        status, fault = why.args
    except UnicodeError:
        status, fault = MISUSED, "filter is not text"
    except ValueError as why:
        status, fault = MISUSED, why
    except MemoryError:
        status, fault = FAILED, "out of memory"
    except OSError:
        status, fault = FAILED, "read failed"
    else:
        sys.stdout.write(printed)
        return status
    print(fault, file=sys.stderr)
    return status


if __name__ == "__main__":
    sys.exit(main())
