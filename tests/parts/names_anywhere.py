"""A search for class names at any place of a file that shares no code with serialcheck.

`python3 tests/parts/names_anywhere.py FILE..` prints a line `FILE PLACE END CLASS` for each name of a class that can be read at some
place: behind 72 and a length of two bytes, or in a row of texts behind 7D and a count of four bytes. CLASS is the class itself,
of an array too.
"""
import re
import sys
from pathlib import Path

MOST = 9215
# A plain name, and what can be taken off one: `[]` at the end; `[L` and `;` round it; `[` before it, but before the letter of a
# primitive type alone.
PART = r"[A-Za-z0-9_$\-\u0080-\uffff]"
PLAIN = re.compile(rf"{PART}+(\.{PART}+)*", re.DOTALL)
BEHIND = re.compile(r"(.+)\[\]", re.DOTALL)
CLASS = re.compile(r"\[L(.*);", re.DOTALL)
BEFORE = re.compile(r"\[(?![BCDFIJSZ]\Z)(.+)", re.DOTALL)


def units_of(data):
    """The text of 16-bit units with any spelling of one to three bytes, a character for each, or None."""
    text, at = [], 0
    while at < len(data):
        first = data[at]
        if first < 0x80:
            count, unit = 0, first
        elif 0xC0 <= first < 0xE0:
            count, unit = 1, first - 0xC0
        elif 0xE0 <= first < 0xF0:
            count, unit = 2, first - 0xE0
        else:
            return None
        more = data[at + 1 : at + 1 + count]
        if len(more) < count or any(not 0x80 <= byte < 0xC0 for byte in more):
            return None
        for byte in more:
            unit = unit * 64 + byte - 0x80
        text.append(chr(unit))
        at += 1 + count
    return "".join(text)


def class_of(text):
    """The class that a text names, or None."""
    while inner := BEHIND.fullmatch(text) or CLASS.fullmatch(text) or BEFORE.fullmatch(text):
        text = inner[1]
    return text if PLAIN.fullmatch(text) else None


def text_at(data, at):
    """The end and the text of a length and a text there behind which a row goes on, or None."""
    length = int.from_bytes(data[at : at + 2], "big")
    text = data[at + 2 : at + 2 + length]
    if at + 2 > len(data) or not 1 <= length <= MOST or len(text) < length or min(text) < 0x20:
        return None
    units = units_of(text)
    return None if units is None else (at + 2 + length, units)


def names(data):
    """Each name, by its place, its end, its text and its class."""
    for place, mark in enumerate(data):
        if mark == 0x72:
            at, left = place + 1, 1
        elif mark == 0x7D and data[place + 1 : place + 3] == b"\0\0":
            at, left = place + 5, int.from_bytes(data[place + 3 : place + 5], "big")
        else:
            continue
        while left > 0 and (found := text_at(data, at)):
            at, left = found[0], left - 1
            if (named := class_of(found[1])) is not None:
                yield place, at, found[1], named


if __name__ == "__main__":
    for file in sys.argv[1:]:
        for place, end, _, named in names(Path(file).read_bytes()):
            print(file, place, end, named)
