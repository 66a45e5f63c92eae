"""Finds the bodies of functions in Rattle's text, and reads wrong bodies: `crates/NAME/must-fail/*.edit`, `crates/NAME/edits/*.edit`.

An edit has lines `file: PATH`, and behind each of them pairs of lines `old: TEXT` and `new: TEXT`; each old text stands
exactly once in its file.
"""
import os
import re
from dataclasses import dataclass, field
from pathlib import Path

# What stands before a brace that opens a clause and no body.
CLAUSE = re.compile(r"(?:(?:requires|ensures)(?:\s*\*)?(?:\s*\b\w+)?|\bghost(?:\s+\w+\s*[:=](?:\s*(?:owns|lends))?)?)\s*$")
TOKEN = re.compile(r"""//[^\n]*|/\*.*?\*/|[bc]?r(#*)".*?"\1|[bc]?"(?:[^"\\]|\\.)*"|'(?=\\)(?:[^'\\\n]|\\[^\n])*'|'[^\n\\']'|.""", re.S)
SCOPE = re.compile(r"(?m)^[ \t]*(?:pub(?:\([^)]*\))?\s+)?(?:unsafe\s+)?(?:(impl)\b|(trait)\s+(\w+)|(mod)\s+(\w+)\s*(?=\{))")


@dataclass(frozen=True)
class Body:
    """The body of a function: its place in the text, from brace to brace, and the lines that it stands on with its attributes and contract."""

    begin: int
    end: int
    name: str
    head: int

    def holds(self, begin, end):
        """Whether a part of the text lies in the body."""
        return self.begin < begin and end <= self.end


@dataclass(frozen=True)
class Key:
    """A function, by the module of its file and its name there, with the impl or trait that it is in."""

    module: str
    name: str

    def is_called(self, name):
        """Whether this is what the prover calls the function, below the crate."""
        return name == (f"{self.module}::{self.name}" if self.module else self.name) or "::" in self.name and (name == self.name or name.endswith(f"::{self.name}"))


def blank(text):
    """The text with spaces in place of comments, strings and characters, at the same places."""
    return "".join(it[0] if len(it[0]) == 1 else re.sub(r"[^\n]", " ", it[0]) for it in TOKEN.finditer(text))


def end_of(text, at):
    """Where the braces that open here are closed."""
    depth = 0
    for it in re.compile(r"[{}]").finditer(text, at):
        depth += 1 if it[0] == "{" else -1
        if not depth:
            return it.end()
    return len(text)


def name_of_impl(head):
    """What the prover calls an impl: its type, and the trait behind it with what that takes, as in `FaultFromStop`."""
    head = re.sub(r"\bwhere\b.*", "", head, flags=re.S)
    head = re.sub(r"(\bFrom)<([\w: ]+)>", r"\1\2", head)
    while re.search(r"<[^<>]*>", head):
        head = re.sub(r"<[^<>]*>", "", head)
    trait, is_of_trait, kind = head.partition(" for ")
    return "".join(it.strip().lstrip("&").strip().rpartition("::")[2].strip() for it in ((kind, trait) if is_of_trait else (trait,)))


def head_of(text, at):
    """Where the item begins whose keyword stands here: at the first of its attributes."""
    at = text.rfind("\n", 0, at) + 1
    while at:
        above = text.rfind("\n", 0, at - 1) + 1
        if not text[above:at].lstrip().startswith("#["):
            break
        at = above
    return at


def begin_of(text, at):
    """Where the body begins of a function whose name ends here, or None where it has none."""
    depth = 0
    while at < len(text):
        if text[at] in "([":
            depth += 1
        elif text[at] in ")]":
            depth -= 1
        elif text[at] == ";" and not depth:
            return None
        elif text[at] == "{" and not depth:
            if not CLAUSE.search(text[max(0, at - 80) : at]):
                return at
            at = end_of(text, at) - 1
        at += 1
    return None


def bodies(text):
    """The bodies of the functions of a file."""
    text, scopes = blank(text), []
    for it in SCOPE.finditer(text):
        at = text.find("{", it.end())
        if at >= 0:
            scopes.append((at, end_of(text, at), name_of_impl(text[it.end() : at]) if it[1] else it[3] or it[5]))
    for it in re.finditer(r"\bfn\s+(\w+)", text):
        at = begin_of(text, it.end())
        if at is not None:
            inside = [name for begin, end, name in scopes if begin < it.start() < end]
            yield Body(at, end_of(text, at), "::".join([*inside, it[1]]), head_of(text, it.start()))


def module_of(path):
    """The module of a file of src/."""
    name = path.removeprefix("src/").removesuffix(".rt").replace("/", "::")
    return "" if name in ("lib", "main") else name.removesuffix("::mod")


@dataclass
class Edit:
    """A wrong body: the changes of each file, as (begin, end, new text) in the file as it is; the functions whose bodies it changes; and whether it changes nothing else."""

    file: Path
    changes: dict = field(default_factory=dict)
    keys: set = field(default_factory=set)
    is_of_bodies: bool = True
    fault: str = None

    @property
    def name(self):
        return self.file.stem

    @property
    def crate(self):
        return self.file.parent.parent

    def add(self, path, old, new):
        text = (self.crate / path).read_text(encoding="utf-8")
        at = text.find(old)
        if text.count(old) != 1:
            self.fault = f"the text '{old}' stands {text.count(old)} times in {path}"
        elif any(begin < at + len(old) and at < end for begin, end, _ in self.changes.get(path, [])):
            self.fault = f"the text '{old}' is changed already"
        else:
            # What old and new begin with alike is not changed: so that what is put behind a brace is inside.
            same = len(os.path.commonprefix([old, new]))
            self.changes.setdefault(path, []).append((at + same, at + len(old), new[same:]))

    def find_keys(self):
        for path, changes in self.changes.items():
            found = list(bodies((self.crate / path).read_text(encoding="utf-8"))) if path.startswith("src/") else []
            for begin, end, _ in changes:
                inside = [it for it in found if it.holds(begin, end)]
                if inside:
                    self.keys.add(Key(module_of(path), min(inside, key=lambda it: it.end - it.begin).name))
                else:
                    self.is_of_bodies = False


def read(file):
    """The edit of a file, with what is wrong with it, if anything is."""
    edit, path, old = Edit(file), None, None
    for line in file.read_text(encoding="utf-8").split("\n"):
        word, _, text = line.partition(":")
        text = text.removeprefix(" ")
        if word == "file" and (edit.crate / text.strip()).is_file():
            path = text.strip()
        elif word == "old" and path and old is None:
            old = text
        elif word == "new" and old:
            edit.add(path, old, text)
            old = None
        elif line:
            edit.fault = f"this line is not read: '{line}'"
    if old is not None or not edit.changes:
        edit.fault = edit.fault or "it changes nothing"
    if not edit.fault:
        edit.find_keys()
    return edit


def edited(edits):
    """The files that these edits of one crate change, as they are with all of them, by their paths in the crate."""
    changes = {}
    for edit in edits:
        for path, found in edit.changes.items():
            changes.setdefault(path, []).extend(found)
    texts = {}
    for path, found in changes.items():
        text = (edits[0].crate / path).read_text(encoding="utf-8")
        for begin, end, new in sorted(found, reverse=True):
            text = text[:begin] + new + text[end:]
        texts[path] = text
    return texts
