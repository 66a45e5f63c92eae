"""Prints which fields of an answer a binding has in another way than the header: each that declares them has all, in their order."""
import re
from pathlib import Path

TOP = Path(__file__).resolve().parent.parent.parent
# Python has other names for some of them.
IN_PYTHON = {"number": "reason", "from_byte": "from", "to_byte": "to"}
STRUCT = re.search(r"^typedef struct \{(.*?)^\} serialcheck_answer;", (TOP / "include/serialcheck.h").read_text(encoding="ascii"), re.M | re.S)[1]
FIELDS = re.findall(r"^ +(uint\d+_t) (\w+);", STRUCT, re.M)
SIZES = {"uint32_t": "u32", "uint64_t": "u64"}


def text_between(file, start, end):
    return (TOP / file).read_text(encoding="utf-8").partition(start)[2].partition(end)[0]


def fields_in_lua(file):
    for declared in re.findall(r"(uint\d+_t) ([^;]+);", text_between(file, "typedef struct {", "}")):
        yield from ((declared[0], name.strip()) for name in declared[1].split(","))


for file, found in {
    "bindings/rust/src/raw.rs": [({size: it for it, size in SIZES.items()}[size], name) for name, size in re.findall(r"pub (\w+): (\w+),", text_between("bindings/rust/src/raw.rs", "pub struct Answer {", "}"))],
    **{file: list(fields_in_lua(file)) for file in ("bindings/luajit/first.lua", "integrations/nginx/serialcheck/library.lua")},
    "bindings/python/serialcheck/__init__.py": [(f"{size}_t", IN_PYTHON.get(name, name)) for name, size in re.findall(r'\("(\w+)", ctypes\.c_(\w+)\)', text_between("bindings/python/serialcheck/__init__.py", "_fields_ = [", "]"))],
}.items():
    if found != FIELDS or not FIELDS:
        print(f"{file}: {found}; wanted: {FIELDS}")
words = int(re.search(r"WORDS = (\d+);", (TOP / "bindings/java/src/serialcheck/Answer.java").read_text(encoding="utf-8"))[1])
NATIVE = (TOP / "bindings/java/serialcheck_jni.c").read_text(encoding="utf-8")
handed_out = re.findall(r"a->(\w+)", re.search(r"words\[WORDS\] = \{(.*?)\};", NATIVE, re.S)[1])
taken_in = re.findall(r"\((\w+)\)w\[(\d+)\]", re.search(r"serialcheck_answer answer = \{(\(.*?)\};", NATIVE, re.S)[1])
if words != len(FIELDS) or handed_out != [name for _, name in FIELDS] or taken_in != [(size, str(number)) for number, (size, _) in enumerate(FIELDS)]:
    print(f"bindings/java: {words} words, {handed_out}, {taken_in}; wanted: {FIELDS}")
