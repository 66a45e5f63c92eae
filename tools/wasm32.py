"""Rewrites a module of LLVM for x86-64, as text, so that it can be compiled for wasm32.

The code takes for granted where each byte of a value is, and there a pointer has 8 bytes. In wasm32 an address has 4. So a
pointer in a register, a parameter or a result becomes such an address, and in memory it keeps its 8 bytes, the upper four
of which are 0: each load and store of a pointer becomes one of a number of 64 bits, and that of a struct with a pointer one
for each part. No other instruction asks how long a pointer is; where one could, and where this file does not know a line,
it is refused.
"""
import re

TARGET = "wasm32-unknown-unknown"
LAYOUT = "e-m:e-p:32:32-p10:8:8-p20:8:8-i64:64-i128:128-n32:64-S128-ni:1:10:20"
# What speaks of the processor that the module was made for.
OTHER_PROCESSOR = re.compile(r' "(?:probe-stack|stack-probe-size|target-cpu|target-features|tune-cpu)"="[^"]*"')
SIZES = {"i1": 1, "i8": 1, "i16": 2, "i32": 4, "i64": 8, "i128": 16, "ptr": 8}
PLAIN = r"(?:i\d+|\[\d+ x i\d+\]|<\d+ x i\d+>)"
TYPE = rf"({PLAIN}|ptr|\{{[^{{}}]*\}})"
# The instructions that ask how long a type is, in the only forms that are known here.
LOAD = re.compile(rf"^(\s+)(%\S+) = load {TYPE}, ptr (.+?), align (\d+)(?:, !.*)?$")
STORE = re.compile(rf"^(\s+)store {TYPE} (.+), ptr (.+?), align (\d+)(?:, !.*)?$")
ALLOCA = re.compile(rf"^(\s+)(%\S+) = alloca {TYPE}, align (\d+)$")
ADDRESS = re.compile(r"^(\s+%\S+ = )ptrtoaddr (ptr .+) to i64$")
STEP = re.compile(rf"^\s+%\S+ = getelementptr (?:inbounds |nuw |nusw )*{PLAIN}, ptr ")
CAST = re.compile(rf"^\s+%\S+ = bitcast {PLAIN} \S+ to {PLAIN}$")
ATOMIC = re.compile(r"^\s+(?:%\S+ = )?(?:atomicrmw \w+ ptr %\S+, i\d+ |cmpxchg (?:weak )?ptr %\S+, i\d+ |load atomic i\d+, |store atomic i\d+ )")
ASKS = re.compile(r"^\s+(?:%\S+ = )?(?:tail |notail )?(?:load|store|alloca|getelementptr|atomicrmw|cmpxchg|va_arg|addrspacecast|bitcast|ptrtoaddr)\b")


class Unknown(Exception):
    """A line that may mean something else on the other machine."""


def parts_of(kind):
    """The parts of a type, each with its place in memory."""
    if not kind.startswith("{"):
        return [(kind, 0)]
    parts, place = [], 0
    for part in kind.strip("{ }").split(", "):
        if part not in SIZES:
            raise Unknown(f"the type {kind}")
        place += -place % SIZES[part]
        parts.append((part, place))
        place += SIZES[part]
    return parts


class Rewriter:
    """Rewrites the lines of a module, and names what it adds."""

    def __init__(self):
        self.count = 0

    def add(self, out, space, text):
        """Adds an instruction, and returns the name of its result."""
        self.count += 1
        out.append(f"{space}%wide.{self.count} = {text}")
        return f"%wide.{self.count}"

    def behind(self, out, space, base, offset):
        """The place so many bytes behind another one."""
        return base if offset == 0 else self.add(out, space, f"getelementptr i8, ptr {base}, i64 {offset}")

    def loaded(self, space, name, kind, base, align):
        out, whole = [], "poison"
        if kind == "ptr":
            number = self.add(out, space, f"load i64, ptr {base}, align {align}")
            return [*out, f"{space}{name} = inttoptr i64 {number} to ptr"]
        for index, (part, offset) in enumerate(parts_of(kind)):
            place = self.behind(out, space, base, offset)
            value = self.add(out, space, f"load {'i64' if part == 'ptr' else part}, ptr {place}, align 1")
            if part == "ptr":
                value = self.add(out, space, f"inttoptr i64 {value} to ptr")
            whole = self.add(out, space, f"insertvalue {kind} {whole}, {part} {value}, {index}")
        return [*out, f"{space}{name} = freeze {kind} {whole}"]

    def stored(self, space, kind, value, base, align):
        out = []
        for index, (part, offset) in enumerate(parts_of(kind)):
            taken = value if kind == "ptr" else self.add(out, space, f"extractvalue {kind} {value}, {index}")
            if part == "ptr":
                part, taken = "i64", self.add(out, space, f"ptrtoint ptr {taken} to i64")
            place = self.behind(out, space, base, offset)
            out.append(f"{space}store {part} {taken}, ptr {place}, align {align if kind == 'ptr' else 1}")
        return out

    def rewritten(self, line):
        """The lines that stand for a line."""
        if line.startswith("target datalayout"):
            return [f'target datalayout = "{LAYOUT}"']
        if line.startswith("target triple"):
            return [f'target triple = "{TARGET}"']
        if line.startswith("attributes"):
            return [OTHER_PROCESSOR.sub("", line)]
        if line.startswith("@") and re.search(r"\bptr\b", line):
            raise Unknown(line)
        if found := ADDRESS.match(line):
            return [f"{found[1]}ptrtoint {found[2]} to i64"]
        if not ASKS.match(line) or any(it.match(line) for it in (STEP, CAST, ATOMIC)):
            return [line]
        if found := LOAD.match(line):
            return self.loaded(*found.groups()) if re.search(r"ptr|\{", found[3]) else [line]
        if found := STORE.match(line):
            return self.stored(*found.groups()) if re.search(r"ptr|\{", found[2]) else [line]
        if found := ALLOCA.match(line):
            last, place = parts_of(found[3])[-1]
            return [f"{found[1]}{found[2]} = alloca [{place + SIZES[last]} x i8], align {found[4]}"] if re.search(r"ptr|\{", found[3]) else [line]
        raise Unknown(line)


def rewrite(text):
    """The module for wasm32. Raises Unknown where a line may mean something else there."""
    rewriter = Rewriter()
    return "\n".join(it for line in text.split("\n") for it in rewriter.rewritten(line))
