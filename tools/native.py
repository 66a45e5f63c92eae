"""Rewrites a module of LLVM that the kit's compiler made for Linux on x86-64, as text, for Windows on x86-64 and macOS on arm64.

Each byte of a value is where it was: a pointer has 8 bytes there too, and numbers of 128 bits are aligned to 16. So only the head
of the module, the attributes that name the processor or tell how stacks grow, and on Windows two calls into C change. What this
file does not know is refused.
"""
import re
from dataclasses import dataclass


@dataclass(frozen=True)
class Target:
    """What a module says of the machine that it is for."""

    triple: str
    layout: str
    # Attributes that clang knows better, or that are others there.
    dropped: re.Pattern
    # What is there in place of them, where a function has an attribute that was dropped.
    added: str = ""


# How a stack grows, and where the frames are.
WINDOWS = Target("x86_64-w64-windows-gnu", "e-m:w-p270:32:32-p271:32:32-p272:64:64-i64:64-i128:128-f80:128-n8:16:32:64-S128",
                 re.compile(r' "(?:frame-pointer|probe-stack|stack-probe-size)"="[^"]*"'))
# Apple wants a frame in each function that calls another one, as the kit has it for aarch64.
MACOS = Target("arm64-apple-macosx11.0.0", "e-m:o-p270:32:32-p271:32:32-p272:64:64-i64:64-i128:128-n32:64-S128-Fn32",
               re.compile(r' "(?:frame-pointer|target-cpu|target-features|tune-cpu)"="[^"]*"'), ' "frame-pointer"="non-leaf"')
# The layout that the module must have: that for Windows but for how names are spelled.
FROM = WINDOWS.layout.replace("m:w", "m:e")
REFUSED = re.compile(r"\basm\b|thread_local|musttail|@llvm\.x86|\b(?:x86_\w+cc|win64cc|tailcc|swifttailcc|preserve_\w+cc)\b|x86_fp80|va_arg|\bbyval\b|\bsret\b")
# An empty asm is a barrier to the compiler alone.
BARRIER = 'asm sideeffect "", "~{memory}"()'
# C returns a struct of two numbers through memory on Windows. These calls keep the convention of Linux, and native/heap.c has it too.
PAIR = re.compile(r"(\bcall |^declare )(\{ i64, i64 \} @rattle_(?:re)?alloc\()")
# A function of C that returns a struct any other way.
OTHER_STRUCT = re.compile(r"^declare \{")
# A call from C or into it: what it returns and takes.
OUTER = re.compile(r"^(?:declare|define(?! internal| private)) (.*?)@(?!llvm\.)[^(]*\((.*?)\)")
# Apple's convention for arm64 is another one than Linux's for numbers of less than 32 bits, for words without a type, and for
# words on the stack, the ninth and later, of less than 64.
REGISTERS = 8


class Unknown(Exception):
    """A line that may mean something else on the other machine."""


def attributes(line, target):
    """The attributes that stand for these."""
    left = target.dropped.sub("", line)
    return left if left == line else left.replace(" }", f"{target.added} }}")


def is_of_apple(line):
    """Whether a line is of a call for which Apple's convention may be another one."""
    outer = OUTER.match(line)
    if not outer:
        return False
    taken = outer[2].split(", ")
    return bool(re.search(r"\bi(?:1|8|16)\b|\.\.\.", outer[1] + outer[2])) or not all(it.startswith(("i64", "ptr")) for it in taken[REGISTERS:])


def rewritten(line, target):
    """The line that stands for a line."""
    if line.startswith("target datalayout"):
        if FROM not in line:
            raise Unknown(line)
        return f'target datalayout = "{target.layout}"'
    if line.startswith("target triple"):
        return f'target triple = "{target.triple}"'
    if line.startswith("attributes"):
        return attributes(line, target)
    if line.startswith("@"):
        if "thread_local" in line.partition("=")[2].partition("global")[0]:
            raise Unknown(line)
        return line
    plain = PAIR.sub(r"\1x86_64_sysvcc \2", line)
    if REFUSED.search(plain.replace(BARRIER, "").replace("x86_64_sysvcc", "")) or OTHER_STRUCT.search(plain):
        raise Unknown(line)
    if target is MACOS and is_of_apple(line):
        raise Unknown(line)
    return plain if target is WINDOWS else line


def rewrite(text, target):
    """The module for a target. Raises Unknown where a line may mean something else there."""
    return "\n".join(rewritten(line, target) for line in text.split("\n"))
