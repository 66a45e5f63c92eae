"""Compiles and links for macOS on arm64 with nothing of Apple's: with clang and lld of the Rattle kit, or else of the system.

What these need of Apple is below: the names of C's headers that our C code uses, and the calls of libSystem that it may make. lld
signs what it links (ad hoc: a hash for each page), without which no code runs there. tests/parts/macho.py reads what comes of it.
"""
import functools
import shutil
import subprocess
import tempfile
from pathlib import Path

import native

VERSION = "11.0"
LACKING = "the Rattle kit, or clang, lld and llvm"
# What each tool is called.
TOOLS = {"cc": "clang", "ld": "ld64.lld", "ar": "llvm-ar", "objcopy": "llvm-objcopy"}
HEADERS = {
    "stdarg.h": "typedef __builtin_va_list va_list;\n",
    "stdbool.h": "#define bool _Bool\n#define true 1\n#define false 0\n",
    "stddef.h": "typedef __SIZE_TYPE__ size_t;\n#define NULL ((void *)0)\n",
    "stdint.h": "typedef __UINT8_TYPE__ uint8_t;\ntypedef __UINT32_TYPE__ uint32_t;\ntypedef __UINT64_TYPE__ uint64_t;\ntypedef __INTPTR_TYPE__ intptr_t;\n",
    "stdio.h": "",
    "stdlib.h": "#include <stddef.h>\nvoid *malloc(size_t bytes);\nvoid *calloc(size_t count, size_t bytes);\nvoid free(void *old);\n",
}
# clang makes calls of these two of its own accord.
OF_CLANG = {"bzero", "memset_pattern16"}
# The list of libSystem's calls for a linker; the numbers are those of the system of VERSION.
STUB = """--- !tapi-tbd
tbd-version:     4
targets:         [ arm64-macos ]
install-name:    '/usr/lib/libSystem.B.dylib'
current-version: 1292
exports:
  - targets:     [ arm64-macos ]
    symbols:     [ {calls}, dyld_stub_binder ]
...
"""


def of_kit(name):
    """A tool of the kit, which has all of them in one program."""
    told = subprocess.run(["rt", "doc"], stdout=subprocess.PIPE, text=True, check=False).stdout.strip() if shutil.which("rt") else ""
    program = Path(told).parent / "toolchain" / "bin" / "clang"
    if not told or not program.is_file():
        return None
    known = subprocess.run([name, "--version"], executable=program, stdout=subprocess.DEVNULL, stderr=subprocess.DEVNULL, check=False).returncode == 0
    return program if known else None


def of_system(name):
    """A tool of the system. What lld is, it takes from the name that it is called by."""
    found = shutil.which(name) or (shutil.which("lld") if name == TOOLS["ld"] else None)
    return Path(found).resolve() if found else None


@functools.lru_cache(maxsize=None)
def folder():
    """A folder with a link to each tool and the headers above, or None where a tool is missing. It goes with the process."""
    for find in (of_kit, of_system):
        found = {name: find(name) for name in TOOLS.values()}
        if all(found.values()):
            made = tempfile.TemporaryDirectory(prefix="serialcheck-macos-")
            for name, program in found.items():
                (Path(made.name) / name).symlink_to(program)
            (Path(made.name) / "include").mkdir()
            for name, text in HEADERS.items():
                (Path(made.name) / "include" / name).write_text(text, encoding="ascii")
            return made
    return None


def tool(name):
    """The path of a tool."""
    return str(Path(folder().name) / TOOLS[name])


def words():
    """What clang needs to hear of the machine."""
    return [f"--target={native.MACOS.triple}", "-nostdinc", "-isystem", str(Path(folder().name) / "include"), "-ffreestanding", "-fno-stack-protector", "-fPIC"]


def link(run, made, exports, calls, scratch, *inputs):
    """Links a library of all of these objects and archives, which shows these calls and may make those."""
    stub = scratch / "libSystem.tbd"
    stub.write_text(STUB.format(calls=", ".join(f"_{it}" for it in sorted(calls | OF_CLANG))), encoding="ascii")
    shown = [word for it in exports for word in ("-exported_symbol", f"_{it}")]
    run(tool("ld"), "-arch", "arm64", "-platform_version", "macos", VERSION, VERSION, "-dylib", "-install_name", f"@rpath/{Path(made).name}", "-dead_strip", "-x", "-all_load", *shown,
        "-o", made, *inputs, stub)
