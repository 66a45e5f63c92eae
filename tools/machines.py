"""The machines for which the packages have native code, and the compilers of this one for them.

On Linux a library names no C library that it needs, and asks for no version of a symbol: it takes the few calls below from the
one that the process has. So one file serves with glibc and with musl.
"""
import platform
import re
import shutil
import subprocess
import sys
from dataclasses import dataclass
from pathlib import Path

import macos

TOP = Path(__file__).resolve().parent.parent
# What a library may ask of the C library of its process, or of Windows. macOS has getentropy, and Linux syscall for the same.
CALLS = {"calloc", "free", "getentropy", "malloc", "memcpy", "memmove", "memset", "realloc", "strlen", "syscall"}
CONVENTIONS = ("-std=gnu11", "-O2", "-Wall", "-Wextra", "-Werror")


@dataclass(frozen=True)
class Machine:
    """A system and a processor, by the name that the jar has for them."""

    name: str
    # Where prebuilt/ has its C library.
    folder: str
    # What stands before the names of the tools that compile for it, where they are those of another machine; for macOS tools/macos.py has them.
    prefix: str
    # What a shared library is called: serialcheck_jni is the name of one.
    shared: str
    # The tags of wheels.
    tags: tuple = ()
    # Debian's names for it.
    debian: str = ""
    triplet: str = ""

    @property
    def is_linux(self):
        return self.name.startswith("linux-")

    @property
    def is_macos(self):
        return self.name.startswith("macos-")

    def tool(self, name):
        """A tool that compiles for it."""
        if self.is_macos:
            return macos.tool(name)
        return name if self.name == here() else f"{self.prefix}{'gcc' if name == 'cc' else name}"

    def compiler(self):
        """The command that compiles C for it, for a library."""
        return [self.tool("cc"), *(macos.words() if self.is_macos else ["-fPIC"] if self.is_linux else [])]

    def symbol(self, call):
        """How a file of objects spells a call of C."""
        return f"_{call}" if self.is_macos else call

    def lacks(self):
        """What is missing here of a compiler for it or of what the kit compiled for it, or nothing."""
        if self.folder and not any((TOP / it / self.folder / "libserialcheck.a").is_file() for it in ("prebuilt", "out/prebuilt")):
            return f"prebuilt/{self.folder}"
        if self.is_macos:
            return None if macos.folder() else macos.LACKING
        return None if shutil.which(self.tool("cc")) else self.tool("cc")

    def file(self, name):
        """The file of a shared library of this name."""
        return self.shared.format(name)


MACHINES = {
    it.name: it
    for it in (
        Machine("linux-x86_64", "", "x86_64-linux-gnu-", "lib{}.so", ("manylinux_2_5_x86_64", "musllinux_1_1_x86_64"), "amd64", "x86_64-linux-gnu"),
        Machine("linux-aarch64", "aarch64", "aarch64-linux-gnu-", "lib{}.so", ("manylinux_2_17_aarch64", "musllinux_1_1_aarch64"), "arm64", "aarch64-linux-gnu"),
        Machine("windows-x86_64", "windows", "x86_64-w64-mingw32-", "{}.dll", ("win_amd64",)),
        Machine("macos-aarch64", "macos", "", "lib{}.dylib", ("macosx_11_0_arm64",)),
    )
}


def here():
    """The name of this machine."""
    return f"{platform.system().lower()}-{platform.machine()}"


def run(*words):
    """Runs a tool, whose words are shown where it fails."""
    done = subprocess.run([str(it) for it in words], stdout=subprocess.PIPE, stderr=subprocess.STDOUT, text=True, check=False)
    if done.returncode:
        sys.exit(f"{' '.join(map(str, words))}\n{done.stdout}")
    return done.stdout


def link(machine, made, exports, scratch, *words):
    """Links a shared library of these objects and archives. It shows the calls of a pattern or a list, and no other name."""
    if machine.is_linux:
        script = scratch / "exports"
        script.write_text(f"{{ global: {' '.join(f'{it};' for it in exports)} local: *; }};\n", encoding="ascii")
        run(machine.tool("cc"), "-shared", "-s", "-nostdlib", "-o", made, *words, f"-Wl,--version-script={script}", f"-Wl,-soname,{Path(made).name}", "-Wl,-z,noexecstack", "-Wl,--build-id=none")
        asked = set(re.findall(r"^ +U (\w+)", run(machine.tool("nm"), "-D", made), re.M))
        if not asked <= CALLS:
            sys.exit(f"{made} asks for {' '.join(sorted(asked - CALLS))}")
    elif machine.is_macos:
        macos.link(run, made, exports, CALLS, scratch, *(it for it in words if not str(it).startswith("-Wl,")))
    else:
        script = scratch / "exports.def"
        script.write_text("EXPORTS\n" + "".join(f"    {it}\n" for it in exports), encoding="ascii")
        run(machine.tool("cc"), "-shared", "-s", "-static-libgcc", "-o", made, *words, script, "-Wl,--no-insert-timestamp", "-Wl,--image-base,0x180000000", f"-Wl,--out-implib={made}.a")
    Path(made).chmod(0o644)
