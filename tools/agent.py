"""The members of the agent's jar: tools/jar writes it beside the other one.

One class is for the application's class path, and one more where there is a security manager. All others are below `inner/`: those
of the jar, those of the agent and ASM, for a class loader of the agent's own; and two that it defines in the package java.io.
"""
import zipfile
from pathlib import Path

TOP = Path(__file__).resolve().parent.parent
SOURCES = TOP / "integrations" / "agent" / "src"
ASM = Path("/usr/share/java/asm.jar")
LICENCE = Path("/usr/share/doc/libasm-java/copyright")
NOTICE = "\nThe agent has ASM (https://asm.ow2.io), under the BSD licence: META-INF/licences/asm.\n"
MANIFEST = "Premain-Class: serialcheck.agent.Agent\r\nAgent-Class: serialcheck.agent.Agent\r\nCan-Retransform-Classes: true\r\nCan-Redefine-Classes: true\r\n"
# The classes of java.io are compiled as a part of its module, which a release by number does not allow.
OPTIONS = ("-encoding", "UTF-8", "-g:source,lines", "-XDstringConcat=inline")
JAVA_11 = ("-source", "11", "-target", "11", "-Xlint:-options", "-nowarn")


def lacks():
    """What is missing for it, or None."""
    return None if ASM.is_file() and LICENCE.is_file() else "ASM (libasm-java)"


def files_in(folder):
    return {str(it.relative_to(folder)): it.read_bytes() for it in folder.rglob("*") if it.is_file()}


def members(run, scratch, classes, natives, sources=SOURCES):
    """What the jar has by its names there: `classes` and `natives` are those of the other jar, `run` runs a compiler."""
    outer, boot, inner = (scratch / it for it in ("outer", "boot", "inner"))
    folder = scratch / "of-the-jar"
    for name, text in classes.items():
        (folder / name).parent.mkdir(parents=True, exist_ok=True)
        (folder / name).write_bytes(text)
    run("javac", "--release", "11", *OPTIONS, "-d", outer, *sorted((sources / "outer").rglob("*.java")))
    run("javac", *JAVA_11, *OPTIONS, "--patch-module", f"java.base={sources / 'boot'}", "-d", boot, *sorted((sources / "boot").rglob("*.java")))
    run("javac", *JAVA_11, *OPTIONS, "--patch-module", f"java.base={boot}", "-cp", f"{folder}:{ASM}", "-d", inner, *sorted((sources / "inner").rglob("*.java")))
    with zipfile.ZipFile(ASM) as asm:
        of_asm = {it: asm.read(it) for it in asm.namelist() if it.startswith("org/objectweb/asm/") and it.endswith(".class")}
    inside = {**{name: text for name, text in classes.items() if name != "module-info.class"}, **natives, **of_asm, **files_in(inner), **{f"boot/{name}": text for name, text in files_in(boot).items()}}
    return {**files_in(outer), **{f"inner/{name}": text for name, text in inside.items()}}
