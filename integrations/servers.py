"""What the tests of integrations for Java servers share: the jar, the lines of a README, and servers on the loopback.

A server is started in a folder of the test, as an ordinary user, and stopped at the test's end.
"""
import os
import re
import shlex
import socket
import subprocess
import sys
import time
from pathlib import Path

TOP = Path(__file__).resolve().parent.parent
sys.path.insert(0, str(TOP / "tests" / "parts"))
from installed import quiet_words  # noqa: E402

VERSION = "0.1"
ORDINARY = 65534
# What the class Hostile prints when it is read.
RAN = "the code of the object ran"

os.umask(0o022)  # the servers' user reads what a test makes


def make_jar(folder):
    """The jar of serialcheck, in a folder laid out as the package is."""
    made = folder / "dist" / "java"
    for words in (["tools/build-library"], ["tools/jar", made, VERSION]):
        subprocess.run(words, cwd=TOP, stdout=subprocess.DEVNULL, check=True)
    return made / f"serialcheck-{VERSION}.jar"


def blocks(readme, language):
    """The blocks of code of a README in one language."""
    return blocks_of(readme.read_text(encoding="utf-8"), language)


def blocks_of(readme, language):
    """The blocks of code of a text in one language."""
    found = re.findall(r"^```(\w*)\n(.*?)^```$", readme, re.M | re.S)
    return [text for name, text in found if name == language]


def run_lines(text, folder, **names):
    """Runs the shell lines of a README in a folder that has the package in `dist`; the repository is around it as `integrations`."""
    if not (folder / "integrations").exists():
        (folder / "integrations").symlink_to(TOP / "integrations")
    environment = {**os.environ, **{name: str(value) for name, value in names.items()}}
    subprocess.run(["bash", "-e", "-c", text.replace("VERSION", VERSION)], cwd=folder, env=environment, stdin=subprocess.DEVNULL, check=True)


def compiled(folder, path, *files):
    """The folder of the classes of some files; `path` is what they need."""
    subprocess.run(["javac", "-Xlint:all,-serial,-path", "-Werror", "-cp", path, "-d", folder, *files], check=True)
    return folder


def free_port():
    with socket.socket() as taken:
        taken.bind(("127.0.0.1", 0))
        return taken.getsockname()[1]


def give_away(*folders):
    """Gives folders to the ordinary user that servers run as, where the test is root's; everybody may look into them."""
    for folder in folders:
        for it in (folder, *folder.rglob("*")):
            if not os.geteuid():
                os.chown(it, ORDINARY, ORDINARY, follow_symlinks=False)
        folder.chmod(0o755)


class Process:
    """A program of an ordinary user that runs until it is stopped, and what it has printed."""

    def __init__(self, folder, name, *words, **environment):
        user = [] if os.geteuid() else ["setpriv", f"--reuid={ORDINARY}", f"--regid={ORDINARY}", "--clear-groups"]
        self.log = folder / f"{name}.log"
        self.out = open(self.log, "w", encoding="utf-8")
        self.process = subprocess.Popen(
            [*user, *(str(it) for it in words)], cwd=folder, env={**os.environ, "HOME": str(folder), **{name: str(value) for name, value in environment.items()}},
            stdin=subprocess.PIPE, stdout=self.out, stderr=subprocess.STDOUT, text=True)

    def said(self):
        return self.log.read_text(encoding="utf-8", errors="replace")

    def wait_for(self, text, seconds=60):
        """Waits until the program has printed a text; what it printed, where it does not."""
        end = time.time() + seconds
        while text not in self.said():
            if time.time() > end or self.process.poll() is not None:
                raise RuntimeError(f"no {text!r} from {shlex.join(map(str, self.process.args))}:\n{self.said()[-3000:]}")
            time.sleep(0.05)

    def wait_for_port(self, port, seconds=60):
        """Waits until the program listens on a port of the loopback."""
        end = time.time() + seconds
        while True:
            with socket.socket() as probe:
                if probe.connect_ex(("127.0.0.1", port)) == 0:
                    return
            if time.time() > end or self.process.poll() is not None:
                raise RuntimeError(self.said())
            time.sleep(0.05)

    def stop(self):
        if self.process.poll() is None:
            self.process.terminate()
        try:
            self.process.wait(20)
        except subprocess.TimeoutExpired:
            self.process.kill()
            self.process.wait()
        self.out.close()

    def __enter__(self):
        return self

    def __exit__(self, *_):
        self.stop()


class Asked(Process):
    """A program that greets, and answers each line, with lines of which the last is a dot."""

    def __init__(self, *words, **environment):
        super().__init__(*words, **environment)
        self.read = 0
        try:
            self.answer("nothing")
        except RuntimeError:
            self.stop()
            raise

    def ask(self, *words):
        """The lines of an answer."""
        self.process.stdin.write(" ".join(str(it) for it in words) + "\n")
        self.process.stdin.flush()
        return self.answer(words)

    def answer(self, asked, seconds=60):
        end = time.time() + seconds
        while not (dot := re.search(r"^\.\n", unread := self.said()[self.read:], re.M)):
            if time.time() > end or self.process.poll() is not None:
                raise RuntimeError(f"no answer to {asked}: {unread[-3000:]}")
            time.sleep(0.01)
        self.read += dot.end()
        return unread[:dot.start()].splitlines()


def java(*words):
    """The words that start a JVM, small and quiet."""
    return ("java", "-Xmx192m", "-XX:+UseSerialGC", "-XX:TieredStopAtLevel=1", *quiet_words(), *words)
