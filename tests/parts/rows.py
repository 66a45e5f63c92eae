"""The rows of a test: which are wanted, how many passed, and the built program that they run.

`tools/test -k WORD` sets ROWS, and then a row counts only where its name has that word.
"""
import os
import subprocess
from pathlib import Path

TOP = Path(__file__).resolve().parent.parent.parent
PROGRAM = TOP / "crates" / "serialcheck" / "out" / "serialcheck"
WANTED = os.environ.get("ROWS", "")


def is_wanted(name):
    return WANTED in name


def put_program_in_place():
    """Has the wrapper take the prebuilt program or build one, where none is in place; says whether there is one."""
    names = {name: value for name, value in os.environ.items() if name != "SERIALCHECK_PROGRAM"}
    command = [TOP / "serialcheck", "check", TOP / "tests" / "streams" / "empty.ser"]
    return subprocess.run(command, env=names, stdin=subprocess.DEVNULL, stdout=subprocess.DEVNULL, check=False).returncode == 0


class Rows:
    """Counts the rows that passed and those that failed, and prints what was found in the latter."""

    def __init__(self):
        self.passed = self.failed = 0

    def judge(self, name, is_right, found=""):
        """Counts a row, if it is wanted."""
        if not is_wanted(name):
            return
        if is_right:
            self.passed += 1
        else:
            self.failed += 1
            print(f"{name}: {found}", flush=True)

    def same(self, name, wanted, found):
        """Counts a row that is right where the two are equal."""
        self.judge(name, wanted == found, f"wanted {str(wanted)[:400]!r}, found {str(found)[:400]!r}")

    def end(self):
        """Prints the last line, and returns the status: 0 where all rows passed, and where none was named, at least one."""
        print(f"{self.passed} passed, {self.failed} failed")
        return 1 if self.failed or not (self.passed or WANTED) else 0
