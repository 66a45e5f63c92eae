"""What pip asks for the wheel in a clone (PEP 517): it is that of tools/wheel, with the version of the program."""
import platform
import subprocess
import sys
from pathlib import Path

TOP = Path(__file__).resolve().parents[2]
TOOLS = TOP / "tools"


def build_wheel(wheel_directory, config_settings=None, metadata_directory=None):
    """Makes the wheel, and returns its name."""
    if not (TOOLS / "wheel").is_file():
        raise SystemExit("serialcheck: there are no tools/ here, so this is no clone: install the wheel, python/serialcheck-*.whl of the package")
    return tool("wheel", wheel_directory, version(), f"{platform.system().lower()}-{platform.machine()}")


def version():
    """The version of the program, which tells it and ends with status 2."""
    program = Path(tool("prebuilt", "--folder")) / "serialcheck"
    return subprocess.run([program, "--version"], stdout=subprocess.PIPE, stderr=subprocess.STDOUT, universal_newlines=True, check=False).stdout.split()[1]


def tool(name, *words):
    """The last line that a tool prints."""
    done = subprocess.run([sys.executable, str(TOOLS / name), *words], stdout=subprocess.PIPE, universal_newlines=True, check=True)
    return (done.stdout.splitlines() or [""])[-1]
