"""Says of each file whether it is handed on: first.py FILE.."""
import sys

import serialcheck

FILTER = serialcheck.Filter("maxbytes=1000000;maxdepth=20;java.util.*;java.lang.*;!*", anywhere=True)


def admitted(stream):
    return bool(FILTER.check(stream))


for name in sys.argv[1:]:
    with open(name, "rb") as file:
        print("handed on" if admitted(file.read()) else "refused")
