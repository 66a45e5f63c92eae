"""Prints what the reason of each file's refusal means, or None: meanings.py FILE.."""
import sys

import serialcheck

for name in sys.argv[1:]:
    with open(name, "rb") as file:
        print(serialcheck.check(file.read()).meaning)
