"""Prints what Python answers of a stream under the filter of a file: files.py [--strict] [--anywhere] [--modules M] FILE STREAM."""
import argparse
from pathlib import Path

import serialcheck

parser = argparse.ArgumentParser()
parser.add_argument("--strict", action="store_true")
parser.add_argument("--anywhere", action="store_true")
parser.add_argument("--modules", type=Path)
parser.add_argument("file", type=Path)
parser.add_argument("stream", type=Path)
words = parser.parse_args()
modules = words.modules.read_text(encoding="utf-8") if words.modules else ""
try:
    with serialcheck.Filter.from_file(words.file, modules, strict=words.strict, anywhere=words.anywhere) as check:
        print(check.check(words.stream.read_bytes()))
except (ValueError, OSError) as fault:
    print(fault)
