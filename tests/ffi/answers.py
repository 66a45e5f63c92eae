"""Prints what the check says of each file, as the program prints it: answers.py FLAGS FILTER MODULES FILE.."""
import sys
from pathlib import Path

import serialcheck

flags, text, table, *files = sys.argv[1:]
words = {"strict": bool(int(flags) & serialcheck.STRICT), "anywhere": bool(int(flags) & serialcheck.ANYWHERE)}
with serialcheck.Filter(text, "" if table == "-" else Path(table).read_text(encoding="utf-8"), **words) as check:
    for file in files:
        data = Path(file).read_bytes()
        answer = check.check(data)
        print(answer)
        with check.stream() as stream:
            decided = next(filter(None, (stream.feed(data[at : at + 100]) for at in range(0, len(data), 100))), None)
            if str(stream.end()) != str(answer) or decided and str(decided) != str(answer):
                print(f"{file}: another answer in pieces")
        if table == "-" and str(serialcheck.check(data, text, **words)) != str(answer):
            print(f"{file}: another answer in one call")
