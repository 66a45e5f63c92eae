"""Prints what is answered of bytes whose class has a length of its own. They are a stream of 5 bytes with FF behind it."""
import serialcheck


class Lying(bytes):
    """Bytes that say they are as many as the header of a stream."""

    def __len__(self):
        return 4

    def __bytes__(self):
        return self[:4]


data = Lying(bytes.fromhex("aced0005" "70" "ff"))
print(serialcheck.check(data))
with serialcheck.Filter() as check:
    print(check.check(data))
    with check.stream() as stream:
        print(stream.feed(data))
