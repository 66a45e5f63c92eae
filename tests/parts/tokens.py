"""A reader of accepted streams that shares no code with serialcheck: it cuts one into tokens, and counts.

`python3 tests/parts/tokens.py FILE..` prints for each file the line that `serialcheck check` must print of it. It knows just
enough of chapter 6 to read what is accepted, checks next to nothing, and calls itself for each level.
"""
import sys
from pathlib import Path


class Cut:
    """A stream cut into tokens, each a kind, a start and an end; and its counts."""

    SIZES = {"B": 1, "C": 2, "D": 8, "F": 4, "I": 4, "J": 8, "S": 2, "Z": 1}

    def __init__(self, data):
        self.data, self.at, self.tokens, self.handles = data, 0, [], []
        self.contents = self.refs = self.depth = 0
        # Whether the type of a field is of another kind than its code says, as `I` behind the code `[`.
        self.has_odd_type = False

    def token(self, kind, size):
        start = self.at
        self.at += size
        if self.at > len(self.data):
            raise ValueError("the stream ends early")
        self.tokens.append((kind, start, self.at))
        return int.from_bytes(self.data[start : self.at], "big")

    def text(self, size=2):
        length = self.token("length", size)
        start = self.at
        self.token("text", length)
        return self.data[start : self.at].decode("latin-1")

    def stream(self):
        self.token("header", 4)
        while self.at < len(self.data):
            self.contents += 1
            self.content(1)
        return self.tokens

    def line(self):
        return f"yes {len(self.data)} bytes, {self.contents} contents, {self.refs} refs, depth {self.depth}"

    def content(self, depth):
        """One content of this depth; whether it ends an annotation."""
        tag = self.data[self.at]
        if tag in (0x77, 0x7A):
            self.token("tag", 1)
            self.token("block", self.token("length", 1 if tag == 0x77 else 4))
        elif tag == 0x78:
            self.token("tag", 1)
            return True
        elif tag == 0x79:
            self.token("tag", 1)
            self.handles = []
        else:
            self.place(depth)
        return False

    def notes(self, depth):
        while not self.content(depth):
            pass

    def kept(self, thing):
        self.handles.append(thing)
        return thing

    def place(self, depth):
        """A value or a superclass, which counts as a place of this depth."""
        self.refs += 1
        self.depth = max(self.depth, depth)
        return self.value(depth)

    def value(self, depth):
        """What a tag begins: a value, or what is no place of its own, a class or a text in the place of another."""
        tag = self.token("tag", 1)
        if tag == 0x70:
            return None
        if tag == 0x71:
            return self.handles[self.token("handle", 4) - 0x7E0000]
        if tag in (0x74, 0x7C):
            number = len(self.handles)
            self.kept("")
            self.handles[number] = self.text(2 if tag == 0x74 else 8)
            return self.handles[number]
        if tag in (0x72, 0x7D):
            return self.descriptor(tag, depth)
        described = self.value(depth)
        if tag == 0x76:
            return self.kept("class")
        self.kept("value")
        if tag == 0x7E:
            return self.value(depth)
        if tag == 0x75:
            return self.array(described, depth)
        for layer in self.chain(described):
            self.section(layer, depth)
        return "object"

    def descriptor(self, tag, depth):
        layer = {"proxy": tag == 0x7D, "flags": 2, "codes": [], "parent": None}
        if layer["proxy"]:
            self.kept(layer)
            for _ in range(self.token("count", 4)):
                self.text()
        else:
            layer["name"] = self.text()
            self.token("suid", 8)
            self.kept(layer)
            layer["flags"] = self.token("flags", 1)
            for _ in range(self.token("count", 2)):
                code = chr(self.token("code", 1))
                self.text()
                layer["codes"].append(code)
                if code in "[L":
                    self.has_odd_type |= not self.value(depth).startswith(code)
        self.notes(depth + 1)
        layer["parent"] = self.place(depth + 1)
        return layer

    def chain(self, layer):
        """The layers of which an object has data, the highest first."""
        if layer["flags"] & 4:
            return [layer]
        layers = []
        while layer:
            layers.insert(0, layer)
            layer = layer["parent"]
        return layers

    def section(self, layer, depth):
        if not layer["flags"] & 4:
            for code in layer["codes"]:
                if code in self.SIZES:
                    self.token("raw", self.SIZES[code])
            for code in layer["codes"]:
                if code not in self.SIZES:
                    self.place(depth + 1)
        if layer["flags"] & 5:
            self.notes(depth + 1)

    def array(self, layer, depth):
        length, code = self.token("length", 4), layer["name"][1]
        for _ in range(length):
            if code in self.SIZES:
                self.token("raw", self.SIZES[code])
            else:
                self.place(depth + 1)


def main(files):
    for file in files:
        cut = Cut(Path(file).read_bytes())
        cut.stream()
        print(f"{file}: {cut.line()}")


if __name__ == "__main__":
    main(sys.argv[1:])
