"""A second writer of the text of `serialcheck show`, which shares no code with serialcheck.

`python3 tests/parts/shown.py FILE` prints the text of an accepted stream, and with `--values` behind FILE that with values, by docs/FORMAT.md (what the bytes are) and
crates/jser_shown/README.md (how they are written). It checks next to nothing, and calls itself for each level.
"""
import sys
from fractions import Fraction
from pathlib import Path

SIZES = {"B": 1, "C": 2, "D": 8, "F": 4, "I": 4, "J": 8, "S": 2, "Z": 1}


def units_of(data):
    """The UTF-16 units of modified UTF-8."""
    units, at = [], 0
    while at < len(data):
        first = data[at]
        size = 1 if first < 0x80 else 2 if first < 0xE0 else 3
        unit = first & (0x7F, 0x1F, 0x0F)[size - 1]
        for byte in data[at + 1 : at + size]:
            unit = unit << 6 | byte & 0x3F
        units.append(unit)
        at += size
    return units


def quoted_units(units):
    """The quoted text of these units."""
    texts = {0x22: '\\"', 0x5C: "\\\\"}
    return '"' + "".join(texts.get(it, chr(it)) if 0x20 <= it <= 0x7E else f"\\u{it:04x}" for it in units) + '"'


def quoted(data):
    """The quoted text of modified UTF-8."""
    return quoted_units(units_of(data))


def shortest(bits, fraction_bits, exponent_bits):
    """The digits of the shortest decimal that reads back as the size with these bits, and the power of ten of the last."""
    exponent, fraction = bits >> fraction_bits, bits & (1 << fraction_bits) - 1
    significand = fraction + (1 << fraction_bits) * (exponent > 0)
    gap = Fraction(2) ** (max(exponent, 1) - (1 << exponent_bits - 1) + 1 - fraction_bits)
    size, below = significand * gap, gap / 2 if fraction == 0 and exponent > 1 else gap
    low, high = size - below / 2, size + gap / 2
    first = next(at for at in range(400, -400, -1) if Fraction(10) ** at <= size)
    for power in range(first - 1, first - 17, -1):
        ten = Fraction(10) ** power
        near = [it for it in (size // ten, size // ten + 1) if low < it * ten < high or significand % 2 == 0 and it * ten in (low, high)]
        if near:
            return min(near, key=lambda it: (abs(it * ten - size), it % 2)), power
    raise ValueError(f"{bits:x} has no shortest decimal")


def float_text(data):
    """A float as Java prints it, by the documentation of `Double.toString`."""
    fraction_bits, exponent_bits = (52, 11) if len(data) == 8 else (23, 8)
    bits = int.from_bytes(data, "big")
    size, infinite = bits % (1 << 8 * len(data) - 1), (1 << exponent_bits) - 1 << fraction_bits
    if size > infinite:
        return "NaN"
    sign = "-" if bits != size else ""
    if size in (0, infinite):
        return sign + ("Infinity" if size else "0.0")
    number, power = shortest(size, fraction_bits, exponent_bits)
    digits = str(number).rstrip("0")
    point = len(str(number)) + power
    if -3 < point <= 0:
        return f"{sign}0.{'0' * -point}{digits}"
    if 0 < point <= 7:
        return f"{sign}{digits[:point].ljust(point, '0')}.{digits[point:] or '0'}"
    return f"{sign}{digits[0]}.{digits[1:] or '0'}E{point - 1}"


def meaning(code, data):
    """What raw bits mean, in brackets; nothing of those that are told no meaning."""
    number = int.from_bytes(data, "big", signed=code != "C")
    if code in "BSIJ":
        return f" ({number})"
    if code == "C":
        return f" ({quoted_units([number])})"
    if code in "DF":
        return f" ({float_text(data)})"
    return {b"\0": " (false)", b"\1": " (true)"}.get(data, "") if code == "Z" else ""


class Descriptor:
    """A class: what a section needs to know of it."""

    def __init__(self, name):
        self.name, self.flags, self.fields, self.parent = name, 0, [], None

    def chain(self):
        """Its superclasses, the highest first, and itself."""
        return [*(self.parent.chain() if self.parent else []), self]

    def sections(self):
        """The classes of which an object of it has sections."""
        return [self] if self.flags & 4 else self.chain()


class Stream:
    """A stream that is read from its front; each form becomes its line and the lines under it, a level deeper."""

    def __init__(self, data, values=False):
        self.data, self.at, self.epoch, self.handles = data, 0, 0, []
        self.values = values

    def take(self, size):
        self.at += size
        if self.at > len(self.data):
            raise ValueError("the stream ends early")
        return self.data[self.at - size : self.at]

    def number(self, size):
        return int.from_bytes(self.take(size), "big")

    def assign(self, thing):
        """The mark of the next handle, which names this."""
        self.handles.append(thing)
        return f"#{self.epoch}.{0x7E0000 + len(self.handles) - 1:x}"

    def contents(self):
        """The lines of the stream."""
        if self.take(4) != bytes.fromhex("aced0005"):
            raise ValueError("not a stream")
        lines = ["stream version 5"]
        while self.at < len(self.data):
            if self.data[self.at] == 0x79:
                self.take(1)
                self.epoch, self.handles = self.epoch + 1, []
                lines.append("reset")
            else:
                lines += self.content()
        return lines

    def content(self):
        """A value or a block: its lines, of which the first has no words before it."""
        if self.data[self.at] in (0x77, 0x7A):
            word, size = ("block", 1) if self.number(1) == 0x77 else ("longblock", 4)
            data = self.take(self.number(size))
            return [f"{word} {len(data)}:" + (f" {data.hex()}" if data else "")]
        return self.value()[0]

    def notes(self):
        """The lines of an annotation."""
        lines = []
        while self.data[self.at] != 0x78:
            lines += before("note ", self.content())
        self.take(1)
        return lines

    def value(self):
        """The lines of a value, and what it is: a descriptor, or anything else."""
        tag = self.number(1)
        if tag == 0x70:
            return ["null"], None
        if tag == 0x71:
            handle = self.number(4)
            return [f"ref #{self.epoch}.{handle:x}"], self.handles[handle - 0x7E0000]
        if tag in (0x74, 0x7C):
            mark = self.assign("text")
            word, size = ("text", 2) if tag == 0x74 else ("longtext", 8)
            return [f"{word} {mark} {quoted(self.take(self.number(size)))}"], "text"
        if tag == 0x72:
            return self.plain_descriptor()
        if tag == 0x7D:
            return self.proxy_descriptor()
        lines, described = self.value()
        under = before("class ", lines)
        if tag == 0x76:
            line = f"classobject {self.assign('class')}"
        elif tag == 0x73:
            line = f"object {self.assign('object')}"
            for it in described.sections():
                under += self.section(it)
        elif tag == 0x75:
            mark = self.assign("array")
            length = self.number(4)
            line = f"array {mark} length {length}"
            for index in range(length):
                under += self.raw_or_value(f"[{index}] ", chr(described.name[1]))
        elif tag == 0x7E:
            line = f"enum {self.assign('enum')}"
            under += before("name ", self.value()[0])
        else:
            raise ValueError(f"the tag {tag:x} before {self.at}")
        return [line, *deeper(under)], "value"

    def plain_descriptor(self):
        described = Descriptor(self.take(self.number(2)))
        suid = self.take(8).hex()
        mark = self.assign(described)
        described.flags = self.number(1)
        under = []
        for _ in range(self.number(2)):
            code, name = chr(self.number(1)), self.take(self.number(2))
            described.fields.append((code, name))
            line = f"field {code} {quoted(name)}"
            under += [line] if code in SIZES else before(f"{line} type ", self.value()[0])
        under += self.notes()
        lines, described.parent = self.value()
        under += before("super ", lines)
        return [f"desc {mark} {quoted(described.name)} suid {suid} flags {described.flags:02x}", *deeper(under)], described

    def proxy_descriptor(self):
        described = Descriptor(None)
        mark = self.assign(described)
        under = [f"interface {quoted(self.take(self.number(2)))}" for _ in range(self.number(4))]
        under += self.notes()
        lines, described.parent = self.value()
        return [f"proxy {mark}", *deeper(under + before("super ", lines))], described

    def section(self, described):
        if described.name is None:
            return ["data proxy"]
        if described.flags & 4:
            return [f"external {quoted(described.name)}", *deeper(self.notes())]
        under = []
        for raw in (True, False):
            for code, name in described.fields:
                if (code in SIZES) == raw:
                    under += self.raw_or_value(f"{quoted(name)} = ", code)
        if described.flags & 1:
            under += self.notes()
        return [f"data {quoted(described.name)}", *deeper(under)]

    def raw_or_value(self, words, code):
        if code not in SIZES:
            return before(words, self.value()[0])
        data = self.take(SIZES[code])
        return [words + data.hex() + (meaning(code, data) if self.values else "")]


def before(words, lines):
    """The lines, with words before the first."""
    return [words + lines[0], *lines[1:]]


def deeper(lines):
    return [f"  {it}" for it in lines]


def main(file, values=None):
    sys.setrecursionlimit(20000)
    sys.stdout.write("".join(f"{it}\n" for it in Stream(Path(file).read_bytes(), values == "--values").contents()))


if __name__ == "__main__":
    main(*sys.argv[1:])
