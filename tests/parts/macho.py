"""Reads the shared libraries for macOS on arm64, which no machine here can run.

`faults` says what is wrong with one: what the system would refuse, what it shows or asks for beyond what it should, and each page
whose hash in its signature is another one. `assembly` writes its code, byte for byte, as text for an assembler of Linux on aarch64:
so a program there can be linked with that code and run.
"""
import hashlib
import struct
from pathlib import Path

MAGIC, ARM64, DYLIB = 0xFEEDFACF, 0x0100000C, 6
SEGMENT, SYMBOLS, ID, LOAD, BUILD, INFO, SIGNATURE = 0x19, 0x2, 0xD, 0xC, 0x32, 0x80000022, 0x1D
KNOWN = {SEGMENT, SYMBOLS, 0xB, ID, LOAD, BUILD, INFO, SIGNATURE, 0x1B, 0x26, 0x29}
SYSTEM = "/usr/lib/libSystem.B.dylib"
MACOS, VERSION = 1, 11 << 16
# Pages of the system, and those of a signature.
PAGE, SIGNED = 16384, 4096
# Sections of functions that run before and after all others, and of what each thread has.
INITIAL, THREADS = (0x9, 0xA, 0x16), range(0x11, 0x16)
WRITES, RUNS = 2, 4
AD_HOC = 2


def text_at(data, at):
    return data[at:data.index(b"\0", at)].decode()


def number(data, at):
    """A number of seven bits a byte, and what comes after it."""
    value = shift = 0
    while True:
        value |= (data[at] & 127) << shift
        at, shift = at + 1, shift + 7
        if data[at - 1] < 128:
            return value, at


class Macho:
    """A library, by its tables."""

    def __init__(self, data):
        self.data, self.segments, self.sections, self.loads, self.commands = data, [], [], [], []
        self.name, self.build, self.info, self.signature = "", (0, 0), (0,) * 10, (0, 0)
        self.magic, self.processor, _, self.kind, count, _, self.flags = struct.unpack_from("<7I", data)
        at = 32
        for _ in range(count):
            command, size = struct.unpack_from("<2I", data, at)
            self.take(command, at)
            at += size

    def take(self, command, at):
        data = self.data
        self.commands.append(command)
        if command == SEGMENT:
            place, size, begin, length, _, rights, sections = struct.unpack_from("<4Q2iI", data, at + 24)
            self.segments.append((place, size, begin, length, rights))
            self.sections += [struct.unpack_from("<I", data, at + 72 + 80 * it + 64)[0] & 255 for it in range(sections)]
        elif command in (ID, LOAD):
            name = text_at(data, at + struct.unpack_from("<I", data, at + 8)[0])
            if command == ID:
                self.name = name
            else:
                self.loads.append(name)
        elif command == BUILD:
            self.build = struct.unpack_from("<2I", data, at + 8)
        elif command == INFO:
            self.info = struct.unpack_from("<10I", data, at + 8)
        elif command == SIGNATURE:
            self.signature = struct.unpack_from("<2I", data, at + 8)

    def exports(self, at=0, front=""):
        """What it shows: names, and where they are."""
        start = self.info[8]
        size, at = number(self.data, start + at)
        found = {}
        if size:
            flags, place = number(self.data, at)
            found[front] = number(self.data, place)[0] if flags == 0 else None
        at += size
        count, at = self.data[at], at + 1
        for _ in range(count):
            more = text_at(self.data, at)
            child, at = number(self.data, at + len(more) + 1)
            found.update(self.exports(child, front + more))
        return found

    def rebased(self):
        """The places of the pointers into itself."""
        at, end, segment, place, found = self.info[0], self.info[0] + self.info[1], 0, 0, []

        def put(times, step):
            nonlocal place
            for _ in range(times):
                found.append(self.segments[segment][0] + place)
                place += step
        while at < end:
            code, low, at = self.data[at] & 0xF0, self.data[at] & 15, at + 1
            if code == 0x20:
                segment = low
                place, at = number(self.data, at)
            elif code == 0x30:
                more, at = number(self.data, at)
                place += more
            elif code == 0x40:
                place += 8 * low
            elif code == 0x50:
                put(low, 8)
            elif code == 0x60:
                times, at = number(self.data, at)
                put(times, 8)
            elif code == 0x70:
                more, at = number(self.data, at)
                put(1, 8 + more)
            elif code == 0x80:
                times, at = number(self.data, at)
                more, at = number(self.data, at)
                put(times, 8 + more)
            elif code not in (0, 0x10):
                raise ValueError(f"a rebase of {code:x}")
        return found

    def bound(self):
        """The places of the pointers to calls of others, with the names of these."""
        found = {}
        for at, size in ((self.info[2], self.info[3]), (self.info[4], self.info[5]), (self.info[6], self.info[7])):
            end, segment, place, name = at + size, 0, 0, ""
            while at < end:
                code, low, at = self.data[at] & 0xF0, self.data[at] & 15, at + 1
                if code == 0x40:
                    name = text_at(self.data, at)
                    at += len(name) + 1
                elif code == 0x70:
                    segment = low
                    place, at = number(self.data, at)
                elif code == 0x80:
                    more, at = number(self.data, at)
                    place += more
                elif code == 0x90:
                    found[self.segments[segment][0] + place] = name
                    place += 8
                elif code not in (0, 0x10, 0x30, 0x50):
                    raise ValueError(f"a bind of {code:x}")
        return found

    def signed(self):
        """What is wrong with its signature: a hash of each page before it."""
        begin, size = self.signature
        data = self.data[begin:begin + size]
        if begin % 16 or begin + size != len(self.data) or data[:4] != b"\xfa\xde\x0c\xc0":
            return ["no signature at its end"]
        parts = [struct.unpack_from(">2I", data, 12 + 8 * it) for it in range(struct.unpack_from(">I", data, 8)[0])]
        places = [place for kind, place in parts if kind == 0]
        if len(places) != 1 or data[places[0]:places[0] + 4] != b"\xfa\xde\x0c\x02":
            return ["no list of hashes"]
        (at,) = places
        flags, hashes, name, special, count, limit = struct.unpack_from(">6I", data, at + 12)
        length, kind, _, bits = struct.unpack_from("4B", data, at + 36)
        if (limit, length, kind, 1 << bits, special) != (begin, 32, 2, SIGNED, 0) or not flags & AD_HOC or count != -(-begin // SIGNED):
            return ["a list of hashes of another kind"]
        faults = [] if text_at(data, at + name) == Path(self.name).name else ["signed by another name"]
        for it in range(count):
            page = self.data[it * SIGNED:min((it + 1) * SIGNED, begin)]
            if hashlib.sha256(page).digest() != data[at + hashes + 32 * it:at + hashes + 32 * (it + 1)]:
                faults.append(f"page {it} has another hash")
        return faults


def faults(data, name, exports, calls):
    """What is wrong with the library of this name, which should show these calls of C, and may make those."""
    it = Macho(data)
    shown, asked = set(it.exports()), set(it.bound().values())
    wrong = {
        "not a library for arm64": (it.magic, it.processor, it.kind) != (MAGIC, ARM64, DYLIB),
        f"its name is {it.name}": it.name != f"@rpath/{name}",
        f"it is for the system {it.build}": it.build != (MACOS, VERSION),
        f"it loads {it.loads}": it.loads != [SYSTEM],
        f"commands that are not known: {set(it.commands) - KNOWN}": not set(it.commands) <= KNOWN,
        f"it shows others: {shown ^ {f'_{call}' for call in exports}}": shown != {f"_{call}" for call in exports},
        f"it asks for {asked - {f'_{call}' for call in calls}}": not asked <= {"dyld_stub_binder", *(f"_{call}" for call in calls)},
        "a segment that is written and run": any(rights & WRITES and rights & RUNS for *_, rights in it.segments),
        "a segment that begins within a page": any(place % PAGE or begin % PAGE for place, _, begin, *_ in it.segments),
        "functions that run by themselves": any(kind in INITIAL for kind in it.sections),
        "variables of threads": any(kind in THREADS for kind in it.sections),
    }
    return [fault for fault, is_so in wrong.items() if is_so] + it.signed()


def assembly(file):
    """The code of a library as text for an assembler: all of it in one section, with its calls of C as those of Linux."""
    it = Macho(file.read_bytes())
    pointers = {place: None for place in it.rebased()}
    pointers.update({place: "abort" if name == "dyld_stub_binder" else name[1:] for place, name in it.bound().items()})
    lines, at = ['.section .macos, "awx", @progbits', f".balign {PAGE}", "macos_image:"], 0

    def put(begin, length):
        if length:
            lines.append(f'.incbin "{file}", {begin}, {length}')

    def skip(length):
        if length:
            lines.append(f".space {length}")
    for place, size, begin, length, _ in it.segments:
        skip(place - at)
        at = place
        for pointer in sorted(where for where in pointers if place <= where < place + size):
            put(begin + at - place, pointer - at)
            lines.append(f".quad {pointers[pointer] or 'macos_image + ' + str(struct.unpack_from('<Q', it.data, begin + pointer - place)[0])}")
            at = pointer + 8
        put(begin + at - place, place + length - at)
        skip(size - length)
        at = place + size
    for name, place in it.exports().items():
        lines += [f".globl {name[1:]}", f".set {name[1:]}, macos_image + {place}"]
    return "\n".join([*lines, '.section .note.GNU-stack, "", @progbits', ""])
