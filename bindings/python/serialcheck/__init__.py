"""serialcheck from Python, over the C library: whether bytes are one Java serialization stream that a filter admits.

    check = serialcheck.Filter("maxbytes=1000000;java.util.*;java.lang.*;!*", anywhere=True)
    answer = check.check(body)
    if not answer:
        raise ValueError(answer)        # no at 4 to 30: ClassRejected

The library is libserialcheck.so, on Windows serialcheck.dll, on macOS libserialcheck.dylib: the file that SERIALCHECK_LIBRARY
names, the one beside this file, or that of the system. That for macOS was never run by those who made it, so there it is asked a
few streams first, and where an answer is wrong the import fails.
"""
import ctypes
import errno
import os
import sys
from pathlib import Path
from typing import Optional, Union

STRICT = 1
ANYWHERE = 2

#: The most bytes of a text of `show` and `list`, where no other limit is given.
MOST_TEXT = 1 << 24

BytesLike = Union[bytes, bytearray, memoryview]
PathLike = Union[str, "os.PathLike[str]"]

YES, NO, MISUSE, NO_MEMORY, MORE, SPENT, SMALL = range(7)

# More bytes than a line, a name or a sentence of the library has.
_MOST_WORDS = 255
# The room in which a text is written first.
_FIRST_TEXT = 1 << 16
# The most bytes of a filter's file.
_MOST_FILE = 1 << 24


class Answer(ctypes.Structure):
    """What a check answers: true for a yes, whose counts it has, and false for a refusal. Its text is the line of the program.

    Of a yes, and 0 of a refusal:
        bytes     how many bytes the stream has
        contents  how many contents it has at the top
        refs      its references, as the filter's `maxrefs` counts them
        depth     its depth, as the filter's `maxdepth` counts it
        handles   how many handles it assigns
    Of a refusal, and 0 of a yes:
        from_byte the offset of the faulty token, in bytes; `start` is an older name of it
        to_byte   how many bytes decide: no admitted stream begins with these (of Truncated: all, which are no stream); an older
                  name is `end`
    Of both:
        whole     the length of the longest front of the bytes that is a stream which the filter admits, or 0: where to cut
    """

    from_byte: int
    to_byte: int
    bytes: int
    contents: int
    refs: int
    depth: int
    handles: int
    whole: int

    _fields_ = [
        ("status", ctypes.c_uint32),
        ("number", ctypes.c_uint32),
        ("from_byte", ctypes.c_uint64),
        ("to_byte", ctypes.c_uint64),
        ("bytes", ctypes.c_uint64),
        ("contents", ctypes.c_uint64),
        ("refs", ctypes.c_uint64),
        ("depth", ctypes.c_uint64),
        ("handles", ctypes.c_uint64),
        ("name_from", ctypes.c_uint64),
        ("name_to", ctypes.c_uint64),
        ("whole", ctypes.c_uint64),
    ]

    #: The name of the class that was refused, in which letters other than printable ASCII are escaped, so that it may be
    #: logged; None with another reason.
    class_name: Optional[str] = None

    def __init__(self):
        super().__init__(status=NO_MEMORY)  # no yes before a call has written it

    def __bool__(self):
        return self.status == YES

    @property
    def start(self) -> int:
        """An older name of `from_byte`."""
        return self.from_byte

    @property
    def end(self) -> int:
        """An older name of `to_byte`."""
        return self.to_byte

    @property
    def reason(self) -> Optional[str]:
        """The name of the reason of a refusal (docs/REFUSALS.md); None of a yes."""
        return _text(_library.serialcheck_reason_name, self.number) if self.status == NO else None

    @property
    def meaning(self) -> Optional[str]:
        """What the reason of a refusal means, for a person: a sentence of printable ASCII; None of a yes."""
        return _text(_library.serialcheck_reason_text, self.number) if self.status == NO else None

    def __str__(self):
        return (_text(_library.serialcheck_line, self) or f"status {self.status}").rstrip()

    def __repr__(self):
        return f"<serialcheck.Answer {self}>" if self.class_name is None else f'<serialcheck.Answer {self} "{self.class_name}">'


class Text:
    """A text of `show` or `list`, which is its `str`; false where there is none, as the bytes are no stream.

    text     whole lines, in ASCII; empty where there are none
    is_cut   whether the text goes on: it has the whole lines that the limit had room for
    answer   the refusal of bytes that are no stream; None of a text
    """

    def __init__(self, text: str, is_cut: bool, answer: Optional[Answer]) -> None:
        self.text = text
        self.is_cut = is_cut
        self.answer = answer

    def __bool__(self):
        return self.answer is None

    def __str__(self):
        return self.text

    def __repr__(self):
        lines = f"{self.text.count(chr(10))} lines{', cut' if self.is_cut else ''}"
        return f"<serialcheck.Text {lines if self else self.answer}>"


class _Handle(ctypes.Structure):
    _fields_ = [("at", ctypes.c_void_p), ("is_open", ctypes.c_bool)]


def _names():
    """What the library is called beside this file, and what that of the system is called."""
    if os.name == "nt":
        return "serialcheck.dll", "serialcheck.dll"
    if sys.platform == "darwin":
        return "libserialcheck.dylib", "libserialcheck.dylib"
    return "libserialcheck.so", "libserialcheck.so.0"


def _load():
    named = os.environ.get("SERIALCHECK_LIBRARY")
    name, of_system = _names()
    beside = Path(__file__).resolve().parent / name
    library = ctypes.CDLL(named or (str(beside) if beside.exists() else of_system))
    text, number = [ctypes.c_char_p, ctypes.c_size_t], ctypes.c_uint32
    answer, handle = ctypes.POINTER(Answer), ctypes.POINTER(_Handle)
    for name, words in {
        "check": [*text, *text, number, answer],
        "filter_new": [*text, *text, number, answer, handle],
        "filter_read": [*text, *text, number, answer, handle],
        "filter_check": [handle, *text, answer],
        "class": [*text, answer, *text, answer],
        "line": [answer, *text, answer],
        "reason_name": [number, *text, answer],
        "reason_text": [number, *text, answer],
        "show": [*text, ctypes.c_size_t, *text, answer],
        "list": [*text, *text, *text, ctypes.c_size_t, *text, answer],
        "version": [],
        "filter_free": [handle],
        "stream_new": [handle, answer, handle],
        "stream_feed": [handle, *text, answer],
        "stream_class": [handle, *text, answer],
        "stream_end": [handle, answer],
        "stream_free": [handle],
    }.items():
        call = getattr(library, f"serialcheck_{name}")
        call.argtypes = words
        call.restype = None if name.endswith("_free") else ctypes.c_uint32
    return library


_library = _load()

_number = _library.serialcheck_version()
__version__ = f"{_number >> 16}.{_number >> 8 & 255}.{_number & 255}"


def _text(call, *of, most=_MOST_WORDS):
    """The text that a call writes, in ASCII; None where there is none."""
    room, told = ctypes.create_string_buffer(most), Answer()
    call(*of, room, most, told)
    if told.status == NO_MEMORY:
        raise MemoryError("serialcheck")
    return room.raw[: told.bytes].decode("ascii") if told.status == YES else None


def _class_name(answer, call, *of):
    """The name of the class that was refused, if one was, as the program prints it without its quotes."""
    if answer.name_to == 0:
        return None
    quoted = _text(call, *of, most=6 * (answer.name_to - answer.name_from) + 2)
    return quoted and quoted[1:-1]


def _settled(answer, data=None):
    """The answer of a check, with the class where these are all bytes; a fault of the caller or of memory is an exception."""
    if answer.status == NO and data is not None:
        answer.class_name = _class_name(answer, _library.serialcheck_class, data, len(data), answer)
    if answer.status in (YES, NO):
        return answer
    if answer.status == MISUSE:
        raise ValueError(str(answer))
    if answer.status == NO_MEMORY:
        raise MemoryError("serialcheck")
    raise ValueError("serialcheck: closed")


def _bytes(data):
    """The bytes of a bytes-like object: of a class below `bytes` those that it holds, whatever its methods answer.

    (`bytes` would also take a number, and make so many zeros of it.)
    """
    return data if type(data) is bytes else bytes(memoryview(data))


def _flags(strict, anywhere):
    return (STRICT if strict else 0) | (ANYWHERE if anywhere else 0)


def _words(modules, strict, anywhere):
    """The words of a filter that are not as they are where none is given."""
    return [name for name, is_so in (("modules", modules), ("strict", strict), ("anywhere", anywhere)) if is_so]


def _filter(read, data, modules, strict, anywhere):
    """The handle of the filter that a call reads of bytes."""
    handle, answer, table = _FilterHandle(), Answer(), modules.encode()
    read(data, len(data), table, len(table), _flags(strict, anywhere), answer, handle)
    _settled(answer)
    return handle


def check(data: BytesLike, filter: str = "", strict: bool = False, anywhere: bool = False) -> Answer:
    """Checks the bytes of a whole stream under the filter of a text, which is read each time. Any thread may call it.

    The words are those of `Filter`. Raises ValueError where the filter is faulty, which names the piece, counted from 0;
    MemoryError; TypeError where `data` has no bytes.
    """
    data, text, answer = _bytes(data), filter.encode(), Answer()
    _library.serialcheck_check(data, len(data), text, len(text), _flags(strict, anywhere), answer)
    return _settled(answer, data)


def show(data: BytesLike, limit: int = MOST_TEXT) -> Text:
    """The text of `serialcheck show`: what a stream holds, as whole lines of at most `limit` bytes.

    Bytes that are no stream have none: the `Text` is false, and its `answer` says why. Raises MemoryError; TypeError where `data`
    has no bytes.
    """
    return _shown(_library.serialcheck_show, (_bytes(data),), limit)


def list(data: BytesLike, filter: str = "", modules: str = "", limit: int = MOST_TEXT) -> Text:
    """The text of `serialcheck list`: a line for each class name, with how often it occurs and what the filter says of it.

    The filter refuses nothing here. modules: a table of lines `package=module`. The rest is as of `show`; raises ValueError also
    where the filter or the table is faulty.
    """
    return _shown(_library.serialcheck_list, (_bytes(data), filter.encode(), modules.encode()), limit)


def _shown(call, of, limit):
    """The text that a call writes of bytes, in a small room first."""
    if limit < 0:
        raise ValueError("serialcheck: a limit below 0")
    words, answer = [it for data in of for it in (data, len(data))], Answer()
    room = ctypes.create_string_buffer(min(limit, _FIRST_TEXT))
    call(*words, limit, room, len(room), answer)
    if answer.status == SMALL and len(room) < limit:
        room = ctypes.create_string_buffer(answer.bytes or limit)
        call(*words, limit, room, len(room), answer)
    if answer.status == SMALL:
        return Text(room.raw[: room.raw.rfind(b"\n") + 1].decode("ascii"), True, None)
    answer = _settled(answer)
    return Text(room.raw[: answer.bytes].decode("ascii"), False, None) if answer else Text("", False, answer)


class _FilterHandle(_Handle):
    """The handle of a filter. The filter is let go with it: when its `Filter` is closed, and no call uses the handle any more."""

    def __del__(self, free=_library.serialcheck_filter_free):
        free(self)


class _StreamHandle(_Handle):
    """The handle of a stream, which is let go with it."""

    def __del__(self, free=_library.serialcheck_stream_free):
        free(self)


class Filter:
    """A filter that is read once, for many checks.

    Any number of threads may use it at once, and none waits for another: a check runs without the interpreter's lock.
    """

    def __init__(self, filter: str = "", modules: str = "", strict: bool = False, anywhere: bool = False) -> None:
        """Reads the filter.

        filter: its text, as `ObjectInputFilter.Config.createFilter` takes it (docs/FILTERS.md)
        modules: a table of lines `package=module`
        strict: refuse a class that no pattern matches
        anywhere: ask the filter about every class name that can be read at any place of the bytes

        Raises ValueError where the text or the table is faulty, which names the piece or the line, counted from 0; MemoryError.
        """
        self._handle: Optional[_FilterHandle] = _filter(_library.serialcheck_filter_new, filter.encode(), modules, strict, anywhere)
        self._words = [repr(filter), *_words(modules, strict, anywhere)]

    @classmethod
    def from_file(cls, path: PathLike, modules: str = "", strict: bool = False, anywhere: bool = False) -> "Filter":
        """Reads the filter of a file, as the program's `--filter-file` does: its lines are pieces, and those that begin with `#` are none.

        path: a file of at most 2^24 bytes of UTF-8; the other words are those of `Filter`

        Raises ValueError where the file or the table is faulty, which names the piece or the line, counted from 0; OSError where
        the file cannot be read, or is longer; MemoryError.
        """
        with open(path, "rb") as file:
            data = file.read(_MOST_FILE + 1)
        if len(data) > _MOST_FILE:
            raise OSError(errno.EFBIG, f"more than {_MOST_FILE} bytes", os.fspath(path))
        made = cls.__new__(cls)
        made._handle = _filter(_library.serialcheck_filter_read, data, modules, strict, anywhere)
        made._words = [f"from {os.fspath(path)!r}", *_words(modules, strict, anywhere)]
        return made

    def check(self, data: BytesLike) -> Answer:
        """Checks the bytes of a whole stream, of a copy where they are not of class `bytes`: hand on what was checked.

        Raises ValueError where the filter is closed; MemoryError.
        """
        data, answer = _bytes(data), Answer()
        _library.serialcheck_filter_check(self._open(), data, len(data), answer)
        return _settled(answer, data)

    def stream(self) -> "Stream":
        """Begins the check of one stream whose bytes come in pieces. The filter may be closed before the stream.

        Raises ValueError where the filter is closed; MemoryError.
        """
        answer, handle = Answer(), _StreamHandle()
        _library.serialcheck_stream_new(self._open(), answer, handle)
        if answer.status != MORE:
            _settled(answer)
        return Stream(handle)

    def close(self) -> None:
        """Closes the filter. Calls of other threads that have begun end as they would; later ones raise ValueError."""
        self._handle = None

    def _open(self):
        """The handle. A call that has it as an argument keeps the filter."""
        handle = self._handle
        if handle is None:
            raise ValueError("serialcheck: closed")
        return handle

    def __repr__(self):
        return f"<serialcheck.Filter {', '.join(self._words)}{'' if self._handle else ', closed'}>"

    def __enter__(self):
        return self

    def __exit__(self, *_):
        self.close()


class Stream:
    """The check of one stream that comes in pieces: `feed` each piece while it answers None, and then `end`.

    One thread uses it at a time. Act on no byte before `end` has answered yes.
    """

    def __init__(self, handle):
        """Made by `Filter.stream`."""
        self._handle = handle
        self._bytes = 0
        self._class_name = None

    def feed(self, data: BytesLike) -> Optional[Answer]:
        """Takes the next bytes: None where they decide nothing, else the refusal, whatever comes behind them.

        Raises ValueError where the stream was ended or closed; MemoryError.
        """
        data, answer = _bytes(data), Answer()
        _library.serialcheck_stream_feed(self._handle, data, len(data), answer)
        self._bytes += len(data) if self._handle.is_open else 0
        if answer.status == MORE:
            return None
        if answer.status == NO:
            answer.class_name = self._class_name = _class_name(answer, _library.serialcheck_stream_class, self._handle)
        return _settled(answer)

    def end(self) -> Answer:
        """Ends the stream: what a check of all its bytes at once answers.

        Raises ValueError where the stream was ended or closed; MemoryError.
        """
        answer = Answer()
        _library.serialcheck_stream_end(self._handle, answer)
        if answer.status == NO:
            answer.class_name = self._class_name
        return _settled(answer)

    def close(self) -> None:
        """Lets the stream go, if it was not ended."""
        _library.serialcheck_stream_free(self._handle)

    def __repr__(self):
        return f"<serialcheck.Stream {self._bytes} bytes{'' if self._handle.is_open else ', ended'}>"

    def __enter__(self):
        return self

    def __exit__(self, *_):
        self.close()


_ARRAY_LIST = bytes.fromhex("aced0005737200136a6176612e7574696c2e41727261794c6973747881d21d99c7619d03000149000473697a657870000000017704000000017400016178")
# Filters, whether names at any place are asked of, streams, and the right answers: a yes, a no, and a name in a block of data.
_TRIALS = (
    ("java.util.*;!*", False, _ARRAY_LIST, "yes 62 bytes, 1 contents, 3 refs, depth 2"),
    ("!java.**", False, _ARRAY_LIST, "no at 6 to 27: ClassRejected"),
    ("!A", True, bytes.fromhex("aced0005770c720001410000000000000000"), "no at 6 to 10: HiddenName"),
)


def _try():
    """Asks the library a few streams. Raises ImportError where it answers another thing than is right."""
    for text, anywhere, data, right in _TRIALS:
        try:
            with Filter(text, anywhere=anywhere) as asked:
                found = str(asked.check(data))
        except (ValueError, MemoryError) as fault:
            found = repr(fault)
        if found != right:
            raise ImportError(f"serialcheck: the library for this machine answers `{found}` where `{right}` is right, so it is not used. Use the package of npm, whose WebAssembly module runs "
                              "on any machine with Node, and tell the maintainers of serialcheck of this line")


if sys.platform == "darwin":
    _try()
