"""hpr in process: changed versions of a program are integrated by what they compute.

    >>> import hpr
    >>> base = b"program\\nissued 1:1\\n1.1: x := 1;\\nend(x)\\n"
    >>> a = b"program\\nissued 1:1, 2:1\\n1.1: x := 1;\\n2.1: y := x + 1;\\nend(x, y)\\n"
    >>> merged = hpr.integrate(base, a, base)
    >>> merged.status
    <Status.DONE: 0>
    >>> print(merged.out.decode().splitlines()[-1])
    end(x, y)

The same as data, where two variants interfere:

    >>> b = base.replace(b":= 1", b":= 2")
    >>> told = hpr.data(["integrate", "base", "b", "c"], {"base": base, "b": b, "c": base.replace(b":= 1", b":= 3")})
    >>> told.status
    <Status.INTERFERENCE: 1>
    >>> [(conflict["variant"], conflict["point"]) for conflict in told.json["conflicts"]]
    [(1, {'kind': 'final', 'name': 'x'}), (2, {'kind': 'final', 'name': 'x'})]
    >>> hpr.places(base).places
    [Place(byte=19, length=12, tag='1.1')]

What each call promises is proved of the library below; `Answer` tells what it says. Calls keep nothing behind them, so any number of
threads may make them at once, each with STACK bytes of stack; Python's other threads go on meanwhile.

The library is the file that HPR_LIBRARY names, or the one in this package, or the one that the system finds by its name, in this order.
"""
import ctypes
import ctypes.util
import enum
import json
import os
import pathlib
from typing import Any, Callable, Dict, Iterable, List, Mapping, NamedTuple, Optional, Sequence, Tuple

__all__ = ["STACK", "Answer", "Data", "Place", "Places", "Status", "call", "data", "integrate", "places", "version"]

#: How many bytes of stack a call asks for.
STACK = 256 * 1024


class Status(enum.IntEnum):
    """How a call ended: the exit status of the program, or FORM."""

    DONE = 0
    #: the variants interfere
    INTERFERENCE = 1
    #: no program has the merged graph
    NO_PROGRAM = 2
    #: the budget of tries is spent
    SPENT = 3
    #: a file, a word of a state, a point or a command of a script is refused
    REFUSED = 4
    #: a word names a file that was not handed in
    ABSENT = 5
    #: the words are no call, or one that is not told as data
    WORDS = 7
    #: there was no memory
    MEMORY = 8
    #: a run did not end normally
    NOT_ENDED = 9
    #: an offered program hasn't the merged graph
    REJECTED = 10
    #: a word or a name has a zero byte in it, or is no Unicode
    FORM = 64


class Answer(NamedTuple):
    """What a call comes to: its status, and what the program writes to standard output and standard error."""

    status: Status
    out: bytes
    err: bytes


class Data(NamedTuple):
    """An answer as data: its status, and an object whose members docs/calling.md names; it has none where the status is FORM or MEMORY."""

    status: Status
    json: Dict[str, Any]


class Place(NamedTuple):
    """Where a part stands: the number of its first byte, from 0, how many bytes it has, and its tag."""

    byte: int
    length: int
    tag: str


class Places(NamedTuple):
    """Where the parts of a program stand in its text, in the order in which they begin: each from the first byte of its tag to the last one
    of its ``;``, ``fi`` or ``od``. Where the status is REFUSED there are none, and the refusal is the object of `data` for a refused file,
    with the name text."""

    status: Status
    places: List[Place]
    refusal: Dict[str, Any]


class _Sizes(ctypes.Structure):
    _fields_ = [("out", ctypes.c_size_t), ("err", ctypes.c_size_t)]


def _load() -> ctypes.CDLL:
    beside = pathlib.Path(__file__).with_name("libhpr.so.1")
    named = os.environ.get("HPR_LIBRARY") or (str(beside) if beside.is_file() else ctypes.util.find_library("hpr"))
    if named is None:
        raise ImportError("libhpr.so.1 is not found: c/build makes it, and HPR_LIBRARY names it")
    library = ctypes.CDLL(named)
    text = [ctypes.c_char_p, ctypes.c_size_t]
    given = text * 2 + [ctypes.POINTER(ctypes.c_size_t), ctypes.c_size_t] + text
    room = [ctypes.c_void_p, ctypes.c_size_t]
    library.hpr_version.argtypes = []
    library.hpr_integrate.argtypes = text * 3 + room * 2 + [ctypes.POINTER(_Sizes)]
    library.hpr_call.argtypes = given + room * 2 + [ctypes.POINTER(_Sizes)]
    library.hpr_data.argtypes = given + room + [ctypes.POINTER(ctypes.c_size_t)]
    library.hpr_places.argtypes = text + room + [ctypes.POINTER(ctypes.c_size_t)]
    for name in ("hpr_version", "hpr_integrate", "hpr_call", "hpr_data", "hpr_places"):
        getattr(library, name).restype = ctypes.c_uint32
    return library


_library = _load()


def _answer(function: Callable[..., int], given: Sequence[object], likely: int) -> Answer:
    """Makes a call with about as much room as its texts take, and once more where that was too little."""
    sizes, rooms = _Sizes(), (likely + 1024, 256)
    while True:
        out, err = ctypes.create_string_buffer(rooms[0]), ctypes.create_string_buffer(rooms[1])
        number = function(*given, out, rooms[0], err, rooms[1], ctypes.byref(sizes))
        if sizes.out <= rooms[0] and sizes.err <= rooms[1]:
            return Answer(Status(number), out.raw[: sizes.out], err.raw[: sizes.err])
        rooms = (max(rooms[0], sizes.out), max(rooms[1], sizes.err))


def _told(function: Callable[..., int], given: Sequence[object], likely: int) -> Tuple[Status, Any]:
    """The same for a call that tells data: its status, and the data; None where it has none."""
    size, room = ctypes.c_size_t(), 2 * likely + 1024
    while True:
        out = ctypes.create_string_buffer(room)
        number = function(*given, out, room, ctypes.byref(size))
        if size.value <= room:
            return Status(number), json.loads(out.raw[: size.value]) if size.value else None
        room = size.value


def _packed(texts: Iterable[str]) -> bytes:
    """The texts one after another, each with a zero byte behind it."""
    return b"".join(text.encode() + b"\0" for text in texts)


def version() -> Tuple[int, int, int]:
    """The version of the library."""
    number = _library.hpr_version()
    return number // 10_000, number // 100 % 100, number % 100


def integrate(base: bytes, a: bytes, b: bytes) -> Answer:
    """Integrates two variants with their base, which messages name base, a and b.

    The status is DONE, INTERFERENCE, NO_PROGRAM, SPENT, REFUSED or MEMORY.
    """
    given = [part for text in (base, a, b) for part in (text, len(text))]
    return _answer(_library.hpr_integrate, given, len(base) + len(a) + len(b))


def _given(words: Sequence[str], files: Mapping[str, bytes]) -> Optional[List[Any]]:
    """Words and files as the library takes them, if no zero byte stands in a word or a name and each is Unicode."""
    if any("\0" in text for text in (*words, *files)):
        return None
    try:
        line, names = _packed(words), _packed(files)
    except UnicodeEncodeError:
        return None
    contents = b"".join(files.values())
    lengths = (ctypes.c_size_t * len(files))(*map(len, files.values()))
    return [line, len(line), names, len(names), lengths, len(files), contents, len(contents)]


def call(words: Sequence[str], files: Mapping[str, bytes] = {}) -> Answer:
    """Makes the call of the program with these words, over these files by name."""
    given = _given(words, files)
    return Answer(Status.FORM, b"", b"") if given is None else _answer(_library.hpr_call, given, given[-1])


def data(words: Sequence[str], files: Mapping[str, bytes] = {}) -> Data:
    """The answer of integrate, affected, graph, run or verify as data: words and files are those of `call`, and so is the status. Other commands are WORDS."""
    given = _given(words, files)
    if given is None:
        return Data(Status.FORM, {})
    status, told = _told(_library.hpr_data, given, given[-1])
    return Data(status, told or {})


def places(text: bytes) -> Places:
    """Where the parts of a program stand in its text."""
    status, told = _told(_library.hpr_places, [text, len(text)], len(text))
    if status is not Status.DONE:
        return Places(status, [], told or {})
    return Places(status, [Place(one["byte"], one["length"], one["tag"]) for one in told], {})
