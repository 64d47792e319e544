"""JSON (RFC 8259), CBOR (RFC 8949), and scripts and tapes of calls, by a proved library: bytes in, bytes out.

    >>> import sval
    >>> sval.compact(b'{"a" : [1, 2]}')
    b'{"a":[1,2]}'
    >>> sval.to_cbor(b'[1, null]').hex()
    '9f01f6ff'
    >>> sval.filter(b'{"user": {"name": "a", "password": "b"}}', drop=["user.password"])
    b'{"user":{"name":"a"}}'

The library is libsval.so, which bindings/build makes. It is the file that SVAL_LIBRARY names, and else the one in bindings/out
of this checkout, or in the folder lib beside this file's.
"""

import ctypes
import os
import pathlib

__all__ = ["Error", "TooShort", "check", "compact", "pretty", "filter", "to_cbor", "from_cbor", "script_to_json"]
__all__ += ["tape_to_json", "tape_to_cbor"]

DONE, TOO_SHORT, NO_MEMORY = 0, 8, 10
COMPACT, PRETTY = 0, 1
DROP, KEEP = 0, 1
FOLDERS = ["out", "lib"]
MESSAGES = {
    3: "line {at} is no call",
    4: "no value goes on with call {at}",
    5: "the calls are not one whole value",
    6: "a key of a map can't be a key of JSON",
    7: "invalid number",
    12: "invalid UTF-8 at byte {at}",
    13: "invalid JSON at byte {at}",
    14: "text that says it is JSON has no CBOR",
    15: "a number is no integer from -2^127 to 2^128-1",
    16: "invalid CBOR",
    18: "invalid tape at byte {at}",
    20: "path {at} has an empty label",
}


class Error(ValueError):
    """An input has no bytes to give. `status` is one of sval.h, and `at` the place of the fault, or None."""

    def __init__(self, status, at):
        self.status = status
        self.at = at if status in (3, 4, 12, 13, 18, 20) else None
        super().__init__(MESSAGES.get(status, "status {status}").format(status=status, at=at))


class TooShort(Error):
    """The buffer that was given is too short. `due` is the number of bytes that are due."""

    def __init__(self, due):
        super().__init__(TOO_SHORT, 0)
        self.due = due
        self.args = (f"the buffer is too short for {due} bytes",)


class Report(ctypes.Structure):
    _fields_ = [("status", ctypes.c_uint8), ("written", ctypes.c_size_t), ("at", ctypes.c_uint64)]


def opened():
    """The library, its functions declared as sval.h declares them."""
    around = pathlib.Path(__file__).resolve().parent.parent
    beside = next((path for folder in FOLDERS if (path := around / folder / "libsval.so").exists()), "libsval.so")
    library = ctypes.CDLL(os.environ.get("SVAL_LIBRARY") or str(beside))
    read = [ctypes.c_char_p, ctypes.c_size_t]
    for name in ["json_compact", "json_pretty", "json_to_cbor", "cbor_to_json", "script_to_json"]:
        function = getattr(library, f"sval_{name}")
        function.argtypes, function.restype = [*read, ctypes.c_char_p, ctypes.c_size_t], Report
    library.sval_json_check.argtypes, library.sval_json_check.restype = read, Report
    write = [ctypes.c_char_p, ctypes.c_size_t]
    library.sval_tape_to_json.argtypes, library.sval_tape_to_json.restype = [*read, ctypes.c_uint32, *write], Report
    library.sval_tape_to_cbor.argtypes, library.sval_tape_to_cbor.restype = [*read, *write], Report
    library.sval_json_filter.argtypes, library.sval_json_filter.restype = [*read, ctypes.c_uint32, *read, *write], Report
    return library


LIBRARY = opened()


def written(report):
    """How many bytes a call wrote."""
    if report.status == DONE:
        return report.written
    if report.status == TOO_SHORT:
        raise TooShort(report.written)
    if report.status == NO_MEMORY:
        raise MemoryError
    raise Error(report.status, report.at)


def call(function, data, room, *words):
    """The bytes that are due, by a buffer of `room` bytes, and where that is too short by one of the right length."""
    data = bytes(data)
    try:
        return call_once(function, data, room, *words)
    except TooShort as error:
        return call_once(function, data, error.due, *words)


def call_once(function, data, room, *words):
    """The bytes that are due, by a buffer of `room` bytes; TooShort where they are more. `words` go before the buffer."""
    # A new object of no bytes is the one empty `bytes`, so the buffer has a byte more than is told.
    out = ctypes.create_string_buffer(room + 1)
    count = written(function(data, len(data), *words, out, room))
    return out.raw[:count]


def check(data):
    """Raises Error unless the bytes are JSON."""
    data = bytes(data)
    written(LIBRARY.sval_json_check(data, len(data)))


def compact(data):
    """JSON without white space. The number -0 is written as 0."""
    return call(LIBRARY.sval_json_compact, data, len(data))


def pretty(data):
    """JSON with a line for each element and member, and two spaces for each level. The number -0 is written as 0."""
    return call(LIBRARY.sval_json_pretty, data, 2 * len(data))


def filter(document, drop=None, keep=None):
    """JSON without the members that the paths of `drop` name, or with no others than those of `keep`, and without white space.

    A path is a text of labels with dots between them: "user.password" names the member "password" of the member "user", also
    within arrays. Either `drop` or `keep` is given, as an iterable of paths; a single text is refused.
    """
    if (drop is None) == (keep is None):
        raise TypeError("filter takes either drop or keep")
    rule, paths = (DROP, drop) if keep is None else (KEEP, keep)
    if isinstance(paths, (str, bytes)):
        raise TypeError("the paths of filter are an iterable of texts: [\"user.password\"]")
    text = b"".join(path_line(path) for path in paths)
    return call(LIBRARY.sval_json_filter, document, len(document), rule, text, len(text))


def path_line(path):
    """The line of a path."""
    if "\n" in path or path.endswith("\r"):
        raise ValueError("a path has no line feed, and no carriage return at its end")
    return path.encode() + b"\n"


def to_cbor(data):
    """The CBOR of the value that JSON denotes."""
    return call(LIBRARY.sval_json_to_cbor, data, len(data))


def from_cbor(data):
    """The JSON of one item of CBOR. A byte string is written as an array of numbers."""
    return call(LIBRARY.sval_cbor_to_json, data, 2 * len(data))


def script_to_json(script):
    """The JSON of the one value that a script of calls spells."""
    return call(LIBRARY.sval_script_to_json, script, len(script))


def tape_to_json(tape, pretty=False):
    """The JSON of the one value that the calls of a tape spell, without white space, or laid out as `pretty` does."""
    return call(LIBRARY.sval_tape_to_json, tape, 2 * len(tape), PRETTY if pretty else COMPACT)


def tape_to_cbor(tape):
    """The CBOR of the one value that the calls of a tape spell."""
    return call(LIBRARY.sval_tape_to_cbor, tape, len(tape))
