"""The binding against Python's json and, where it is there, cbor2: random values and bytes, cut and changed texts.

    bindings/python/test_sval.py [NUMBER [SEED]]      NUMBER random inputs, 10,000 where none is given
"""

import json
import random
import sys

import sval

try:
    import cbor2
except ImportError:
    cbor2 = None

TEXTS = ["", "a", "é", "\x00\x1f\x7f", '"\\/', "\U0001f600", "\u2028", "key " * 20]
SPACES = ["", " ", "\n", "\t\r "]


class Number(str):
    """A number by its digits, so that none is lost."""


def random_text(rng):
    return "".join(rng.choice(TEXTS) for _ in range(rng.randrange(3)))


def random_number(rng, whole):
    digits = str(rng.choice([0, rng.randrange(30), rng.randrange(2**70), 2**128 - 1]))
    sign = rng.choice(["", "-"]) if digits != str(2**128 - 1) else ""
    if whole:
        return Number(sign + digits)
    return Number(sign + digits + rng.choice(["", ".5", ".250"]) + rng.choice(["", "e7", "E+07", "e-300"]))


def random_value(rng, depth, whole):
    """A value of JSON; with `whole` one whose numbers are whole."""
    kind = rng.randrange(6 if depth > 0 else 4)
    if kind == 0:
        return rng.choice([None, True, False])
    if kind in (1, 2):
        return random_number(rng, whole)
    if kind == 3:
        return random_text(rng)
    if kind == 4:
        return [random_value(rng, depth - 1, whole) for _ in range(rng.randrange(5))]
    return {random_text(rng): random_value(rng, depth - 1, whole) for _ in range(rng.randrange(5))}


def spelled_text(rng, text):
    return json.dumps(text, ensure_ascii=rng.random() < 0.5)


def spelled(rng, value, space):
    """A text of JSON that denotes the value, with white space of the generator's choice."""
    gap = lambda: space and rng.choice(SPACES)
    if isinstance(value, Number):
        return str(value)
    if isinstance(value, str):
        return spelled_text(rng, value)
    if isinstance(value, list):
        return "[" + ",".join(gap() + spelled(rng, it, space) + gap() for it in value) + gap() + "]"
    if isinstance(value, dict):
        members = [gap() + spelled_text(rng, name) + gap() + ":" + gap() + spelled(rng, it, space) for name, it in value.items()]
        return "{" + ",".join(members) + gap() + "}"
    return json.dumps(value)


def read(data):
    """What Python's json reads, with numbers by their digits, or None where it refuses; it takes more than JSON."""
    def refuse(name):
        raise ValueError(name)

    if data.startswith(b"\xef\xbb\xbf"):
        raise ValueError("a byte order mark")
    return json.loads(data.decode(), parse_int=Number, parse_float=Number, parse_constant=refuse)


def has_lone_surrogate(value):
    """Whether a text has a code point that UTF-8 hasn't: Python takes an escape of one, and RFC 8259 gives it no meaning."""
    return any(0xD800 <= ord(it) < 0xE000 for it in json.dumps(value, ensure_ascii=False))


def settled(value):
    """The value with 0 for each number -0."""
    if isinstance(value, Number):
        return Number("0") if value == "-0" else value
    if isinstance(value, list):
        return [settled(it) for it in value]
    if isinstance(value, dict):
        return {name: settled(it) for name, it in value.items()}
    return value


def numbers(value):
    """The value with each whole number as one."""
    if isinstance(value, Number):
        return int(value)
    if isinstance(value, list):
        return [numbers(it) for it in value]
    if isinstance(value, dict):
        return {name: numbers(it) for name, it in value.items()}
    return value


def outcome(call, *words):
    try:
        return call(*words)
    except (ValueError, RecursionError) as error:
        return error


def test_rooms(function, data, due):
    """Each length too short by one, none at all, and just enough."""
    assert sval.call_once(function, data, len(due)) == due
    for room in {0, len(due) - 1}:
        error = outcome(sval.call_once, function, data, room)
        assert isinstance(error, sval.TooShort) and error.due == len(due), (data, room, error)


def test_text(data):
    """Any bytes: JSON exactly where Python says so, and the same value."""
    theirs, ours = outcome(read, data), outcome(sval.compact, data)
    checked = outcome(sval.check, data)
    if isinstance(theirs, Exception) or has_lone_surrogate(theirs):
        assert isinstance(ours, sval.Error) and str(checked) == str(ours), (data, theirs, ours)
        if ours.status == 13:
            test_place(data, ours.at)
        return
    assert not isinstance(ours, Exception) and checked is None, (data, theirs, ours)
    assert read(ours) == settled(theirs), (data, ours)
    assert len(ours) <= len(data), (data, ours)
    assert sval.compact(ours) == ours, (data, ours)
    test_rooms(sval.LIBRARY.sval_json_compact, data, ours)


def test_place(data, at):
    """The bytes before the place begin a text of JSON, which the library then finds to end too early."""
    assert at <= len(data)
    error = outcome(sval.check, data[:at])
    assert error is None or error.status == 12 or error.at == at, (data, at, error)


def test_cbor(value, data):
    """A value of whole numbers: its CBOR is what cbor2 reads as the same value, its JSON comes back, and is laid out as json's."""
    cbor = sval.to_cbor(data)
    test_rooms(sval.LIBRARY.sval_json_to_cbor, data, cbor)
    back = sval.from_cbor(cbor)
    test_rooms(sval.LIBRARY.sval_cbor_to_json, cbor, back)
    assert back == sval.compact(data), (data, cbor, back)
    laid = sval.pretty(data)
    assert laid.decode() == json.dumps(numbers(value), indent=2, ensure_ascii=False), (data, laid)
    test_rooms(sval.LIBRARY.sval_json_pretty, data, laid)
    if cbor2 is not None:
        assert cbor2.loads(cbor) == numbers(value), (data, cbor)
        assert sval.from_cbor(cbor2.dumps(numbers(value))) == back, (data, cbor)


def test_item(data):
    """Any bytes: an answer, and JSON of what cbor2 reads too, where both read an item."""
    ours = outcome(sval.from_cbor, data)
    if isinstance(ours, Exception):
        assert isinstance(ours, sval.Error) and ours.status in (6, 16), (data, ours)
        return
    read(ours)
    test_rooms(sval.LIBRARY.sval_cbor_to_json, data, ours)
    # cbor2 looks at what tags mean, as that a text is a date, and the library passes over all but 2 and 3.
    if cbor2 is not None and not any(0xC0 <= it <= 0xDB for it in data):
        cbor2.loads(data)


def test_script(rng, data):
    """A script of a text, and any bytes in its place."""
    script = b"text_begin -\ntext_fragment =" + data.hex().encode() + b"\ntext_end\n"
    ours = outcome(sval.script_to_json, script)
    text = outcome(bytes.decode, data)
    if isinstance(text, Exception):
        assert ours.status == 3 and ours.at == 2, (script, ours)
    else:
        assert json.loads(ours) == text, (script, ours)
        test_rooms(sval.LIBRARY.sval_script_to_json, script, ours)
    ours = outcome(sval.script_to_json, data)
    assert isinstance(ours, sval.Error) and ours.status in (3, 4, 5), (data, ours)


def leb128(number):
    """A number as a tape has it."""
    return bytes([number]) if number < 128 else bytes([number % 128 + 128]) + leb128(number // 128)


def text_calls(text):
    """The calls of a text, in one fragment."""
    data = text.encode()
    return b"\x0c\x01" + leb128(len(data)) + b"\x0d" + leb128(len(data)) + data + b"\x0f"


def tape_of(value):
    """A tape of a value of whole numbers."""
    if isinstance(value, Number):
        return b"\x0b" + leb128(2 * int(value) if int(value) >= 0 else -2 * int(value) - 1) if int(value) < 2**127 else b"\x06" + leb128(int(value))
    if isinstance(value, str):
        return text_calls(value)
    if isinstance(value, list):
        return b"\x1a\x00" + b"".join(b"\x24" + tape_of(it) + b"\x2a" for it in value) + b"\x1f"
    if isinstance(value, dict):
        parts = [b"\x25" + text_calls(name) + b"\x2b\x26" + tape_of(it) + b"\x2c" for name, it in value.items()]
        return b"\x1b\x00" + b"".join(parts) + b"\x20"
    return {None: b"\x00", False: b"\x01\x00", True: b"\x01\x01"}[value]


def test_tape(rng, value, data):
    """A tape of a value of whole numbers gives what its JSON does; a changed one gives that of some value, or a fault."""
    tape = tape_of(value)
    assert sval.tape_to_json(tape) == sval.compact(data), (tape, data)
    assert sval.tape_to_json(tape, pretty=True) == sval.pretty(data), (tape, data)
    assert sval.tape_to_cbor(tape) == sval.to_cbor(data), (tape, data)
    other = changed(rng, tape)
    ours, cbor = outcome(sval.tape_to_json, other), outcome(sval.tape_to_cbor, other)
    if isinstance(ours, Exception):
        assert isinstance(ours, sval.Error) and ours.status in (4, 5, 6, 18), (other, ours)
        assert isinstance(cbor, sval.Error) and (cbor.status, cbor.at) == (ours.status, ours.at), (other, ours, cbor)
    else:
        read(ours)


def left_of(value, paths, keeps):
    """What is left of a value, by paths as lists of names."""
    if isinstance(value, list):
        return [left_of(it, paths, keeps) for it in value]
    if not isinstance(value, dict):
        return value
    left = {}
    for name, it in value.items():
        tails = [path[1:] for path in paths if path[0] == name]
        if [] in tails or (keeps and not tails):
            if keeps and tails:
                left[name] = it
        else:
            left[name] = left_of(it, tails, keeps)
    return left


def names_in(value):
    """The names of members that can be labels of a path."""
    if isinstance(value, list):
        return {name for it in value for name in names_in(it)}
    if not isinstance(value, dict):
        return set()
    return {name for name in value if name} | {name for it in value.values() for name in names_in(it)}


def test_single_path():
    """A text isn't taken for the paths that are its letters."""
    try:
        sval.filter(b"{}", drop="password")
    except TypeError:
        return
    raise AssertionError("filter takes a text for its paths")


def test_filter(rng, value, data):
    """Random paths leave what they leave of what Python read."""
    names = sorted(names_in(value) | {"none"})
    paths = [[rng.choice(names) for _ in range(rng.randrange(1, 3))] for _ in range(rng.randrange(4))]
    words = [".".join(path) for path in paths]
    for keeps in (False, True):
        ours = sval.filter(data, keep=words) if keeps else sval.filter(data, drop=words)
        assert read(ours) == settled(left_of(value, paths, keeps)), (data, words, keeps, ours)
        assert len(ours) <= len(data), (data, words, ours)


def changed(rng, data):
    """The bytes with one dropped, doubled, replaced or cut off."""
    at = rng.randrange(len(data) + 1)
    return rng.choice([
        data[:at], data[:at] + data[at + 1 :], data[:at] + data[max(0, at - 1) :],
        data[:at] + bytes([rng.randrange(256)]) + data[at + 1 :], data[:at] + rng.choice(b'[]{}:,"\\-0.e tfn').to_bytes(1, "big") + data[at:],
    ])


def test_rows():
    """Rows whose answers are known."""
    assert sval.compact(b' {"a" : [1, -0, 1.50e+3]} ') == b'{"a":[1,0,1.50e+3]}'
    for call, data, status, at in [
        (sval.check, b"[1,]", 13, 3), (sval.compact, b"", 13, 0), (sval.compact, b'"\xff"', 12, 1),
        (sval.compact, b'"\\ud800"', 13, None), (sval.pretty, b"[1 2]", 13, 3), (sval.to_cbor, b"[1.5]", 15, None), (sval.from_cbor, b"\x62\xc3", 16, None),
        (sval.from_cbor, b"\xa1\x80\x01", 6, None), (sval.script_to_json, b"null\nnonsense\n", 3, 2),
        (sval.script_to_json, b"null\nnull\n", 4, 2), (sval.script_to_json, b"seq_begin -\n", 5, None),
    ]:
        error = outcome(call, data)
        assert isinstance(error, sval.Error) and error.status == status, (data, error)
        assert at is None or error.at == at, (data, error)
    for paths, at in [([""], 1), (["a", "b..c"], 2), (["a."], 1)]:
        error = outcome(sval.filter, b"[]", paths)
        assert isinstance(error, sval.Error) and (error.status, error.at) == (20, at), (paths, error)
    for tape, status, at in [(b"", 5, None), (b"\x00\x00", 4, 2), (b"\x00\x30", 18, 1)]:
        error = outcome(sval.tape_to_json, tape)
        assert isinstance(error, sval.Error) and (error.status, error.at) == (status, at), (tape, error)
    deep = b"[" * 100000 + b"]" * 100000
    assert sval.compact(deep) == deep and sval.from_cbor(sval.to_cbor(deep)) == deep


def main():
    number = int(sys.argv[1]) if len(sys.argv) > 1 else 10000
    seed = int(sys.argv[2]) if len(sys.argv) > 2 else random.randrange(2**32)
    print(f"python: {number} random inputs, seed {seed}, {'cbor2' if cbor2 else 'no cbor2'}")
    rng = random.Random(seed)
    test_rows()
    test_single_path()
    for _ in range(number):
        value = random_value(rng, 3, False)
        data = spelled(rng, value, True).encode()
        assert read(data) == value
        test_text(data)
        test_text(changed(rng, data))
        test_text(rng.randbytes(rng.randrange(8)))
        value = random_value(rng, 3, True)
        data = spelled(rng, value, True).encode()
        test_cbor(value, data)
        test_tape(rng, value, data)
        test_filter(rng, value, data)
        test_item(changed(rng, sval.to_cbor(data)))
        test_item(rng.randbytes(rng.randrange(12)))
        test_script(rng, rng.choice([random_text(rng).encode(), rng.randbytes(rng.randrange(6))]))
    print("python: ok")


if __name__ == "__main__":
    main()
