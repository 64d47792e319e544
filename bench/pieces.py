"""A script as a tree, and what a program wrote of it cut into the pieces of each part of the tree."""
import re

CONTAINERS = {"seq": ("sequence", "[", "]"), "map": ("map", "{", "}"), "record": ("record", "{", "}")}
TOKEN = re.compile(rb'"(?:[^"\\]|\\.)*"|-?[0-9]+|[a-z]+|[][{},:]')


class Part:
    """A part of a tree: what its box says, its lines in the script, and the parts in it."""

    def __init__(self, number, kind, says="", label=None):
        self.number, self.kind, self.says, self.label = number, kind, says, label
        self.parts, self.lines = [], []


class Tree:
    """Reads the tree that the lines of a right script spell."""

    def __init__(self, lines):
        self.lines, self.at, self.count = lines, 0, 0
        self.owners = [None] * len(lines)
        self.root = self.value()

    def part(self, *words):
        self.count += 1
        return Part(self.count, *words)

    def line(self, part):
        """Takes a line for a part, and gives its words."""
        self.owners[self.at] = part
        self.at += 1
        return self.lines[self.at - 1].split(" ")

    def value(self):
        word, *fields = self.lines[self.at].split(" ")
        kind = word.removesuffix("_begin")
        if kind == "text":
            return self.text()
        if kind in CONTAINERS or kind == "enum":
            return self.container(kind, fields)
        said = said_in(fields[1]) if word == "tag" else "".join(fields)
        part = self.part(word, said)
        self.line(part)
        return part

    def text(self):
        part, text = self.part("text"), b""
        while (words := self.line(part))[0] != "text_end":
            text += bytes.fromhex(words[1][1:]) if "fragment" in words[0] else b""
        part.says = shown(text.decode())
        return part

    def container(self, kind, fields):
        label = said_in(fields[1]) if len(fields) > 1 else None
        part = self.part(CONTAINERS.get(kind, (kind,))[0], label or "", label)
        self.line(part)
        while self.lines[self.at].split(" ")[0] != f"{kind}_end":
            part.parts.append(self.entry(part, kind))
        self.line(part)
        return part

    def entry(self, part, kind):
        """Reads the next part of a container, with its begin and its end. An enum's has none, and a field is a part itself."""
        if kind == "enum":
            return self.value()
        if kind == "record":
            label = said_in(self.lines[self.at].split(" ")[2])
            part = self.part("field", label, label)
        self.line(part)
        value = self.value()
        self.line(part)
        if kind == "record":
            part.parts.append(value)
            return part
        return value


class Json:
    """Cuts JSON into the tokens of each part."""

    def __init__(self, text):
        self.tokens, self.at, self.pieces = TOKEN.findall(text), 0, []
        if b"".join(self.tokens) != text:
            raise SystemExit(f"no tokens: {text}")

    def take(self, part, due=None):
        token = self.tokens[self.at].decode()
        if due and token != due:
            raise SystemExit(f"due {due}, came {token}")
        self.pieces.append((part, token))
        self.at += 1

    def leaf(self, part):
        self.take(part)

    def mark(self, part, due):
        self.take(part, due)

    def name(self, part):
        self.take(part)
        self.take(part, ":")

    def is_done(self):
        return self.at == len(self.tokens)


class Cbor:
    """Cuts CBOR into the bytes of each part."""

    def __init__(self, data):
        self.data, self.at, self.pieces = data, 0, []

    def take(self, part, size):
        self.pieces.append((part, self.data[self.at : self.at + size].hex(" ")))
        self.at += size

    def size_at(self, at):
        """The number of bytes of the item without further items that begins at a place."""
        major, info = self.data[at] >> 5, self.data[at] & 31
        width = 1 << info - 24 if 24 <= info < 28 else 0
        number = int.from_bytes(self.data[at + 1 : at + 1 + width], "big") if width else info
        if major == 6:
            return 1 + width + self.size_at(at + 1 + width)
        return 1 + width + (number if major in (2, 3) else 0)

    def leaf(self, part):
        self.take(part, self.size_at(self.at))

    def name(self, part):
        self.leaf(part)

    def mark(self, part, due):
        byte = {"[": 0x9F, "{": 0xBF, "]": 0xFF, "}": 0xFF}.get(due)
        if byte is not None:
            if self.data[self.at] != byte:
                raise SystemExit(f"due {byte:x}, came {self.data[self.at]:x}")
            self.take(part, 1)

    def is_done(self):
        return self.at == len(self.data)


def cut(part, cutter):
    """Gives each part its pieces, in order."""
    kinds = {name: marks for name, *marks in CONTAINERS.values()}
    if part.kind == "enum":
        named = part.parts[0].label is not None
        if named:
            cutter.mark(part, "{")
            cutter.name(part.parts[0])
        cut(part.parts[0], cutter)
        if named:
            cutter.mark(part, "}")
    elif part.kind == "field":
        cutter.name(part)
        cut(part.parts[0], cutter)
    elif part.kind in kinds:
        cutter.mark(part, kinds[part.kind][0])
        for number, entry in enumerate(part.parts):
            if number:
                cutter.mark(part, ":" if part.kind == "map" and number % 2 else ",")
            cut(entry, cutter)
        cutter.mark(part, kinds[part.kind][1])
    else:
        cutter.leaf(part)


def pieces_of(tree, cutter):
    cut(tree.root, cutter)
    if not cutter.is_done():
        raise SystemExit("something is left over")
    return cutter.pieces


def said_in(field):
    """The text of a label, or the field itself."""
    digits = re.match(r"=([0-9a-f]*)", field)
    return bytes.fromhex(digits[1]).decode() if digits else None if field == "-" else field


def shown(text):
    """A text on one line, its line feeds as a sign."""
    return "“" + text.replace("\n", "↵") + "”"
