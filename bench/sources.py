"""Reads the sources for bench/theorems and bench/surface: the items of .rt files, and what a crate makes public.

`read_crate(name)` gives a `Crate`. Its files hold `Item`s: functions, types, traits, implementations and their members,
each with its line, its doc comment, its head and its clauses. `Crate.public` has the items that other crates can name.
It is no parser of Rust: it knows where comments, literals, braces and heads begin and end, and nothing of types.
"""
import dataclasses
import pathlib
import re

TOP = pathlib.Path(__file__).resolve().parent.parent
CRATES = TOP / "crates"

LITERAL = re.compile(r'//[^\n]*|/\*.*?\*/|\br(#*)".*?"\1|"(?:\\.|[^"\\])*"|\'(?:\\.|[^\'\\\n])\'', re.S)
HEAD = re.compile(
    r"(?P<pub>pub(?P<only>\s*\([^)]*\))?\s+)?(?:(?:final|const|unsafe|async|extern(?:\s+\"[^\"]*\")?)\s+)*"
    r"(?P<kind>fn|struct|enum|trait|impl|mod|use|const|static|type|ghost\s+use|ghost|macro_rules!)(?![\w!])\s*(?P<name>[A-Za-z_]\w*)?"
)
CLAUSE = re.compile(r"\s*(?P<kind>requires|ensures|decreases)\b\s*(?P<name>[A-Za-z_]\w*)?\s*\{")
OPENS, CLOSES = "([{", ")]}"


@dataclasses.dataclass
class Clause:
    """A clause of a function: its kind (`ensures`, `requires`), its name, which may be empty, its text and its line."""

    kind: str
    name: str
    text: str
    line: int


@dataclasses.dataclass
class Item:
    """An item of a file. `path` is its file below crates/, `head` its text up to its body, and `items` are its members."""

    kind: str
    name: str
    public: bool
    path: str
    line: int
    docs: list
    attributes: str
    head: str
    body: str
    clauses: list
    items: list

    @property
    def ensures(self):
        return [clause for clause in self.clauses if clause.kind == "ensures"]

    def members(self, kind):
        return [item for item in self.items if item.kind == kind]


def masked(text):
    """The text with each comment and literal as blanks, of the same length."""
    return LITERAL.sub(lambda found: re.sub(r"[^\n]", " ", found.group()), text)


def closing(mask, at):
    """The place behind the bracket that closes the one at `at`."""
    depth = 0
    for place in range(at, len(mask)):
        if mask[place] in OPENS:
            depth += 1
        elif mask[place] in CLOSES:
            depth -= 1
            if depth == 0:
                return place + 1
    return len(mask)


def until(mask, at, stops):
    """The first place from `at` on, outside brackets, of one of the stops. A bracket that is a stop ends the search too."""
    while at < len(mask):
        if mask[at] in stops:
            return at
        at = closing(mask, at) if mask[at] in OPENS else at + 1
    return at


def one_line(text):
    """The text on one line, as a head or a clause is shown."""
    text = re.sub(r"\s+", " ", text).strip()
    return re.sub(r"\( ", "(", re.sub(r",? \)", ")", text))


class Reader:
    """Reads the items of one file."""

    def __init__(self, path):
        self.text = path.read_text()
        self.mask = masked(self.text)
        self.path = path.relative_to(CRATES).as_posix()

    def line(self, at):
        return self.text.count("\n", 0, at) + 1

    def items(self, at=0, end=None):
        """The items between two places."""
        end = len(self.mask) if end is None else end
        found = []
        begin = at
        while (at := self.next_place(at, end)) < end:
            if self.mask[at] == "#":
                at = closing(self.mask, self.mask.index("[", at))
                continue
            head = HEAD.match(self.mask, at, end)
            if not head:
                at = begin = self.behind_other(at, end)
                continue
            item, at = self.item(head, begin)
            begin = at
            found.append(item)
        return found

    def next_place(self, at, end):
        while at < end and self.mask[at].isspace():
            at += 1
        return at

    def behind_other(self, at, end):
        """The place behind what is no item, as the call of a macro."""
        at = until(self.mask, at, ";{")
        at = closing(self.mask, at) if self.mask[at : at + 1] == "{" else at + 1
        return min(at, end)

    def item(self, head, begin):
        """The item that begins at this head, and the place behind it."""
        kind = re.sub(r"\s+", " ", head["kind"])
        clauses, items, body = [], [], ""
        if kind == "fn":
            stop, clauses, end = self.function(head.start())
        elif kind in ("use", "ghost use", "const", "static", "type"):
            stop = until(self.mask, head.end(), ";")
            end = stop + 1
        else:
            stop = until(self.mask, head.end(), "{;")
            end = closing(self.mask, stop) if self.mask[stop : stop + 1] == "{" else stop + 1
            body = self.text[stop:end]
            if kind in ("trait", "impl", "mod") and end > stop + 1:
                items = self.items(stop + 1, end - 1)
            if kind == "ghost":
                end = until(self.mask, end, ";") + 1
        between = self.text[begin : head.start()]
        docs = re.findall(r"^\s*/// ?(.*)$", between, re.M)
        attributes = one_line(LITERAL.sub("", between))
        public = bool(head["pub"]) and not head["only"] or kind == "macro_rules!" and "#[macro_export]" in between
        line = self.line(head.start())
        shown = one_line(self.text[head.start() : stop])
        return Item(kind, head["name"] or "", public, self.path, line, docs, attributes, shown, body, clauses, items), end

    def function(self, at):
        """Where a function's head ends, its clauses, and the place behind it."""
        stop = at
        while self.mask[stop] not in "{;" and not CLAUSE.match(self.mask, stop):
            stop = closing(self.mask, stop) if self.mask[stop] in OPENS else stop + 1
        clauses, at = [], stop
        while found := CLAUSE.match(self.mask, at):
            end = closing(self.mask, found.end() - 1)
            text = one_line(self.text[found.end() : end - 1])
            clauses.append(Clause(found["kind"], found["name"] or "", text, self.line(found.start("kind"))))
            at = end
        at = until(self.mask, at, "{;")
        return stop, clauses, closing(self.mask, at) if self.mask[at] == "{" else at + 1


@dataclasses.dataclass
class Crate:
    """A crate: the items of each file, and those that other crates can name, each with its module's path."""

    name: str
    files: dict
    docs: list
    public: list
    again: list
    modules: dict


def module_path(path):
    """The path of the module that a file below src/ holds."""
    parts = path.with_suffix("").parts
    return () if parts == ("lib",) else parts


def use_names(text):
    """The names that a `use` line gives, each with the path that it is of: `a::{b, c as d}` gives (a::b, b), (a::c, d)."""
    text = re.sub(r"^.*?\buse\s+", "", text).strip()
    prefix, brace, rest = text.partition("{")
    names = rest.rstrip("}; ").split(",") if brace else [prefix]
    prefix = prefix if brace else ""
    for name in filter(None, (name.strip() for name in names)):
        whole, _, other = name.partition(" as ")
        yield prefix + whole, other or whole.split("::")[-1]


def resolved(crate_modules, module, path):
    """The module and the name that a path of a `use` names within the crate, or None where it is of another crate."""
    *parts, name = path.split("::")
    base = module
    while parts and parts[0] in ("crate", "self", "super"):
        base = {"crate": (), "self": base, "super": base[:-1]}[parts.pop(0)]
    target = base + tuple(parts)
    return (target, name) if target in crate_modules else None


def find_public(files, modules):
    """The items that other crates can name, with the module that names them, and the `pub use` lines of other crates."""
    public, again, seen, todo = [], [], set(), [()]
    while todo:
        module = todo.pop(0)
        for item in files[modules[module]]:
            if item.kind == "mod" and item.public and module + (item.name,) in modules:
                todo.append(module + (item.name,))
            elif item.kind == "use" and item.public:
                for path, name in use_names(item.head):
                    found = resolved(modules, module, path)
                    if found:
                        public += named(files, modules, found, module, seen)
                    else:
                        again.append((module, path, name))
            elif item.public and item.kind not in ("mod", "macro_rules!") and id(item) not in seen:
                seen.add(id(item))
                public.append((module, item))
    public += [((), item) for items in files.values() for item in items if item.kind == "macro_rules!" and item.public]
    return public, again


def named(files, modules, found, module, seen):
    """The items of this name in a module, that weren't found yet."""
    target, name = found
    for item in files[modules[target]]:
        if item.name == name and item.public and item.kind not in ("impl", "use") and id(item) not in seen:
            seen.add(id(item))
            yield module, item


def read_crate(name):
    """A crate by its name."""
    source = CRATES / name / "src"
    files, modules = {}, {}
    for path in sorted(source.rglob("*.rt")):
        key = path.relative_to(CRATES).as_posix()
        files[key] = Reader(path).items()
        modules[module_path(path.relative_to(source))] = key
    docs = re.findall(r"^//! ?(.*)$", (source / "lib.rt").read_text(), re.M)
    public, again = find_public(files, modules)
    return Crate(name, files, docs, public, again, modules)


def libraries():
    """The names of the libraries, those of tests left out, each after those that it depends on."""
    below = {}
    for line in (TOP / "crates.txt").read_text().splitlines():
        name, colon, rest = line.partition(":")
        if colon and not line.startswith("#"):
            below[name.split()[0]] = rest.split()
    order = []

    def place(name):
        if name in below and name not in order:
            for other in below[name]:
                place(other)
            order.append(name)

    for name in below:
        place(name)
    return [name for name in order if not name.endswith("_vectors") and (CRATES / name / "src" / "lib.rt").exists()]


def behind_generics(head, at):
    """The place behind the `<..>` that begins at `at`, if one does."""
    if head[at : at + 1] != "<":
        return at
    depth = 0
    for place in range(at, len(head)):
        if head[place] == "<":
            depth += 1
        elif head[place] == ">" and head[place - 1] != "-":
            depth -= 1
            if depth == 0:
                return place + 1
    return len(head)


def impl_names(head):
    """The trait, or an empty text, and the type of an `impl`, as they are written."""
    rest = head[behind_generics(head, len("impl")) :].strip()
    rest = re.split(r"\swhere\s", rest)[0].strip()
    at = 0
    while at < len(rest):
        if rest.startswith(" for ", at):
            return rest[:at], rest[at + len(" for ") :]
        at = behind_generics(rest, at) if rest[at] == "<" else at + 1
    return "", rest


def head_name(written):
    """The name of a type or a trait without its path and its parameters: `fmt::Display` gives `Display`."""
    return re.sub(r"<.*", "", written).split("::")[-1].strip()


@dataclasses.dataclass
class Function:
    """A public function: its name with its type or trait, the item, and the items whose `ghost use` lines it sees."""

    name: str
    item: Item
    scope: list

    @property
    def uses(self):
        """The `ghost use` lines that its clauses see."""
        return "\n".join(item.head + ";" for items in self.scope for item in items if item.kind == "ghost use")


def is_open(crate, items, written):
    """Whether other crates can name this type or trait: it is public, or it is of another crate."""
    name = head_name(written)
    kinds = ("struct", "enum", "trait", "type")
    public = {id(item) for _, item in crate.public}
    here = [item for item in items if item.kind in kinds and item.name == name]
    if not here:
        here = [item for items in crate.files.values() for item in items if item.kind in kinds and item.name == name]
    return not here or any(id(item) in public for item in here)


def functions(crate):
    """The public functions of a crate, file by file, in the order of their lines."""
    public = {id(item) for _, item in crate.public}
    for items in crate.files.values():
        for item in items:
            if id(item) in public and item.kind == "fn":
                yield Function(item.name, item, [items])
            elif id(item) in public and item.kind == "trait":
                for method in item.members("fn"):
                    yield Function(f"{item.name}::{method.name}", method, [items, item.items])
            elif item.kind == "impl":
                yield from impl_functions(crate, items, item)


def impl_functions(crate, items, item):
    """The public functions of an `impl`; of a trait's, those that state clauses of their own."""
    trait, written = impl_names(item.head)
    if not is_open(crate, items, written) or (trait and not is_open(crate, items, trait)):
        return
    name = head_name(written)
    for method in item.members("fn"):
        if trait and method.ensures:
            yield Function(f"<{name} as {head_name(trait)}>::{method.name}", method, [items, item.items])
        elif not trait and method.public:
            yield Function(f"{name}::{method.name}", method, [items, item.items])
