"""Reads what README, docs/PROVED.md and docs/GUIDE.md name, for bench/theorems.

A page names things in backquotes and by links. `statements` gives its lines, each with the crate that it speaks of: that
of the heading, or else of the first path `crates/NAME/..` below it, or of a line that has a crate's name alone and a
colon. `complaints` lists what isn't there:

- a file of a link or in backquotes, and a heading that a link leads to;
- in PROVED, a name in parentheses: a clause, a fact, a function or a definition that neither the crate of the statement
  nor one below it declares;
- any other name in backquotes that no source has: a name of Rust or of the logic is one that some source uses.

- in fenced code, a name that a `use` line takes from a crate of this repository, and a file of examples/ or crates/.

No other code is a claim: words of a command, numbers and their types, JSON, what a sentence calls the kit's, paths with a
part in capitals, which stand for others, and paths below a folder that the page's shell lines make by `rt new`.
"""
import dataclasses
import functools
import re

from definitions import definition_of, imports
from sources import CRATES, LITERAL, TOP, masked, use_names

PAGES = ("README.md", "docs/PROVED.md", "docs/GUIDE.md")
CODE = re.compile(r"`([^`]+)`")
LINK = re.compile(r"\]\(([^)\s]+)\)")
PARENTHESES = re.compile(r"\(((?:[^()`]|`[^`]*`)*)\)")
NAME = re.compile(r"<?[A-Za-z_]\w*(?:::[A-Za-z_]\w*)*!?(?:\(\))?")
PATH = re.compile(r"(?:\.{0,2}/)?[\w.\-]+(?:/[\w.\-]*)+|[\w\-]+\.(?:rt|antt|edit|md|txt|json|script|reasons|py)")
PLACEHOLDER = re.compile(r"/[A-Z]{3,}(?:/|\.|$)|^[A-Z]{3,}/")
DECLARED = re.compile(
    r"\b(?:fn|struct|enum|trait|const|static|type|mod|macro_rules!|ghost|requires|ensures)\s+(?!use\b)([A-Za-z_]\w*)"
)
BODY = re.compile(r"\b(?:struct|enum)\s+\w+[^;{(]*([({][^{}]*[)}])")
SIGNATURE = re.compile(r"^\s*(?:(?:abbrev|unfoldable|pub|record|data|lemma)\s+)*([A-Za-z_]\w*(?:\s+[A-Za-z_]\w*)*)\s*:", re.M)
TYPE = re.compile(r"\b(?:record|data)\s+([A-Za-z_]\w*)")
WORD = re.compile(r"[A-Za-z_]\w*")
NUMBER_TYPE = re.compile(r"[iuf]\d+|[iu]size")


@dataclasses.dataclass
class Statement:
    """A line of a page, with the crate that it speaks of, and the files that the line above a list names."""

    page: str
    number: int
    text: str
    crate: str
    files: list

    @property
    def codes(self):
        return CODE.findall(self.text)

    @property
    def paths(self):
        """The files of src/ that the line names, or else those above its list."""
        return [code for code in self.codes if code.endswith(".rt")] or self.files


def crate_names():
    return {path.name for path in CRATES.iterdir() if path.is_dir()}


def first_crate(lines):
    """The crate of the first path `crates/NAME/..` up to the next heading."""
    for line in lines:
        if line.startswith("## "):
            break
        if found := re.search(r"`crates/(\w+)/", line):
            return found[1]
    return ""


def crate_alone(line):
    """The crate of a heading or of a line that has its name alone, or an empty text."""
    found = re.match(r"(?:#+ )?`(\w+)`(?: \(.*\))?:?$", line)
    return found[1] if found and found[1] in crate_names() else ""


def statements(page):
    """The lines of a page that aren't fenced code."""
    lines = (TOP / page).read_text().splitlines()
    crate, files, fenced = "", [], False
    for number, line in enumerate(lines, 1):
        if line.startswith("```"):
            fenced = not fenced
        elif not fenced:
            if line.startswith("## "):
                crate = crate_alone(line) or first_crate(lines[number:])
            crate = crate_alone(line) or crate
            if line and not line.lstrip().startswith("- "):
                files = re.findall(r"`([\w/]+\.rt)`", line) if line.endswith(":") else []
            yield Statement(page, number, line, crate, files)


# ---- what the sources declare


@functools.lru_cache(None)
def declared(crate):
    """The names that a crate declares in src/, specs/ and proofs/: items, members, clauses, definitions and their fields."""
    names = {crate}
    for path in (CRATES / crate).rglob("*.rt"):
        text = masked(path.read_text())
        names.update(DECLARED.findall(text))
        for body in BODY.findall(text) + re.findall(r"\bpub use\s[^;]*;", text):
            names.update(WORD.findall(body))
    for path in (CRATES / crate).rglob("*.antt"):
        text = path.read_text().replace("◌", "")
        names.update(TYPE.findall(text))
        names.add(path.stem)
        for listed in SIGNATURE.findall(text):
            names.update(listed.split())
    return names


@functools.lru_cache(None)
def crates_below(crate):
    """A crate and those that it depends on."""
    for line in (TOP / "crates.txt").read_text().splitlines():
        head, colon, below = line.partition(":")
        if colon and head.split()[0] == crate:
            return {crate}.union(name for name in below.split() if name in crate_names())
    return {crate}


@functools.lru_cache(None)
def words():
    """Every word of the code and the literals of all sources, of the bindings, of the scripts and of the list of crates."""
    found = set()
    comment = re.compile(r"//[^\n]*|(?:^|\s)--[^\n]*")
    for path in (*CRATES.rglob("*.rt"), *CRATES.rglob("*.antt")):
        found.update(WORD.findall(comment.sub("", path.read_text())))
        found.add(path.stem)
    for folder in ("bench", "checks", ".ci", "examples"):
        found.update(path.name for path in (TOP / folder).iterdir())
    for pattern in ("bindings/*", "bindings/c/*", "bindings/python/*.py", "bindings/rust/*/*.rs", "bindings/rust/*/*/*.rs"):
        for path in TOP.glob(pattern):
            found.update(WORD.findall(path.read_text()) if path.is_file() else ())
    found.update(path.stem for path in (*CRATES.glob("*/must-fail/*.edit"), *TOP.glob("bench/edits/*/*.edit")))
    return found | crate_names() | kit_words()


def kit_words():
    """The words of the lists of crates and of `install`: crates of the kit, and programs."""
    return set(WORD.findall((TOP / "crates.txt").read_text() + (TOP / "install").read_text()))


# ---- what isn't there


def bases(statement):
    """The folders that a path of a statement may be below: those of the page, of the crates, and of its other paths."""
    yield from (TOP, (TOP / statement.page).parent, CRATES)
    if statement.crate:
        yield from (CRATES / crate for crate in crates_below(statement.crate))
    for code in statement.codes:
        if code in crate_names():
            yield CRATES / code
        elif "/" in code and (TOP / code).is_file():
            yield (TOP / code).parent


def is_there(path, statement):
    """Whether a file is there, below one of these folders, as a folder that crates have, or as an edit by its name.

    The folder that `rt` leaves its work in is no part of a clone, and counts as there.
    """
    if path == "out/" or is_made(path, statement.page) or any((base / path).exists() for base in bases(statement)):
        return True
    folders = ["crates/*"] if re.fullmatch(r"\w+/", path) else ["crates/*/must-fail", "bench/edits/*"]
    return any(found for folder in folders for found in TOP.glob(f"{folder}/{path}"))


def anchors(page):
    """The anchors of a page's headings."""
    for line in page.read_text().splitlines():
        if line.startswith("#"):
            heading = re.sub(r"[^\w\- ]", "", line.lstrip("#").strip().lower())
            yield heading.replace(" ", "-")


def bad_links(statement):
    for target in LINK.findall(statement.text):
        if re.match(r"\w+:", target):
            continue
        file, _, anchor = target.partition("#")
        page = ((TOP / statement.page).parent / file).resolve() if file else TOP / statement.page
        if not page.exists():
            yield f"the link leads to {file}, which isn't there"
        elif anchor and not re.fullmatch(r"L\d+", anchor) and anchor not in anchors(page):
            yield f"the link leads to #{anchor}, which is no heading of {page.name}"


def names_of(code):
    """The names that a text in backquotes has: itself where it is one, or else its words with an underscore or a `::`."""
    if NAME.fullmatch(code):
        return [code]
    code = LITERAL.sub("", code)
    return [name for name in re.findall(r"[A-Za-z_]\w*(?:::\w+)*", code) if "_" in name or "::" in name]


def bad_codes(statement):
    """The names and paths in backquotes that aren't there."""
    claimed = claims(statement)
    for code in statement.codes:
        if code.startswith("rt ") or PLACEHOLDER.search(code):
            continue
        if PATH.fullmatch(code):
            if not is_there(code, statement):
                yield f"no file {code}"
            continue
        for name in () if f"kit's `{code}`" in statement.text else names_of(code):
            parts = [part for part in WORD.findall(name) if not NUMBER_TYPE.fullmatch(part)]
            if not parts or parts[0] in imported(statement.page):
                continue
            if name in claimed and not any(parts[-1] in declared(crate) for crate in crates_below(statement.crate)):
                yield f"{name} is declared neither in {statement.crate} nor below it"
            elif any(part not in words() for part in parts):
                yield f"no source has {name}"


def parentheses(statement):
    """The codes in each parentheses of a statement of PROVED: clauses, facts, definitions and files."""
    if statement.page == "docs/PROVED.md" and statement.crate:
        yield from (CODE.findall(text) for text in PARENTHESES.findall(LINK.sub("]", statement.text)))


def claims(statement):
    return {code for codes in parentheses(statement) for code in codes if NAME.fullmatch(code)}


def names_in(path, statement):
    """The names that a file declares or imports, which a statement names from its crate, from crates/ or from the top."""
    found = [base / path for base in (CRATES / statement.crate, *bases(statement)) if (base / path).is_file()]
    if not found:
        return set()
    text = masked(found[0].read_text()) if path.endswith(".rt") else found[0].read_text()
    if path.endswith(".antt"):
        return set(WORD.findall(text))
    lines = re.findall(r"\buse\s[^;]*;", text) + BODY.findall(text)
    return set(DECLARED.findall(text)).union(word for line in lines for word in WORD.findall(line))


def misplaced(statement):
    """The names in parentheses with a file of src/ that neither this file nor another one there has."""
    for codes in parentheses(statement):
        if not any(code.endswith(".rt") for code in codes):
            continue
        files = [names_in(code, statement) for code in codes if code.endswith((".rt", ".antt"))]
        for name in filter(NAME.fullmatch, codes):
            if not any(WORD.findall(name)[-1] in names for names in files):
                yield f"{name} is in none of the files beside it"


def fences(page):
    """The lines of a page's fenced code, with their numbers."""
    fenced = False
    for number, line in enumerate((TOP / page).read_text().splitlines(), 1):
        if line.startswith("```"):
            fenced = not fenced
        elif fenced:
            yield number, line


@functools.lru_cache(None)
def imported(page):
    """The crates that the fenced code of a page uses and this repository doesn't have."""
    roots = {found[1] for _, line in fences(page) if (found := re.match(r"\s*use (\w+)", line))}
    return roots - crate_names()


def is_made(path, page):
    """Whether the shell lines of a page make the folder that a path is below."""
    made = {found[1] for _, line in fences(page) if (found := re.match(r"rt new (\S+)", line))}
    return any(f"{path}/".startswith(f"{folder}/") for folder in made)


def bad_fences(page):
    """What fenced code takes from a crate of this repository, and the files that it reads, that aren't there."""
    for number, line in fences(page):
        for path in re.findall(r"(?<!\w)(?:\.\./)*((?:examples|crates)/[\w./]+)", line):
            if not (TOP / path).exists() and not is_made(path, page):
                yield f"{page}:{number}: no file {path}"
        for name, (module, word) in imports(line)[0].items():
            known = module.split(".")[0] in crate_names() and ".declared." not in module
            if known and word.isidentifier() and not definition_of(module, word):
                yield f"{page}:{number}: no definition {name} in {module}"
        if found := re.match(r"\s*use (\w+)::", line):
            for path, _ in use_names(line.split(";")[0]) if found[1] in crate_names() else ():
                if any(word not in declared(found[1]) for word in WORD.findall(path)):
                    yield f"{page}:{number}: no {path} in the sources"


def complaints():
    """What the pages name that isn't there, a line for each."""
    for page in PAGES:
        yield from bad_fences(page)
        for statement in statements(page):
            for why in (*bad_links(statement), *bad_codes(statement), *misplaced(statement)):
                yield f"{page}:{statement.number}: {why}"
