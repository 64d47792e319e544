"""Reads the definitions of specs/ for bench/theorems: which of them a text names, and which these name in turn.

A `Module` is a file below crates/*/specs. `closure` gives the definitions under a text in reading order: first those
that the text names, then those that these name, and so on. What std defines, and what is generated from the types of
the program (`specs.declared`), isn't counted.
"""
import dataclasses
import functools
import re

from sources import CRATES

USE = re.compile(r"^\s*(?:pub )?(?:ghost )?use Rattle\.([\w.]+?)(?:\.\{([^}]*)\}| as (\w+))?;?\s*$", re.M)
HEAD = re.compile(r"(?:(?:abbrev|unfoldable|pub)\s+)*(?:(record|data)\s+)?([A-Za-z_]\w*)")
WORD = re.compile(r"[A-Za-z_]\w*(?:\.[A-Za-z_]\w*)*")
CONSTRUCTOR = re.compile(r"\s+(?:pub\s+)?([A-Za-z_]\w*(?:\s+[A-Za-z_]\w*)*)\s*:")
MUTUAL = re.compile(r"(?:abbrev\s+)?mutual\s*$")
LITERAL = re.compile(r'"(?:\\.|[^"\\])*"')
NO_DEFINITION = re.compile(r"(?:pub )?(?:use|mod) |infix[lr]? ")
HOLE = "◌"  # the place of an operand: `◌then◌` is named by the word `then`


@dataclasses.dataclass
class Definition:
    """A definition: its file below crates/, the line where it begins, its lines of code, and whether it is a `data`."""

    name: str
    path: str
    line: int
    is_data: bool
    lines: list


@dataclasses.dataclass
class Module:
    """A file of specs/: its definitions by name, which of them has a constructor, and the names that it imports."""

    definitions: dict
    owners: dict
    names: dict
    aliases: dict


def imports(text):
    """The names that the `use` lines of a text bring in, and its names for whole modules."""
    names, aliases = {}, {}
    for found in USE.finditer(text.replace(HOLE, "")):
        module, listed, alias = found.groups()
        if alias:
            aliases[alias] = module
        for name in filter(None, (name.strip() for name in (listed or "").split(","))):
            whole, _, other = name.partition(" as ")
            names[other.strip() or whole] = (module, whole)
    return names, aliases


def without_comment(line):
    return re.sub(r"(^|\s)--(\s.*)?$", "", LITERAL.sub('""', line)).rstrip()


def read_definitions(path, text):
    """The definitions of a file by name. A row of a definition begins with its name, as a signature does."""
    definitions, current, mutual = {}, None, False
    for number, line in enumerate(text.replace(HOLE, "").splitlines(), 1):
        code = without_comment(line)
        if not code.strip():
            continue
        if MUTUAL.match(code):
            mutual, current = True, None
            continue
        mutual = mutual and code.startswith("  ")
        begins = code[2:] if mutual else code
        found = None if begins[:1].isspace() else HEAD.match(begins)
        if NO_DEFINITION.match(begins):
            current = None
        elif found:
            current = definitions.setdefault(found[2], Definition(found[2], path, number, found[1] == "data", []))
        if current:
            current.lines.append(code)
    return definitions


@functools.lru_cache(None)
def read_module(name):
    """The module of this name, or None where it is none of this repository's definitions."""
    crate, *parts = name.split(".")
    path = CRATES / crate / ("/".join(parts) + ".antt")
    if not path.is_file():
        return None
    text = path.read_text()
    definitions = read_definitions(path.relative_to(CRATES).as_posix(), text)
    owners = {}
    for definition in definitions.values():
        for line in definition.lines[1:] if definition.is_data else []:
            if found := CONSTRUCTOR.match(line):
                owners.update((word, definition.name) for word in found[1].split())
    return Module(definitions, owners, *imports(text))


def definition_of(module_name, name):
    """The definition that a name of a module means, through the names that it imports, or None."""
    module = read_module(module_name)
    if not module:
        return None
    name = name if name in module.definitions else module.owners.get(name, name)
    if name in module.definitions:
        return module_name, module.definitions[name]
    return definition_of(*module.names[name]) if name in module.names else None


def named(text, names, aliases, module_name=None):
    """The definitions that a text names, in its order, each with its module."""
    here = read_module(module_name) if module_name else None
    for word in WORD.findall(LITERAL.sub('""', text)):
        first, *rest = word.split(".")
        found = None
        if rest and first in aliases:
            found = definition_of(aliases[first], rest[0])
        elif here and (first in here.definitions or first in here.owners):
            found = definition_of(module_name, first)
        elif first in names:
            found = definition_of(*names[first])
        if found:
            yield found


@functools.lru_cache(None)
def below(module_name, name):
    """The definitions that a definition names, each with its module."""
    module = read_module(module_name)
    text = "\n".join(module.definitions[name].lines)
    return list(named(text, module.names, module.aliases, module_name))


def closure(text, names, aliases):
    """The definitions under a text, a list for each step away from it."""
    seen, levels, level = set(), [], list(named(text, names, aliases))
    while level:
        fresh = []
        for module_name, definition in level:
            if (module_name, definition.name) not in seen:
                seen.add((module_name, definition.name))
                fresh.append((module_name, definition))
        if fresh:
            levels.append([definition for _, definition in fresh])
        level = [other for module_name, definition in fresh for other in below(module_name, definition.name)]
    return levels
