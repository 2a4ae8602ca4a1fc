"""Reads the definitions and the contracts of all crates, for `trust` and `checks/pages`.

Definitions are in crates/*/specs/**/*.antt, and contracts in crates/*/src/**/*.rt. Names are looked up by the lines
`use` and `ghost use` of a file. Names of other origin, such as those of std, cite nothing here.
"""
from __future__ import annotations

import re
from collections import defaultdict
from dataclasses import dataclass, field
from pathlib import Path
from typing import Iterator

ROOT = Path(__file__).resolve().parent.parent
# From a name in a file to its path, such as Rattle.CRATE.specs.FILE.NAME.
Scope = dict[str, str]

NAME = re.compile(r"(?<![\w.'])[A-Za-z_]\w*(?:\.\w+)*")
USE = re.compile(r"\buse ([\w.]*\w)(?:\.\{([^}]*)\}| as (\w+))?")
DEFINITION = re.compile(
    r"((?:^ *--.*\n)*)^( *)((?:(?:pub|unfoldable) )*(?:abbrev|record|data|unfoldable) (?:pub )?(\w+).*\n"
    r"(?:\2 .*\n|\s*\n(?=\2 )|\2(?:\4\b|[})\]]).*\n)*)", re.M)
# Text that doesn't cite anything: comments, labels in values of records, and names of a record's fields.
LABEL = re.compile(r"--.*|(?<=[{;])\s*\w+ =(?=\s)|^ *pub \w+ :(?=\s)", re.M)
BINDER = re.compile(r"[({]([\w ]+) :|λ ([\w ]+)\.|\blet (\w+)|^\w+( .*?)? =(?=\s)", re.M)
HIDDEN = re.compile(r"//[^\n]*|\"(?:\\.|[^\"\\])*\"|'(?:\\.|[^\\'\n])'", re.S)
ITEM = re.compile(r"^(?:pub(?:\(\w+\))? )?(?:impl|trait|struct|enum|fn)\b", re.M)
OWNER = re.compile(r"[\w() ]*?\b(impl|trait|struct)(?:<[^{]*?>)? (?:(\w+)(?:<[^{]*?>)? for )?(\w+)")
FUNCTION = re.compile(r"^ *(pub )?(?:pub\(\w+\) )?(?:const |unsafe )*fn (\w+)", re.M)
CONTRACT = re.compile(r"^\s+(?=ensures|requires)|\{\}?$|;$", re.M)
CLAUSE = re.compile(r"\s*(ensures|requires)\*?\s*(\w*)\s*\{")
GHOST = re.compile(r"\bghost (\w+)(?::| =) \{")


@dataclass
class Definition:
    path: str
    name: str
    where: str
    comment: list[str]
    text: list[str]
    scope: Scope
    # Records that it cites and of which it reads only one field, by their paths.
    narrowed: dict[str, Definition] = field(default_factory=dict)

    def is_body(self) -> bool:
        return ".specs.body." in self.path


@dataclass
class Function:
    """A function with its contract; or a type, whose ghost fields are the clauses. A clause is (name, text, where)."""

    crate: str
    name: str
    trait: str
    is_public: bool
    types: set[str]
    scope: Scope
    clauses: list[tuple[str, str, str]]
    # The ghost members of its trait or implementation.
    ghosts: dict[str, str]


def imports(text: str) -> Scope:
    scope: Scope = {}
    for base, names, alias in USE.findall(text):
        if not names:
            scope[alias or base.rpartition(".")[2]] = base
        for item in names.split(",") if names else ():
            name, _, renamed = item.strip().partition(" as ")
            scope[renamed or name] = f"{base}.{name}"
    return scope


def braced(text: str, start: int) -> str:
    """The text from `start` to the brace that closes the one before it."""
    depth, end = 1, start
    while depth:
        depth += {"{": 1, "}": -1}.get(text[end], 0)
        end += 1
    return text[start : end - 1]


def where(file: Path, text: str, start: int) -> str:
    return f"{file.relative_to(ROOT)}:{text.count(chr(10), 0, start) + 1}"


class Sources:
    """The definitions and functions of all crates."""

    def __init__(self) -> None:
        self.definitions: dict[str, Definition] = {}
        self.functions: dict[str, list[Function]] = defaultdict(list)
        # The models of types, and the ghost members of traits with their places.
        self.values: dict[str, list[Definition]] = defaultdict(list)
        self.members: dict[str, str] = {}
        for file in sorted(ROOT.glob("crates/*/specs/**/*.antt")):
            self.read_definitions(file, file.read_text())
        for file in sorted(ROOT.glob("crates/*/src/**/*.rt")):
            text = HIDDEN.sub(lambda match: re.sub(r"[^\n]", " ", match[0]), file.read_text())
            scope = imports("\n".join(re.findall(r"^ghost use .*", text, re.M)))
            starts = [match.start() for match in ITEM.finditer(text)] + [len(text)]
            for start, end in zip(starts, starts[1:]):
                self.read_item(file, text, start, end, {**scope, **imports(text[start:end])})

    def read_definitions(self, file: Path, text: str) -> None:
        scope = imports("\n".join(re.findall(r"^use .*", text, re.M)))
        module = "Rattle." + ".".join(file.relative_to(ROOT / "crates").with_suffix("").parts)
        for match in DEFINITION.finditer(text):
            comment, indent, body, name = match.groups()
            path = scope[name] = f"{module}.{name}"
            above = [line.strip(" -") for line in comment.splitlines()]
            lines = [line[len(indent) :] for line in (indent + body).split("\n") if line.strip()]
            self.definitions[path] = Definition(path, name, where(file, text, match.start(3)), above, lines, scope)
            if body.startswith("pub data"):
                scope.update({case: f"{path}.{case}" for case in re.findall(r"^ +(\w+) :", body, re.M)})

    def read_item(self, file: Path, text: str, start: int, end: int, scope: Scope) -> None:
        owner = OWNER.match(text, start, end)
        kind, trait, name = owner.groups("") if owner else ("", "", "")
        crate = file.relative_to(ROOT / "crates").parts[0]
        found = [(m[1], braced(text, m.end()), where(file, text, m.start())) for m in GHOST.finditer(text, start, end)]
        ghosts = {ghost: value for ghost, value, _ in found}
        if kind == "struct":
            self.functions[name].append(Function(crate, name, "", True, set(), scope, found, {}))
        if kind == "trait":
            self.members.update({ghost: f"{ghost} of {name}, {where}" for ghost, _, where in found})
        if trait == "Model" and "Value" in ghosts:
            self.values[name] += self.cited(ghosts["Value"], scope)
        for match in FUNCTION.finditer(text, start, end):
            full = f"{name}::{match[2]}" if name else match[2]
            at = CONTRACT.search(text, match.end()).end()
            types = set(re.findall(r"[A-Z]\w+", f"{name} {text[match.end() : at]}"))
            public, clauses = bool(match[1] or trait or kind == "trait"), list(self.clauses(file, text, at))
            self.functions[full].append(Function(crate, full, trait, public, types, scope, clauses, ghosts))

    def clauses(self, file: Path, text: str, start: int) -> Iterator[tuple[str, str, str]]:
        while match := CLAUSE.match(text, start):
            clause = braced(text, match.end())
            start = match.end() + len(clause) + 1
            yield match[2] if match[1] == "ensures" else "requires", clause, where(file, text, match.start(1))

    def find(self, path: str) -> Definition | None:
        """The definition with this path, or with its longest prefix."""
        while path and path not in self.definitions:
            path = path.rpartition(".")[0]
        return self.definitions.get(path)

    def cited(self, text: str, scope: Scope) -> list[Definition]:
        """The definitions that a text cites. A name that the text binds doesn't cite any, unless it is a case of a
        type."""
        text = LABEL.sub("", text)
        local = {name for groups in BINDER.findall(text) for group in groups for name in NAME.findall(group)}
        found: dict[str, Definition] = {}
        for token in NAME.findall(text):
            head, dot, tail = token.partition(".")
            definition = self.find(scope[head] + dot + tail) if head in scope else None
            if definition and not (head in local and scope[head] == definition.path):
                found[definition.path] = definition
        return list(found.values())

    def cited_by(self, definition: Definition) -> list[Definition]:
        parts = re.split(r"\n(?=\w)", "\n".join(definition.text))
        found = [other for part in parts for other in self.cited(part, definition.scope)]
        return [definition.narrowed.get(other.path, other) for other in found if other.where != definition.where]

    def stated(self, function: Function) -> Function:
        """The function with its contract: itself, or else the trait's."""
        inherited = self.functions.get(f"{function.trait}::{function.name.rpartition('::')[2]}", [])
        return inherited[0] if inherited and not function.clauses else function

    def named(self, name: str, wanted: set[str]) -> list[Function]:
        """The public functions and types with this name and these clauses; of `Type::*` those with one of them."""
        crate, _, rest = name.partition("::")
        in_crate = (ROOT / "crates" / crate).is_dir()
        pattern = re.compile(re.escape(rest if in_crate else name).replace(r"\*", r"\w+"))
        found = [function for full, same in self.functions.items() if pattern.fullmatch(full) for function in same]
        found = [function for function in found if function.is_public and (not in_crate or function.crate == crate)]
        have = [{clause for clause, _, _ in self.stated(function).clauses} for function in found]
        return [each for each, has in zip(found, have) if wanted <= has or "*" in name and wanted & has]

    def citing(self, relation: Definition) -> list[str]:
        """The clauses of public functions that cite a relation, those of laws first."""
        found = [
            ("/laws" not in where, f"{function.crate} {function.name}: {clause}, {where}")
            for same in self.functions.values()
            for function in same
            for clause, text, where in function.clauses
            if function.is_public and relation in self.cited(text, function.scope)
        ]
        return [text for _, text in sorted(found)]
