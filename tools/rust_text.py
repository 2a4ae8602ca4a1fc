"""Plain Rust of a text in Rattle. It deletes contracts and ghost code, renames what a short list names, and copies the
rest. Each rule is a method of Eraser; what no rule names is copied as it is."""
from __future__ import annotations

import re
from typing import Callable, Dict, List, Mapping, Sequence, Tuple

# What a token is, and its text.
Token = Tuple[str, str]

TOKEN = re.compile(
    r"""(?P<space>\s+)
    |(?P<comment>//[^\n]*|/\*.*?\*/)
    |(?P<string>b?r(?P<hash>\#*)".*?"(?P=hash)|b?"(?:\\.|[^"\\])*")
    |(?P<char>b?'(?:\\(?:x[0-9a-fA-F]{2}|u\{[^}]*\}|.)|[^'\\])')
    |(?P<life>'[A-Za-z_]\w*)
    |(?P<word>[A-Za-z_]\w*)
    |(?P<number>\d[\w]*(?:\.\d\w*)?)
    |(?P<mark>::|->|=>|.)""",
    re.X | re.S,
)
# A text or a brace. Braces in the texts of a clause aren't braces of code.
BRACE = re.compile(r'"(?:\\.|[^"\\])*"|[{}]')
# What may follow the braces of a ghost item: a value, a proof, and their names.
MORE_GHOST = re.compile(r"\s*(=|by)\s*\{")
PASSED_OVER = ("space", "comment")
# Calls and macros that take an allocator or the runtime, whose names are taken in Rust: the words that name one, how
# many of them are replaced, the crate that has it, and its name in the module for that crate.
RENAMED = {
    "Box": [(("::", "new", "("), 3, "std", "boxed::new")],
    "Value": [(("::", "from_slice", "("), 3, "serde_json", "from_slice")],
    "Formatter": [(("<", "W", ">"), 4, "", "Formatter<'_>")],
    # The allocator of a collection's type: there is one.
    ",": [(("Global", ">"), 2, "", "")],
    "collect": [(("::", "<", "Vec", "<"), 1, "", "collect_in")],
    "println": [(("!",), 1, "std", "println_to")],
    "eprintln": [(("!",), 1, "std", "eprintln_to")],
    "format": [(("!", "(", "in"), 1, "std", "format_in")],
    "vec": [(("!", "[", "in"), 1, "std", "vec_in")],
}
ASSERTIONS = ("assert", "assert_eq", "assert_ne", "panic")
# Conditions that a caller can break, and how Rust tests them: those that are cheap.
NAME, NUMBER = r"(\w+(?:\.\w+)*?)(?:\.now|\.old)?", r"(\d+|[A-Z_]+)"
TESTS = (
    (f"length {NAME} ≤ {NUMBER}", r"\1.len() <= \2"),
    (f"{NUMBER} ≤ length {NAME}", r"\2.len() >= \1"),
    (f"0 < length {NAME}\\.items", r"!\1.is_empty()"),
    (f"{NAME} ≤ {NUMBER}", r"\1 <= \2"),
    (f"{NAME} < {NUMBER}", r"\1 < \2"),
    (f"is_broadcast {NAME} ≡ false", r"!\1.is_broadcast()"),
    (f"next_op {NAME} ≡ End", r"\1.next() == Op::End"),
    (f"fits {NAME} \\(next_op {NAME}\\) ≡ true", r"\1.fits(&\2.next())"),
    (r"self\.now ≢ Op\.End", "*self != Op::End"),
)
NOT_DROPPED = "a value that must be used up: the crate's text lets no caller drop it"


class Fault(Exception):
    """The text isn't as expected."""


def closing(text: str, at: int) -> int:
    """The index behind the brace that closes the one at `at`."""
    depth = 0
    for found in BRACE.finditer(text, at):
        depth += (found.group() == "{") - (found.group() == "}")
        if not depth:
            return found.end()
    raise Fault("a brace isn't closed")


def tokens_of(text: str) -> List[Token]:
    """The tokens of a text. What is in the braces of a clause, or of a ghost item, is one token of kind ghost."""
    found: List[Token] = []
    at, in_ghost = 0, False
    while at < len(text):
        if in_ghost and text[at] == "{":
            end = closing(text, at)
            in_ghost = bool(MORE_GHOST.match(text, end))
            kind = "ghost"
        elif found and found[-1] == ("word", "ghost") and re.compile(r"\s+use\b").match(text, at):
            end, in_ghost, kind = text.index(";", at) + 1, False, "ghost"
        else:
            match = TOKEN.match(text, at)
            assert match is not None
            end = match.end()
            kind = "string" if match.lastgroup == "hash" else str(match.lastgroup)
            in_ghost |= kind == "word" and match.group() in ("requires", "ensures", "ghost")
        found.append((kind, text[at:end]))
        at = end
    return found


class Eraser:
    """Writes the tokens of a file, without what only the prover reads."""

    def __init__(self, text: str, paths: Mapping[str, str]) -> None:
        """`paths` says by which path each crate is named, `std` among them."""
        self.tokens = tokens_of(text)
        self.paths = paths
        self.at = 0
        self.out: List[Token] = []
        # The names that the last derive of an item has.
        self.derives: List[str] = []
        # The conditions of the function whose contract is read, and where its public item begins.
        self.conditions: List[str] = []
        self.item = -1
        self.rules: Dict[str, Callable[[], bool]] = {
            "requires": self.clause, "ensures": self.clause, "ghost": self.ghost, "pub": self.pub_ghost,
            "impl": self.proof, "unsafe": self.proof, "const": self.proof, "fn": self.function, "extern": self.for_c,
            "mod": self.inner_module, "expect": self.assertion,
            "struct": self.type_item, "enum": self.type_item, "#": self.attribute, "{": self.body,
        }
        self.rules.update({word: self.assertion for word in ASSERTIONS})

    def index(self, ahead: int = 0) -> int:
        """The index of the `ahead`th token from here that is no space and no comment."""
        for index in range(self.at, len(self.tokens)):
            if self.tokens[index][0] not in PASSED_OVER:
                if not ahead:
                    return index
                ahead -= 1
        return len(self.tokens)

    def peek(self, ahead: int = 0) -> str:
        """The text of that token."""
        index = self.index(ahead)
        return self.tokens[index][1] if index < len(self.tokens) else ""

    def starts(self, words: Sequence[str], ahead: int = 0) -> bool:
        """Whether these words follow."""
        return all(self.peek(ahead + i) == word for i, word in enumerate(words))

    def header(self) -> List[str]:
        """The words of an item before its braces, or its end."""
        words: List[str] = []
        depth = 0
        while self.peek(len(words)) not in ("{", "" if depth else ";", ""):
            words.append(self.peek(len(words)))
            depth += (words[-1] == "[") - (words[-1] == "]")
        return words

    def skip(self, count: int = 1) -> None:
        for _ in range(count):
            self.at = self.index() + 1

    def skip_over(self, last: str) -> List[str]:
        """Skips over the first `last` that is outside of all brackets. Returns what was before it, split at commas."""
        parts, depth = [""], 0
        while self.at < len(self.tokens):
            kind, word = self.tokens[self.at]
            self.at += 1
            if kind in ("mark", "ghost") and not depth and word == last:
                return [part.strip() for part in parts if part.strip()]
            if kind == "mark":
                depth += (word in "([{<") - (word in ")]}>")
            if kind == "mark" and not depth and word == ",":
                parts.append("")
            elif kind != "comment":
                parts[-1] += word
        raise Fault(f"the file ends before '{last}'")

    def write(self, text: str) -> None:
        self.out.append(("written", text))

    def copy(self) -> None:
        self.out.append(self.tokens[self.at])
        self.at += 1

    def copy_word(self) -> None:
        """Copies the next word, with what is before it."""
        for _ in range(self.at, self.index() + 1):
            self.copy()

    def last(self) -> str:
        """The last word that was written."""
        return next((word for kind, word in reversed(self.out) if kind not in PASSED_OVER), "")

    def forget_comments(self) -> None:
        """Takes back the comments of what is deleted."""
        while self.out and self.out[-1][0] in PASSED_OVER and not self.out[-1][1].startswith("//!"):
            if self.out[-1][1].isspace() and self.out[-1][1].count("\n") > 1:
                return
            self.out.pop()
        self.out.append(("space", "\n"))

    def drop_line(self) -> None:
        """Drops the rest of the line if it is empty."""
        if self.at < len(self.tokens) and self.tokens[self.at][0] == "space":
            _, newline, rest = self.tokens[self.at][1].partition("\n")
            if newline:
                self.tokens[self.at] = ("space", rest)

    def run(self) -> str:
        """The text in Rust."""
        while self.at < len(self.tokens):
            self.step()
        return "".join(word for _, word in self.out)

    def step(self) -> None:
        kind, word = self.tokens[self.at]
        rule = self.rules.get(word) if kind in ("word", "mark") else None
        if kind == "comment":
            self.comment(word)
        elif kind in ("word", "mark") and (self.call() or self.path(word)) or kind == "life" and self.label():
            return
        elif rule is None or not rule():
            self.copy()

    def comment(self, word: str) -> None:
        """Docs name a crate by its path, and by the last name of that if it stands alone."""
        if word.startswith(("///", "//!")):
            word = re.sub(r"(?<=[`(])(\w+)(?=::)", lambda it: self.paths.get(it[1], it[1]), word)
            word = re.sub(r"(?<=`)(\w+)(?=`)", lambda it: self.paths.get(it[1], it[1]).split("::")[-1], word)
        self.out.append(("comment", word))
        self.at += 1

    def call(self) -> bool:
        """Renames a call, or a macro."""
        for words, count, crate, name in RENAMED.get(self.tokens[self.at][1], []):
            if self.starts(words, 1):
                self.skip(count)
                self.write(f"{self.paths[crate]}::{name}" if crate else name)
                return True
        return False

    def path(self, word: str) -> bool:
        """Renames a crate at the start of a path."""
        if word not in self.paths or self.last() == "::" or self.peek(1) != "::":
            return False
        self.skip()
        self.write(self.paths[word])
        return True

    def label(self) -> bool:
        """Deletes a loop's label that nothing in the loop names: it is for the proof."""
        label = self.tokens[self.at]
        if self.peek(1) != ":" or self.peek(2) not in ("for", "while", "loop"):
            return False
        depth = 0
        for kind, word in self.tokens[self.at + 1:]:
            if (kind, word) == label:
                return False
            depth += (kind == "mark") * ((word == "{") - (word == "}"))
            if word == "}" and not depth:
                break
        self.skip(2)
        return True

    def clause(self) -> bool:
        """Deletes a clause of a contract. A public function's condition is tested, or told in its docs."""
        self.forget_comments()
        is_condition = self.peek() == "requires"
        while self.tokens[self.at][0] != "ghost":
            self.at += 1
        self.conditions += [" ".join(self.tokens[self.at][1][1:-1].split())] if is_condition else []
        self.at += 1
        return True

    def ghost(self) -> bool:
        """Deletes an import, a field, an argument or an item that is ghost."""
        if self.tokens[self.at + 1][0] == "ghost":
            self.at += 2
            self.drop_line()
            return True
        self.forget_comments()
        while True:
            while self.tokens[self.at][0] != "ghost":
                self.at += 1
            self.at += 1
            if self.peek() not in ("=", "by"):
                break
        if self.peek() in (";", ","):
            self.skip()
        self.drop_line()
        return True

    def pub_ghost(self) -> bool:
        """The same, with its visibility."""
        ahead = self.header().index(")") + 1 if self.peek(1) == "(" else 1
        if self.peek(ahead) != "ghost":
            return False
        self.at = self.index(ahead)
        return self.ghost()

    def proof(self) -> bool:
        """Deletes an `impl Model for ..`, and a proof about the size of a type, which is that of Rattle's layout."""
        header = self.header()
        is_model = ("Model", "for") in zip(header, header[1:])
        if not is_model and (header[:2] != ["const", "_"] or "size_of" not in header):
            return False
        self.forget_comments()
        self.skip(len(header) + 1)
        if is_model:
            self.skip_over("}")
        return True

    def function(self) -> bool:
        """Deletes the writer's type of a function with a formatter. A test or main makes the runtime itself."""
        begins = [i for i, (_, word) in enumerate(self.out[-8:], max(len(self.out) - 8, 0)) if word == "pub"]
        self.item = begins[-1] if begins and self.last() in ("pub", "const", "unsafe") else -1
        self.conditions = []
        self.copy()
        self.copy_word()
        if self.starts(("(", "rt", ":", "HostRuntime", ")")):
            self.skip(5)
            self.write("()")
            self.copy_to_body()
            self.write(" let rt = HostRuntime;")
        elif self.peek() == "<" and "Formatter<W>" in "".join(self.header()):
            self.skip()
            kept = [one for one in self.skip_over(">") if not re.fullmatch(r"W:\s*(fmt::)?Write", one)]
            self.write(f"<{', '.join(kept)}>" if kept else "")
        return True

    def body(self) -> bool:
        """Tests the conditions of a public function, if that is cheap. Its docs tell all of them."""
        self.copy()
        item, self.item, conditions, self.conditions = self.item, -1, self.conditions, []
        if item < 0 or not conditions:
            return True
        tests = [found for found in map(test_of, conditions) if found]
        others = [condition for condition in conditions if not test_of(condition)]
        docs = [f"/// # Panics\n///\n/// Unless `{' && '.join(tests)}`.\n"] if tests else []
        if others:
            lines = "".join(f"/// {condition}\n" for condition in others)
            docs.append(f"/// # Conditions\n///\n/// In Rattle:\n///\n/// ```text\n{lines}/// ```\n")
        self.out.insert(item, ("written", "///\n" + "///\n".join(docs)))
        self.write("".join(f" assert!({test});" for test in tests))
        return True

    def copy_to_body(self) -> None:
        """Goes on to the brace of a body, and copies it."""
        while self.tokens[self.at][1] != "{":
            self.step()
        self.copy()

    def for_c(self) -> bool:
        """A function for C is passed each slice as a pointer and a length, and no allocator."""
        if self.peek(2) != "fn":
            return False
        for _ in range(4):
            self.copy_word()
        self.skip()
        kept, body = [], []
        for parameter in self.skip_over(")"):
            name, form = (part.strip() for part in parameter.split(":", 1))
            items = re.fullmatch(r"&\s*(mut )?\s*\[(\w+)\]", form)
            if form == "Global":
                body.append(f"let {name} = Global;")
            elif items:
                mutable = "mut" if items[1] else "const"
                kept += [f"{name}: *{mutable} {items[2]}", f"{name}_len: usize"]
                call = f"{self.paths['std']}::for_c::{mutable}_slice({name}, {name}_len)"
                body.append(f"let {name} = unsafe {{ {call} }};")
            else:
                kept.append(parameter)
        self.write(f"({', '.join(kept)})")
        self.copy_to_body()
        self.write(" " + " ".join(body))
        return True

    def inner_module(self) -> bool:
        """A module within a file imports what each file imports."""
        if self.peek(2) != "{":
            return False
        for _ in range(3):
            self.copy_word()
        self.write(f" {self.prelude()}")
        return True

    def prelude(self) -> str:
        return f"#[allow(unused_imports)] use {self.paths['std']}::prelude::*;"

    def assertion(self) -> bool:
        """Deletes the runtime that an assertion is passed."""
        ahead = 1 if self.peek() == "expect" else 2
        if self.peek(ahead) != "(" or (ahead == 1) != (self.last() == "."):
            return False
        for _ in range(ahead + 1):
            self.copy_word()
        name = 1 if self.peek() == "&" else 0
        if self.peek(name) == "rt" and self.peek(name + 1) in (",", ";"):
            self.skip(name + 2)
        return True

    def attribute(self) -> bool:
        """Deletes what only the prover reads, and the derive of Drop, which each type in Rust has."""
        name = self.peek(2) if self.peek(1) == "[" else self.peek(3)
        if name == "tactic":
            while self.peek() != "[":
                self.skip()
            self.skip()
            self.skip_over("]")
            self.drop_line()
            return True
        if name != "derive":
            return False
        self.skip(4)
        self.derives = self.skip_over(")")
        self.skip()
        names = [name for name in self.derives if name != "Drop"]
        if names:
            self.write(f"#[derive({', '.join(names)})]")
        else:
            self.drop_line()
        return True

    def type_item(self) -> bool:
        """Marks a public type that can't be dropped in Rattle."""
        if self.last() == "pub" and not {"Drop", "Copy"} & set(self.derives):
            at = max(i for i, (_, word) in enumerate(self.out) if word == "pub")
            self.out.insert(at, ("written", f'#[must_use = "{NOT_DROPPED}"]\n'))
        self.derives = []
        return False


def test_of(condition: str) -> str:
    """How Rust tests a condition, if that is cheap."""
    for pattern, test in TESTS:
        found = re.fullmatch(pattern, condition)
        if found:
            return found.expand(test)
    return ""


def plain_rust(text: str, paths: Mapping[str, str]) -> str:
    """The text of a file in Rust. It imports what each file imports, behind its docs and attributes."""
    eraser = Eraser(text, paths)
    lines = eraser.run().split("\n")
    at = 0
    while at < len(lines) and (not lines[at].strip() or lines[at].startswith(("//!", "#!"))):
        at += 1
    return "\n".join([*lines[:at], eraser.prelude(), *lines[at:]])
