"""The files of the package: Python 3.9, types and comments for what others call, and nothing that is too long."""
from __future__ import annotations

import ast
from pathlib import Path
from typing import Iterator, List, Tuple, Union

from common import PACKAGE, ROOT, TestCase

VERSION = (3, 9)
MOST_LINES_OF_A_FILE = 600
MOST_LINES_OF_A_FUNCTION = 40
MOST_COLUMNS = 120
# Python 3.9 has no list of them.
STANDARD_MODULES = {
    "__future__", "_socket", "abc", "argparse", "array", "base64", "collections", "contextlib", "csv", "dataclasses",
    "decimal", "difflib", "enum", "errno", "fcntl", "functools", "gc", "grp", "hashlib", "html", "importlib", "io",
    "ipaddress", "itertools", "json", "os", "pathlib", "pkgutil", "queue", "random", "re", "secrets", "select",
    "selectors", "shlex", "signal", "socket", "stat", "struct", "subprocess", "sys", "tempfile", "termios",
    "threading", "time", "tty", "types", "typing", "weakref", "zlib",
}
LINES = PACKAGE / "wurstlinen"
Function = Union[ast.FunctionDef, ast.AsyncFunctionDef]


def files() -> List[Path]:
    """All Python below bindings, and the script of these tests."""
    return sorted((ROOT / "bindings").rglob("*.py")) + [ROOT / "checks/lines"]


def own_files() -> List[Path]:
    """The files of lines, parameters and commands."""
    folders = [LINES / name for name in ("front", "lines", "olad", "parameters", "shared", "tool")]
    below = [path for folder in folders for path in sorted(folder.glob("*.py"))]
    return [*below, LINES / "line.py", LINES / "commands.py", LINES / "__main__.py", LINES / "_ask.py"]


def parsed(path: Path) -> ast.Module:
    return ast.parse(path.read_text(), str(path), feature_version=VERSION)


def functions(path: Path) -> Iterator[Function]:
    for node in ast.walk(parsed(path)):
        if isinstance(node, (ast.FunctionDef, ast.AsyncFunctionDef)):
            yield node


def imports(path: Path) -> Iterator[Tuple[int, str]]:
    """The modules that a file imports from elsewhere."""
    for node in ast.walk(parsed(path)):
        if isinstance(node, ast.Import):
            yield from ((node.lineno, name.name.partition(".")[0]) for name in node.names)
        elif isinstance(node, ast.ImportFrom) and not node.level and node.module:
            yield node.lineno, node.module.partition(".")[0]


class Syntax(TestCase):
    def test_all_files_are_python_3_9(self) -> None:
        self.assertGreater(len(files()), 20)
        for path in files():
            parsed(path)

    def test_nothing_is_too_long(self) -> None:
        for path in [*own_files(), *Path(__file__).parent.glob("*.py"), ROOT / "checks/lines"]:
            lines = path.read_text().splitlines()
            self.assertLessEqual(len(lines), MOST_LINES_OF_A_FILE, path)
            self.assertLessEqual(max(map(len, lines), default=0), MOST_COLUMNS, path)
            for function in functions(path):
                length = (function.end_lineno or 0) - function.lineno + 1
                self.assertLessEqual(length, MOST_LINES_OF_A_FUNCTION, f"{path}: {function.name}")

    def test_the_standard_library_alone(self) -> None:
        for path in own_files():
            for line, module in imports(path):
                self.assertIn(module, STANDARD_MODULES, f"{path}:{line}")

    def test_what_others_call_has_types_and_a_comment(self) -> None:
        for path in own_files():
            self.assertTrue(ast.get_docstring(parsed(path)), path)
            for function in functions(path):
                where = f"{path}: {function.name}"
                self.assertIsNotNone(function.returns, where)
                if not function.name.startswith("_") and function.name not in ("read", "handler", "open_frames"):
                    self.assertTrue(ast.get_docstring(function), where)
