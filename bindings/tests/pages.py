"""Compiles and runs the lines of C and Python in README.md and bindings/README.md: `python3 pages.py ARCHIVE FOLDER`.

ARCHIVE is libwurstlinen.a, and FOLDER a place for what is built. Lines of C and of README.md in Python run on a line
without devices; in the other page's Python the reader has to fill in the line, so it is only compiled. The last line is
'N passed, M failed'.
"""

import contextlib
import io
import os
import re
import subprocess
import sys

ROOT = os.path.dirname(os.path.dirname(os.path.dirname(os.path.abspath(__file__))))
sys.path.insert(0, os.path.join(ROOT, "bindings", "python"))
README = "README.md"
# The languages that a page has to have.
PAGES = {README: {"python"}, os.path.join("bindings", "README.md"): {"c", "python"}}
BLOCK = re.compile(r"^```(c|python)\n(.*?)^```$", re.DOTALL | re.MULTILINE)
INCLUDE = re.compile(r"^#include .*\n", re.MULTILINE)
# What the reader brings: a line on which nothing answers.
C_PROGRAM = """#include <wurstlinen.h>
static size_t my_line(const uint8_t *frame, size_t len, uint8_t *reply) {
    reply[0] = frame[len - 1];
    return 0;
}
int main(void) {
%s
    return 0;
}
"""
C_FLAGS = ["-std=c11", "-O1", "-Wall", "-Wextra", "-Werror", "-pedantic", "-I" + os.path.join(ROOT, "bindings", "c")]


class Silent:
    """A line on which nothing answers."""

    def exchange(self, frame: bytes) -> bytes:
        """No bytes."""
        return b""


def run_c(text: str, archive: str, folder: str) -> None:
    """Compiles lines of C as a function's, and runs them."""
    source, program = os.path.join(folder, "page.c"), os.path.join(folder, "page")
    with open(source, "w", encoding="utf-8") as file:
        file.write(C_PROGRAM % INCLUDE.sub("", text))
    subprocess.run(["cc", *C_FLAGS, source, archive, "-o", program], check=True)
    subprocess.run([program], check=True)


def run_python(text: str, page: str) -> None:
    """Compiles lines of Python, and runs them if they are the README's."""
    code = compile(text, page, "exec")
    if page == README:
        import wurstlinen
        with contextlib.redirect_stdout(io.StringIO()):
            exec(code, {**vars(wurstlinen), "my_line": Silent()})


def main(archive: str, folder: str) -> int:
    """Tries each block of both languages."""
    passed = failed = 0
    for page, languages in PAGES.items():
        with open(os.path.join(ROOT, page), encoding="utf-8") as file:
            blocks = BLOCK.findall(file.read())
        for language in sorted(languages - {language for language, _ in blocks}):
            print(f"{page} has no lines in {language}")
            failed += 1
        for language, text in blocks:
            try:
                run_c(text, archive, folder) if language == "c" else run_python(text, page)
                passed += 1
            except Exception as error:
                print(f"{page}: {error}\n{text}")
                failed += 1
    print(f"{passed} passed, {failed} failed")
    return 1 if failed else 0


if __name__ == "__main__":
    sys.exit(main(*sys.argv[1:]))
