"""./wurstlinen --package FOLDER --for arm64: what it calls and makes, and what it says if something is missing."""
from __future__ import annotations

import shutil
import subprocess
import tarfile
import tempfile
import unittest
from pathlib import Path
from typing import Dict, List

from clone import ROOT, Clone, new_clone

CROSS = "aarch64-linux-gnu"
TARGET = "aarch64-unknown-linux-gnu"
VERSION = (ROOT / "VERSION").read_text().strip()
# It also leaves what `rt lib` does: the library that a crate above needs, and its stamp.
LIBRARIES = 'mkdir -p "out/rlib/$crate.rlib"; : > out/rlib/stamp'
# The kit's rattle, which notes its calls, and compiles a program or a library in C.
RATTLE = """#!/bin/sh
echo "rattle $*" >> "{calls}"
while [ "$1" != --crate-name ]; do shift; done
crate="$2"
while [ "$1" != -o ]; do shift; done
if [ "$crate" = wurstlinen ]; then
    echo 'int main(void) {{ return 0; }}' | {cross}-gcc -x c -c - -o "$2"
else
    echo 'int wurst_answer(void) {{ return 7; }}' | {cross}-gcc -fPIC -x c -c - -o "$2.o" && {cross}-ar rcs "$2" "$2.o"
fi
"""
# The numbers that ELF has for kinds of machines, at byte 18.
ARM64 = 183


def machine(data: bytes) -> int:
    """The kind of machine that a program or a library is for."""
    return data[18] if data.startswith(b"\x7fELF") else 0


class Cross(unittest.TestCase):
    def setUp(self) -> None:
        context = new_clone()
        self.clone: Clone = context.__enter__()
        self.addCleanup(context.__exit__, None, None, None)
        self.clone.put_rt(LIBRARIES)
        self.clone.put("rattle", RATTLE.format(calls=self.clone.calls, cross=CROSS))
        # Debian's packages aren't downloaded.
        self.clone.put("apt-get", "#!/bin/sh\nexit 100\n")
        self.clone.archive.write_bytes(b"!<arch>\n")

    def package(self, *words: str, **options: object) -> "subprocess.CompletedProcess[str]":
        """Makes packages in the folder new."""
        return self.clone.run("./wurstlinen", "--package", "new", *words, **options)

    def expect(self, status: int, error: str, *words: str, **options: object) -> None:
        """It fails with this line, and makes nothing."""
        done = self.package(*words, **options)
        self.assertEqual((done.returncode, done.stdout, done.stderr), (status, "", f"wurstlinen: {error}\n"))
        self.assertEqual([*self.clone.root.glob("new"), *self.clone.root.glob("out")], [])

    def made(self) -> Dict[str, bytes]:
        """The files of the .tar.gz, by their paths in it."""
        found, = (self.clone.root / "new").glob("*.tar.gz")
        self.assertTrue(found.name.endswith("-linux-aarch64.tar.gz"), found.name)
        with tarfile.open(found) as archive:
            files = ((each.name.partition("/")[2], archive.extractfile(each)) for each in archive if each.isfile())
            return {name: file.read() for name, file in files if file is not None}

    def calls_of_rattle(self) -> List[str]:
        return [call for call in self.clone.rt_calls() if call.startswith("rattle ")]

    @unittest.skipUnless(shutil.which(f"{CROSS}-gcc") and shutil.which("dpkg-deb"), f"{CROSS}-gcc isn't installed")
    def test_all_of_it_is_for_that_machine(self) -> None:
        done = self.package("--for", "arm64")
        self.assertEqual(done.returncode, 0, done.stderr)
        self.assertIn("OLA's libraries for arm64 can't be downloaded (libola-dev), so no package wurstlinen-ola is "
                      "made", done.stderr)
        files = self.made()
        for name in ("libexec/wurstlinen/wurstlinen", "lib/libwurstlinen.so.0"):
            self.assertEqual(machine(files[name]), ARM64, name)
        proof = files["PROOF"].decode()
        self.assertIn("machine: aarch64\n", proof)
        self.assertIn("Built on another kind of machine than this package is for.", proof)
        debian = [path.name for path in (self.clone.root / "new").glob("*.deb")]
        self.assertEqual(sorted(name.rpartition("_")[2] for name in debian), ["all.deb"] + ["arm64.deb"] * 3)
        for name in debian:
            command = ["dpkg-deb", "-f", str(self.clone.root / "new" / name), "Architecture"]
            said = subprocess.run(command, check=True, capture_output=True, text=True).stdout.strip()
            self.assertEqual(f"_{said}.deb", name[name.rindex("_"):])

    @unittest.skipUnless(shutil.which(f"{CROSS}-gcc"), f"{CROSS}-gcc isn't installed")
    def test_what_is_proved_for_this_machine_is_used(self) -> None:
        self.assertEqual(self.package("--for", "arm64").returncode, 0)
        library, program = self.calls_of_rattle()
        for call, crate in ((library, "rdm_c"), (program, "wurstlinen")):
            self.assertIn(f" --crate-name {crate} ", call)
            self.assertIn(f" --target {TARGET} ", call)
            self.assertIn(f" --incremental {self.clone.root}/crates/{crate}/out/incremental ", call)
        # The libraries below are proved first, each by rt, which does nothing if they are up to date.
        calls = self.clone.rt_calls()
        self.assertLess(calls.index(f"{self.clone.root}/crates/rdm_wire lib"), calls.index(program))

    @unittest.skipUnless(shutil.which(f"{CROSS}-gcc"), f"{CROSS}-gcc isn't installed")
    def test_a_failed_proof_leaves_nothing(self) -> None:
        self.clone.put("rattle", "#!/bin/sh\necho 'open goal: it'\nexit 1\n")
        done = self.package("--for", "arm64")
        self.assertEqual((done.returncode, done.stdout), (125, ""))
        self.assertIn("open goal: it\n", done.stderr)
        self.assertEqual(done.stderr.splitlines()[-1], "wurstlinen: rdm_c wasn't built for arm64")
        self.assertFalse((self.clone.root / "new").exists())

    def test_wrong_words_build_nothing(self) -> None:
        for machine_of in ("armhf", "amd64", ""):
            self.expect(2, "--for takes arm64", "--for", machine_of)
        for words in (("--for",), ("--for", "arm64", "more"), ("more", "--for")):
            self.expect(2, "--package takes one folder, and for another kind of machine --for arm64", *words)
        self.assertEqual(self.clone.rt_calls(), [])

    def test_what_is_missing_is_named(self) -> None:
        environment = self.clone.environment_without(*(f"{CROSS}-{name}" for name in ("gcc", "g++")))
        self.expect(125, f"there is no command {CROSS}-gcc: on Debian, apt install g++-{CROSS}", "--for", "arm64",
                    env=environment)
        self.clone.put_cargo()
        (self.clone.bin / "rt").unlink()
        self.expect(125, "--for arm64 needs the kit; with cargo, call './wurstlinen --package FOLDER' on such a "
                         "machine", "--for", "arm64")
        self.assertEqual(self.clone.rt_calls(), [])


class Crates(unittest.TestCase):
    """tools/build_crate uses only libraries that are what its arguments say."""

    def setUp(self) -> None:
        context = new_clone()
        self.clone: Clone = context.__enter__()
        self.addCleanup(context.__exit__, None, None, None)
        self.clone.put("rattle", "#!/bin/sh\nexit 0\n")
        self.rlib = self.clone.root / "crates/rdm_arguments/out/rlib/rdm_arguments.rlib"

    def build(self, *words: str) -> str:
        """What it says of a build of rdm_c over rdm_arguments."""
        return self.clone.run("tools/build_crate", *words, "rdm_c", "archive").stderr

    def test_libraries_of_another_build_are_refused(self) -> None:
        name = self.rlib.relative_to(self.clone.root)
        self.assertEqual(self.build(),
                         f"build_crate: {name} isn't proved and built: call rt lib for rdm_arguments\n")
        self.rlib.mkdir(parents=True)
        begun = int(self.rlib.stat().st_mtime)
        self.assertEqual(self.build("--begun", str(begun)), "")
        wrong = f"build_crate: {name} isn't what rt ci has built\n"
        self.assertEqual(self.build("--begun", str(begun + 10)), wrong)
        (self.rlib.parent / "stamp").write_text("")
        self.assertEqual(self.build(), "")
        self.assertEqual(self.build("--begun", str(begun)), wrong)

    def test_an_old_archive_is_removed_first(self) -> None:
        self.rlib.mkdir(parents=True)
        (self.rlib.parent / "stamp").write_text("")
        self.clone.put("rattle", "#!/bin/sh\necho 'open goal' >&2\nexit 1\n")
        archive = self.clone.root / "archive"
        archive.write_text("")
        self.assertEqual(self.build(), "open goal\n")
        self.assertFalse(archive.exists())


class Gate(unittest.TestCase):
    """checks/arm, where its means are missing."""

    def setUp(self) -> None:
        context = new_clone()
        self.clone: Clone = context.__enter__()
        self.addCleanup(context.__exit__, None, None, None)
        (self.clone.root / "checks").mkdir()
        for name in ("arm", "count.bash"):
            shutil.copy(ROOT / "checks" / name, self.clone.root / "checks")

    def expect(self, status: int, out: str, *words: str, without: str = "nothing") -> None:
        done = self.clone.run("checks/arm", *words, env=self.clone.environment_without(without))
        self.assertEqual((done.returncode, done.stdout), (status, out))

    def expect_skipped(self, why: str, without: str) -> None:
        self.expect(0, f"skipped: what is for arm64, since {why}\n0 passed, 0 failed\n", without=without)

    def test_what_is_missing_is_named(self) -> None:
        # Stand-ins for what this machine may not have.
        for name in ("gcc", "g++", "ar", "strip"):
            self.clone.put(f"{CROSS}-{name}", "#!/bin/sh\nexit 1\n")
        self.expect_skipped("there is no command qemu-aarch64: on Debian, apt install qemu-user", "qemu-aarch64")
        (self.clone.bin / f"{CROSS}-g++").unlink()
        self.expect_skipped(f"there is no command {CROSS}-g++: on Debian, apt install g++-{CROSS}", f"{CROSS}-g++")
        (self.clone.bin / "rt").unlink()
        self.expect_skipped("there is no command rt", "rt")

    def test_wrong_words_are_refused(self) -> None:
        for words in (("--begun",), ("--kept", "a", "--begun", "1"), ("more",)):
            self.expect(2, "0 passed, 1 failed\n", *words)


class Systems(unittest.TestCase):
    """tools/unpack_debian, with a stand-in for apt."""

    def test_what_fails_leaves_nothing(self) -> None:
        with tempfile.TemporaryDirectory() as place:
            folder = Path(place)
            (folder / "apt-get").write_text("#!/bin/sh\nexit 100\n")
            (folder / "apt-get").chmod(0o755)
            done = subprocess.run([ROOT / "tools/unpack_debian", folder / "system", "arm64", "libola-dev"], check=False,
                                  env={"PATH": f"{folder}:/usr/bin:/bin"}, capture_output=True)
            self.assertNotEqual(done.returncode, 0)
            self.assertEqual([path.name for path in folder.iterdir()], ["apt-get"])


if __name__ == "__main__":
    unittest.main()
