"""What ./wurstlinen does with cargo: it compiles without a kit, or if an argument says so, and says why it can't."""
from __future__ import annotations

import shutil
import unittest
from pathlib import Path

from clone import ROOT, Clone, new_clone

COMPILING = "wurstlinen: compiling the program with rustc 1.99.0, about a minute\n"
PROVING = "wurstlinen: proving and building the program, about 20 minutes on four processors; a call after an " \
          "interrupt goes on\n"
NO_STD = 'echo "error[E0463]: can\'t find crate for \\`std\\`" >&2; exit 101'
NO_CRATES = 'echo "error: no matching package named \\`arrayvec\\` found" >&2; exit 101'
ANSWER = "the program: decode 00\n"


class WithCargo(unittest.TestCase):
    def setUp(self) -> None:
        context = new_clone()
        self.clone: Clone = context.__enter__()
        self.addCleanup(context.__exit__, None, None, None)
        self.clone.put_cargo()

    def expect(self, words: str, status: int, out: str, err: str) -> None:
        """What a command prints, and its status."""
        done = self.clone.run("./wurstlinen", *words.split())
        self.assertEqual((done.returncode, done.stdout, done.stderr), (status, out, err))

    def expect_nothing_installed(self, status: int) -> None:
        """Whatever is to be installed leaves nothing behind."""
        for option in ("--install", "--install-library", "--package"):
            self.assertEqual(self.clone.run("./wurstlinen", option, "new/folder").returncode, status, option)
            self.assertFalse((self.clone.root / "new").exists(), option)
        self.assertEqual(list(self.clone.root.glob("out/rust/wurstlinen.b*")), [])

    def without_kit(self) -> None:
        (self.clone.bin / "rt").unlink()

    def test_without_a_kit_cargo_compiles_once(self) -> None:
        self.without_kit()
        self.expect("decode 00", 0, ANSWER, COMPILING)
        self.expect("decode 00", 0, ANSWER, "")
        self.expect("--unproved decode 00", 0, ANSWER, "")
        self.assertEqual(len(self.clone.rt_calls()), 1)
        self.assertIn("compiled with rustc 1.99.0", self.clone.run("./wurstlinen", "--version").stdout)

    def test_a_changed_source_or_tool_is_compiled_again(self) -> None:
        self.without_kit()
        self.expect("decode 00", 0, ANSWER, COMPILING)
        for changed in ("crates/rdm_wire/src/lib.rt", "tools/rust_text.py", "tools/rust_workspace.py",
                        "bindings/rust/Cargo.toml"):
            with (self.clone.root / changed).open("a") as file:
                file.write("\n")
            self.expect("decode 00", 0, ANSWER, COMPILING)

    def test_each_compiler_can_be_chosen(self) -> None:
        self.expect("--with rustc decode 00", 0, ANSWER, COMPILING)
        self.expect("--with kit decode 00", 0, ANSWER, PROVING)
        # What the kit has proved is used without it, and isn't what rustc has built.
        self.without_kit()
        self.expect("decode 00", 0, ANSWER, "")
        self.assertIn("proved with", self.clone.run("./wurstlinen", "--version").stdout)
        self.expect("--with gcc decode 00", 2, "", "wurstlinen: --with takes kit or rustc\n")

    def test_an_unproved_run_is_by_cargo_without_limits(self) -> None:
        self.expect("--unproved discover --line out --source 7a70:00000001", 0,
                    "the program: discover --line out --source 7a70:00000001\n", COMPILING)
        self.expect("--unproved decode 00", 0, ANSWER, "")

    def test_what_is_missing_is_named(self) -> None:
        self.without_kit()
        kit = "wurstlinen: the program has to be built, and there is no command rt: add the kit's folder bin to PATH; "
        self.clone.put_cargo(version="1.63.0")
        old = "cargo 1.63.0 is too old, and 1.85 is wanted: on Debian 12, apt install cargo-web rustc-web"
        self.expect("decode 00", 127, "", f"{kit}{old}\n")
        self.expect("--with rustc decode 00", 127, "", f"wurstlinen: {old}\n")
        (self.clone.bin / "cargo").write_text("#!/bin/sh\nexit 1\n")
        self.expect("decode 00", 127, "",
                    f"{kit}there is no cargo 1.85 or later: on Debian 12, apt install cargo-web rustc-web\n")
        self.expect_nothing_installed(127)
        self.assertEqual(list(self.clone.root.glob("out/rust/*")), [])

    def test_without_python_only_help_is_given(self) -> None:
        environment = self.clone.environment_without("python3")
        for words in ("decode 00", "--unproved decode 00", "doctor", "help", "--install new", "--rust new", ""):
            done = self.clone.run("./wurstlinen", *words.split(), env=environment)
            self.assertEqual((done.returncode, done.stdout, done.stderr),
                             (125, "", "wurstlinen: there is no command python3: install Python 3.9 or later\n"))
        for word in ("--help", "--version"):
            self.assertEqual(self.clone.run("./wurstlinen", word, env=environment).returncode, 0)
        self.assertEqual(list(self.clone.root.glob("out")) + list(self.clone.root.glob("new")), [])

    def test_without_crates_nothing_is_kept(self) -> None:
        self.without_kit()
        self.clone.put_cargo(NO_CRATES)
        self.expect("decode 00", 125, "",
                    f"{COMPILING}wurstlinen: the program isn't built: cargo has no network and no crates: on Debian, "
                    "apt install librust-arrayvec-dev librust-clap-dev librust-hex-dev librust-itoa-dev "
                    "librust-serde-json-dev librust-thiserror-dev\n")
        self.expect_nothing_installed(125)
        self.clone.put_cargo()
        self.expect("decode 00", 0, ANSWER, COMPILING)

    def test_a_target_without_std_is_named(self) -> None:
        self.without_kit()
        self.clone.put_cargo(NO_STD)
        self.expect("decode 00", 125, "", f"{COMPILING}wurstlinen: the program isn't built: rustc has no std for its "
                                          "target: install that, or another rustc\n")
        self.expect_nothing_installed(125)

    def test_another_kit_is_named_and_proves_anew(self) -> None:
        (self.clone.root / "KIT").write_text("kit-of-tests logic 1\n")
        self.assertEqual(self.clone.run("./wurstlinen", "decode", "00").returncode, 0)
        self.expect("decode 00", 0, ANSWER, "")
        (self.clone.root / "KIT").write_text("a later kit\n")
        done = self.clone.run("./wurstlinen", "decode", "00")
        both = "'kit-of-tests logic 1', and this text was proved with 'a later kit'"
        self.assertIn(f"the kit is {both}", done.stderr)
        self.assertIn(f"kit        {both}", self.clone.run("./wurstlinen", "doctor").stdout)
        self.expect("decode 00", 0, ANSWER, "")


class Gate(unittest.TestCase):
    """checks/rust, where its means are missing."""

    def setUp(self) -> None:
        context = new_clone()
        self.clone: Clone = context.__enter__()
        self.addCleanup(context.__exit__, None, None, None)
        (self.clone.root / "checks").mkdir()
        for name in ("rust", "count.bash"):
            shutil.copy(ROOT / "checks" / name, self.clone.root / "checks")
        (self.clone.root / "checks/only_deletes").write_text("#!/bin/sh\necho '3 passed, 0 failed'\n")
        (self.clone.root / "checks/only_deletes").chmod(0o755)

    def expect_skipped(self, why: str, counts: str) -> None:
        done = self.clone.run("checks/rust")
        self.assertEqual((done.returncode, done.stderr), (0, ""))
        self.assertIn(why, done.stdout)
        self.assertEqual(done.stdout.splitlines()[-1], counts)

    def test_without_cargo(self) -> None:
        self.expect_skipped("skipped: the text as plain Rust, since there is no cargo 1.85 or later: on Debian 12, "
                            "apt install cargo-web rustc-web\n", "0 passed, 0 failed")
        self.clone.put_cargo(version="1.63.0")
        self.expect_skipped("skipped: the text as plain Rust, since cargo 1.63.0 is too old", "0 passed, 0 failed")

    def test_without_crates(self) -> None:
        self.clone.put_cargo(NO_CRATES)
        self.expect_skipped("skipped: the text as plain Rust but for what the tool writes, since cargo has no network "
                            "and no crates: on Debian, apt install librust-arrayvec-dev", "4 passed, 0 failed")


class Workspaces(unittest.TestCase):
    def setUp(self) -> None:
        context = new_clone()
        self.clone: Clone = context.__enter__()
        self.addCleanup(context.__exit__, None, None, None)
        self.folder = self.clone.folder / "workspace"

    def write(self) -> int:
        done = self.clone.run("./wurstlinen", "--rust", str(self.folder))
        if done.returncode == 0:
            self.assertIn("""  from Debian's crates: cargo build --release --offline"""
                          """ --config 'source.crates-io.replace-with="debian"'"""
                          """ --config 'source.debian.directory="/usr/share/cargo/registry"'\n""", done.stderr)
        return done.returncode

    def test_is_written_and_written_again(self) -> None:
        self.assertEqual(self.write(), 0)
        manifest = self.folder / "Cargo.toml"
        before = manifest.stat().st_mtime_ns
        old = self.folder / "wurstlinen/src/old.rs"
        old.write_text("")
        self.assertEqual(self.write(), 0)
        self.assertEqual((old.exists(), manifest.stat().st_mtime_ns), (False, before))
        self.assertEqual([path for path in self.folder.iterdir() if path.name.startswith(".")], [])

    def test_leaves_a_folder_of_others_alone(self) -> None:
        self.folder.mkdir()
        (self.folder / "Cargo.toml").write_text("[package]\n")
        self.assertEqual(self.write(), 125)
        self.assertEqual([path.name for path in self.folder.iterdir()], ["Cargo.toml"])

    def test_wants_one_folder(self) -> None:
        self.assertEqual(self.clone.run("./wurstlinen", "--rust").returncode, 2)

    def test_says_which_file_it_does_not_understand(self) -> None:
        source: Path = self.clone.root / "crates/rdm_wire/src/lib.rt"
        source.write_text("pub fn one()\n    ensures { {\n{}\n")
        done = self.clone.run("./wurstlinen", "--rust", str(self.folder))
        self.assertEqual(done.returncode, 125)
        self.assertIn("crates/rdm_wire/src/lib.rt: a brace isn't closed", done.stderr)
        self.assertFalse(self.folder.exists())


if __name__ == "__main__":
    unittest.main()
