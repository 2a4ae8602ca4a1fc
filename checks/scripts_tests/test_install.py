"""Installations: files that programs use, modes, names, links, and several calls at once."""
from __future__ import annotations

import os
import shlex
import shutil
import signal
import stat
import subprocess
import unittest
from pathlib import Path
from typing import List

from clone import ROOT, Clone, compile_c, is_alive, new_clone, runs_in_group, wait_for

INSTALL = 'mkdir "$1/made" && cp "$1/stand_in.a" "$1/made/libwurstlinen.a" && cp "$1/$soname" "$1/made/" ' \
          '&& install_library "$2" "$1/made" "$3"; status=$?; rm -r "$1/made"; exit $status'
# A library of one page after another, so that a file that is cut off isn't still in memory.
LIBRARY = "static const char large[1 << 20] = {1};\n" \
          "int wurst_answer(int at) { return large[at %% sizeof large] + %d; }\n"
USER = """
#include <stdio.h>
#include <unistd.h>
int wurst_answer(int at);
int main(void) {
    puts("ready"); fflush(stdout);
    for (int at = 0; getchar() != EOF; at += 4096) { printf("%d\\n", wurst_answer(at) > 1); fflush(stdout); }
    return 0;
}
"""


class Installs(unittest.TestCase):
    def setUp(self) -> None:
        context = new_clone()
        self.clone: Clone = context.__enter__()
        self.addCleanup(context.__exit__, None, None, None)
        self.prefix = self.clone.folder / "prefix"
        self.build_library(2)

    def build_library(self, number: int) -> None:
        """Makes the archive and the shared library, as if they had been proved."""
        part = self.clone.folder / "part.o"
        compile_c(LIBRARY % number, part, ["-c", "-fPIC"])
        self.clone.archive.unlink(missing_ok=True)
        subprocess.run(["ar", "rcs", str(self.clone.archive), str(part)], check=True)
        soname = self.clone.folder / "libwurstlinen.so.0"
        compile_c(LIBRARY % number, soname, ["-shared", "-fPIC", "-Wl,-soname,libwurstlinen.so.0"])

    def install(self, prefix: Path, **options: object) -> None:
        """Installs by the function of tools/library.bash."""
        done = self.clone.bash(INSTALL, str(self.clone.folder), str(self.clone.root), str(prefix), **options)
        self.assertEqual((done.returncode, done.stderr), (0, ""))

    def test_programs_that_use_the_library_go_on(self) -> None:
        self.install(self.prefix)
        user = self.clone.folder / "user"
        library = self.prefix / "lib"
        compile_c(USER, user, ["-x", "none", f"{library}/libwurstlinen.so", f"-Wl,-rpath,{library}"])
        pipes = {"stdin": subprocess.PIPE, "stdout": subprocess.PIPE, "text": True}
        with subprocess.Popen([str(user)], **pipes) as process:
            assert process.stdin is not None and process.stdout is not None
            self.assertEqual(process.stdout.readline(), "ready\n")
            self.build_library(3)
            (self.clone.folder / "libwurstlinen.so.0").write_bytes(b"")
            self.install(self.prefix)
            process.stdin.write("." * 100)
            process.stdin.close()
            self.assertEqual(process.stdout.read(), "1\n" * 100)
        self.assertEqual(process.returncode, 0)

    def test_the_python_package_is_replaced_whole(self) -> None:
        package = self.prefix / "lib/python3/site-packages/wurstlinen"
        self.install(self.prefix)
        (package / "old.py").write_text("")
        held = os.open(package, os.O_RDONLY)
        self.install(self.prefix)
        # Who has the old folder still finds its files in it until it is removed, and the new one is another.
        self.assertNotEqual(os.fstat(held).st_ino, package.stat().st_ino)
        os.close(held)
        wanted = {path.name for path in (ROOT / "bindings/python/wurstlinen").iterdir()} - {"__pycache__"}
        self.assertEqual({path.name for path in package.iterdir()}, wanted)
        self.assertEqual([path.name for path in package.parent.iterdir()], ["wurstlinen"])

    def test_a_signal_never_costs_the_python_package(self) -> None:
        """A mv that sends its caller a signal when it moves the old package away or back, or can't move the new one."""
        package = self.prefix / "lib/python3/site-packages/wurstlinen"
        self.install(self.prefix)
        (package / "old.py").write_text("")
        for case, status in (("*/old*) /bin/mv \"$@\"; kill -s HUP $PPID", 129),
                             ("*/old*) /bin/mv \"$@\"; kill -s INT $PPID", 130),
                             ("*/old*) /bin/mv \"$@\"; kill -s TERM $PPID", 143),
                             ("*/new\\ *) exit 1", 1)):
            (self.clone.bin / "mv").write_text(f'#!/bin/sh\ncase "$*" in\n{case} ;;\n*) exec /bin/mv "$@" ;;\nesac\n')
            (self.clone.bin / "mv").chmod(0o755)
            done = self.clone.bash(INSTALL, str(self.clone.folder), str(self.clone.root), str(self.prefix))
            self.assertEqual(done.returncode, status, case)
            self.assertTrue((package / "old.py").exists(), case)
            self.assertEqual([path.name for path in package.parent.iterdir()], ["wurstlinen"])

    def test_everyone_can_read_what_is_installed(self) -> None:
        old = os.umask(0o077)
        self.addCleanup(os.umask, old)
        self.install(self.prefix)
        done = self.clone.run("./wurstlinen", "--install", str(self.clone.folder / "bin dir"))
        self.assertEqual(done.returncode, 0, done.stderr)
        for top in (self.prefix, self.clone.folder / "bin dir"):
            for path in [top, *top.rglob("*")]:
                mode = stat.S_IMODE(path.stat().st_mode)
                is_program = path.name in ("wurstlinen", "rdm_port") and path.is_file()
                self.assertEqual(mode, 0o755 if path.is_dir() or is_program else 0o644, path)

    def test_all_headers_are_installed(self) -> None:
        """Each can be included without the sources."""
        self.install(self.prefix)
        headers = ["wurstlinen.h", "wurstlinen.hpp", "wurstlinen_agent.hpp", "wurstlinen_ask.hpp"]
        self.assertEqual(sorted(path.name for path in (self.prefix / "include").iterdir()), headers)
        for header in headers:
            done = self.clone.run("c++", "-std=c++17", "-fsyntax-only", "-x", "c++", "-include", header,
                                  f"-I{self.prefix}/include", "/dev/null")
            self.assertEqual((done.returncode, done.stderr), (0, ""), header)

    def test_the_root_folder_is_examined_too(self) -> None:
        """A stat that says that all folders are root's, and that anyone may write in this one."""
        for open_to_all, found in (("/", "/\n"), ("/usr/", "/usr\n"), ("none", "")):
            (self.clone.bin / "stat").write_text(
                f'#!/bin/sh\nfor last; do :; done\n[ "$last" = {open_to_all} ] && echo 0 777 || echo 0 755\n')
            (self.clone.bin / "stat").chmod(0o755)
            for folder in ("/usr/share", "/usr"):
                done = self.clone.bash(f'. "{self.clone.root}/tools/ola.bash"; writable_by_others "$1"', folder)
                self.assertEqual((done.stdout, done.stderr), (found, ""), folder)
        (self.clone.bin / "stat").write_text("#!/bin/sh\necho 0 777\n")
        done = self.clone.bash(f'. "{self.clone.root}/tools/ola.bash"; writable_by_others ""')
        self.assertEqual(done.stdout, "/\n")

    def test_a_prefix_with_blanks(self) -> None:
        prefix = self.clone.folder / "a b  c"
        done = self.clone.run("./wurstlinen", "--install-library", str(prefix))
        self.assertEqual(done.returncode, 0, done.stderr)
        if not shutil.which("pkg-config"):
            self.skipTest("there is no pkg-config")
        flags = shlex.split(self.clone.run("pkg-config", "--cflags", "--libs", "wurstlinen", env={
            **self.clone.environment, "PKG_CONFIG_PATH": str(prefix / "lib/pkgconfig")}).stdout)
        self.assertEqual(flags, [f"-I{prefix}/include", f"-L{prefix}/lib", "-lwurstlinen"])
        (self.clone.root / "program.c").write_text("#include <wurstlinen.h>\nint main(void) { return 0; }\n")
        printed = [line.partition("C and C++: ")[2] for line in done.stderr.splitlines() if "C and C++: " in line]
        compiled = self.clone.run("bash", "-c", printed[0])
        self.assertEqual((compiled.returncode, compiled.stderr), (0, ""))
        self.assertTrue((self.clone.root / "a.out").exists())

    def test_paths_that_nothing_can_name_are_refused(self) -> None:
        for option, names in (("--install-library", "a:b a$b a;b a#b a\"b a'b a`b a\\b a\nb".split(" ")),
                              ("--install-ola", ["a b", "a:b", "a%b", "a$b", "a\"b", "a\tb"])):
            for name in names:
                done = self.clone.run("./wurstlinen", option, str(self.clone.folder / name))
                self.assertEqual(done.returncode, 125, name)
                self.assertIn("such characters", done.stderr)
                self.assertFalse((self.clone.folder / name).exists())
        self.assertEqual(self.clone.rt_calls(), [])
        for words in ([""], [], ["a", "b"]):
            self.assertEqual(self.clone.run("./wurstlinen", "--install-library", *words).returncode, 2)

    def test_what_the_prover_prints(self) -> None:
        self.clone.put_rt('echo "a proof"; echo "rt: waiting for another rt to finish in x" >&2')
        for before, shown in ([], False), (["--verbose"], True):
            done = self.clone.run("./wurstlinen", *before, "--install-library", str(self.prefix))
            self.assertEqual((done.returncode, "a proof\n" in done.stderr), (0, shown), done.stderr)
            self.assertIn("waiting for another rt", done.stderr)
        self.clone.put_rt('echo "a reason"; exit 1')
        done = self.clone.run("./wurstlinen", "--install-library", str(self.prefix))
        self.assertEqual(done.returncode, 125)
        self.assertIn("a reason\n", done.stderr)

    def test_another_folder_of_cdpath_is_left_alone(self) -> None:
        other = self.clone.folder / "other"
        (other / "prefix").mkdir(parents=True)
        environment = {**self.clone.environment, "CDPATH": str(other)}
        done = self.clone.run("./wurstlinen", "--install-library", "prefix", env=environment)
        self.assertEqual(done.returncode, 0, done.stderr)
        self.assertEqual(list((other / "prefix").iterdir()), [])
        self.assertTrue((self.clone.root / "prefix/lib/libwurstlinen.so.0").exists())

    def test_links_are_replaced_and_not_followed(self) -> None:
        target, victim = self.clone.folder / "programs", self.clone.folder / "victim"
        target.mkdir()
        victim.write_text("mine")
        for name in ("wurstlinen.new", "wurstlinen", "rdm_port"):
            (target / name).symlink_to(victim)
        self.assertEqual(self.clone.run("./wurstlinen", "--install", str(target)).returncode, 0)
        self.assertEqual(victim.read_text(), "mine")
        self.assertFalse((target / "wurstlinen").is_symlink())
        wanted = {"libexec", "wurstlinen", "wurstlinen.new", "rdm_port"}
        self.assertEqual({path.name for path in target.iterdir()}, wanted)

    def test_the_program_is_in_libexec(self) -> None:
        below = "libexec/wurstlinen/wurstlinen"
        for name, link in (("bin", f"../{below}"), ("usr/bin", f"../{below}"), ("programs", below),
                           ("other", f"../{below}")):
            target = self.clone.folder / "a b" / name
            if name == "other":
                target.symlink_to("usr/bin")
            elif name == "programs":
                target.mkdir()
                # An earlier installation had the program itself here.
                (target / "rdm_port").write_text("old")
            done = self.clone.run("./wurstlinen", "--install", str(target))
            self.assertEqual(done.returncode, 0, done.stderr)
            self.assertIn(f"{target}/rdm_port, which is a link to {link}\n", done.stderr)
            self.assertEqual(os.readlink(target / "rdm_port"), link)
            self.assertEqual(self.clone.run(str(target / "rdm_port"), "x").stdout, "the program: x\n")
            done = self.clone.run(str(target / "wurstlinen"), "decode", "0")
            self.assertEqual(done.stdout, "the program: decode 0\n")
        self.assertEqual(sorted(path.name for path in (self.clone.folder / "a b").iterdir()),
                         ["bin", "libexec", "other", "programs", "usr"])

    def test_a_folder_above_that_cannot_be_written(self) -> None:
        (self.clone.folder / "libexec").write_text("")
        done = self.clone.run("./wurstlinen", "--install", str(self.clone.folder / "bin"))
        self.assertEqual(done.returncode, 125)
        self.assertIn("libexec/wurstlinen can't be written\n", done.stderr)
        self.assertEqual(self.clone.rt_calls(), [])

    def test_several_calls_at_once(self) -> None:
        self.install(self.prefix)
        script = INSTALL.replace("$1/made", "$4")
        words = [str(self.clone.folder), str(self.clone.root), str(self.prefix)]
        text = f'set -u; . "{self.clone.root}/tools/library.bash"; {script}'
        calls: List["subprocess.Popen[str]"] = []
        for number in range(6):
            calls.append(self.clone.start("bash", "-c", text, "bash", *words, f"{self.clone.folder}/made.{number}"))
        for call in calls:
            self.assertEqual((call.communicate()[1], call.returncode), ("", 0))
        self.assertEqual([path.name for path in (self.prefix / "lib/python3/site-packages").iterdir()], ["wurstlinen"])
        left = [path for path in self.prefix.rglob("*") if path.name.startswith(".")]
        self.assertEqual(left, [])

    def test_a_full_disk_leaves_the_old_file(self) -> None:
        target = self.clone.folder / "file"
        target.write_text("old")
        done = self.clone.bash('ulimit -f 1; trap "" XFSZ; put "$1" "$2" 644', str(self.clone.archive), str(target))
        self.assertNotEqual(done.returncode, 0)
        self.assertEqual(target.read_text(), "old")
        self.assertEqual([path.name for path in target.parent.glob(".file*")], [])

    def test_a_signal_leaves_no_file_behind(self) -> None:
        os.mkfifo(self.clone.folder / "source")
        target = self.clone.folder / "target"
        text = f'. "{self.clone.root}/tools/library.bash"; put "{self.clone.folder}/source" "{target}" 644'
        with self.clone.start("bash", "-c", text) as process:
            # cp waits for the FIFO's other end.
            wait_for(lambda: runs_in_group(process.pid, "cp"))
            self.assertTrue(list(self.clone.folder.glob(".target.*")))
            os.killpg(process.pid, signal.SIGTERM)
            process.communicate()
        wait_for(lambda: not is_alive(process.pid) and not list(self.clone.folder.glob(".target.*")))
        self.assertFalse(target.exists())


if __name__ == "__main__":
    unittest.main()
