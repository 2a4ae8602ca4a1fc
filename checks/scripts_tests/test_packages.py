"""Packages: what is in them, that they run where they are unpacked, and that two clones make the same bytes."""
from __future__ import annotations

import contextlib
import gzip
import hashlib
import os
import re
import shutil
import subprocess
import tarfile
import tempfile
import unittest
import zipfile
from pathlib import Path
from typing import Dict, List, Set

from clone import ROOT, Clone, compile_c, new_clone

LIBRARY = "int wurst_answer(void) { return 7; }\n"
# A compiler that finds OLA's headers, and whose libraries for OLA are the stand-in for the C library.
COMPILER = '#!/bin/sh\nwhile [ $# -gt 0 ]; do [ "$1" != -o ] || cp "{library}" "$2"; shift; done\n'
DATE = "2026-01-02T03:04:05Z"
PACKAGES = ("libwurstlinen0", "libwurstlinen-dev", "python3-wurstlinen", "wurstlinen", "wurstlinen-ola")
# The files of the Python package: modules, and what its pages are made from.
OF_PYTHON = (".py", ".js", ".css", ".html")
VERSION = (ROOT / "VERSION").read_text().strip()
DIST = "usr/lib/python3/dist-packages"


def has_tools() -> bool:
    """Whether all commands are there that make packages."""
    command = ["/usr/bin/python3", "-c", "import setuptools, wheel, pip"]
    return bool(shutil.which("dpkg-deb") and shutil.which("git") and shutil.which("strip")
                and Path(command[0]).exists() and not subprocess.run(command, check=False, stderr=-3).returncode)


def put_libraries(clone: Clone) -> None:
    """The C library's archive, as if it had been proved, and a compiler that gives a library in place of OLA's."""
    part, library = clone.folder / "part.o", clone.folder / "libwurstlinen-ola.so"
    compile_c(LIBRARY, part, ["-c", "-fPIC"])
    compile_c(LIBRARY, library, ["-shared", "-fPIC"])
    subprocess.run(["ar", "rcsD", str(clone.archive), str(part)], check=True)
    clone.put("c++", COMPILER.format(library=library))


def build(clone: Clone, name: str) -> "subprocess.CompletedProcess[str]":
    """Makes the packages of a clone that has a commit of its own, in its folder of this name."""
    put_libraries(clone)
    environment = {**clone.environment, "GIT_AUTHOR_DATE": DATE, "GIT_COMMITTER_DATE": DATE}
    (clone.root / ".gitignore").write_text("out/\n__pycache__/\n")
    user = ["-c", "user.name=a", "-c", "user.email=a@b"]
    for words in (["init", "-q"], ["add", "-A"], [*user, "commit", "-q", "-m", "All"]):
        clone.run("git", *words, env=environment)
    return clone.run("./wurstlinen", "--package", name)


def files_below(folder: Path) -> Set[str]:
    """All files and links below a folder, by their paths there."""
    return {str(each.relative_to(folder)) for each in folder.rglob("*") if each.is_symlink() or not each.is_dir()}


def python_files(folder: Path) -> Set[str]:
    """The Python package's files in a folder, which may have others too."""
    return {name for name in files_below(folder) if name.endswith(OF_PYTHON)}


@unittest.skipUnless(has_tools(), "dpkg-deb, git, strip, or the system's pip, setuptools and wheel are missing")
class Packages(unittest.TestCase):
    stack: contextlib.ExitStack
    clone: Clone
    made: Dict[str, Path]
    head: str
    version: str

    @classmethod
    def setUpClass(cls) -> None:
        cls.stack = contextlib.ExitStack()
        cls.addClassCleanup(cls.stack.close)
        cls.clone = cls.stack.enter_context(new_clone())
        done = build(cls.clone, "a b/dist")
        assert done.returncode == 0, done.stderr
        cls.made = {path.name: path for path in (cls.clone.root / "a b/dist").iterdir()}
        cls.printed = done.stdout
        cls.head = cls.clone.run("git", "rev-parse", "HEAD").stdout.strip()
        # The time is DATE.
        cls.version = f"{VERSION}+git20260102030405.{cls.head[:8]}"

    def setUp(self) -> None:
        place = tempfile.TemporaryDirectory()
        self.addCleanup(place.cleanup)
        self.folder = Path(place.name).resolve()

    def package(self, name: str) -> Path:
        """The package whose file has a name with this beginning."""
        found, = (path for each, path in self.made.items() if each.startswith(name))
        return found

    def unpacked(self, *names: str) -> Path:
        """A folder with the files of these Debian packages."""
        for name in names:
            subprocess.run(["dpkg-deb", "-x", self.package(f"{name}_"), self.folder], check=True)
        return self.folder

    def run_python(self, path: Path, *words: str) -> str:
        """What the system's Python prints, with the package in this folder."""
        environment = {"PATH": "/usr/bin:/bin", "PYTHONPATH": str(path), "PYTHONDONTWRITEBYTECODE": "1"}
        done = subprocess.run(["/usr/bin/python3", *words], env=environment, check=False, capture_output=True,
                              text=True)
        self.assertEqual(done.stderr, "")
        return done.stdout

    def test_what_is_made(self) -> None:
        command = ["dpkg", "--print-architecture"]
        architecture = subprocess.run(command, check=True, capture_output=True, text=True).stdout.strip()
        machine = os.uname().machine
        version = self.version
        wanted = {f"{name}_{version}_{architecture}.deb" for name in PACKAGES if name != "python3-wurstlinen"}
        wanted |= {f"python3-wurstlinen_{version}_all.deb", f"wurstlinen-{version}-linux-{machine}.tar.gz",
                   f"wurstlinen-{version}-py3-none-linux_{machine}.whl"}
        self.assertEqual(set(self.made), wanted)
        self.assertEqual(set(self.printed.splitlines()), {str(path) for path in self.made.values()})

    def test_two_clones_make_the_same_bytes(self) -> None:
        with new_clone() as other:
            old = os.umask(0o077)
            self.addCleanup(os.umask, old)
            done = build(other, "elsewhere")
            self.assertEqual(done.returncode, 0, done.stderr)
            for path in (other.root / "elsewhere").iterdir():
                self.assertEqual(path.read_bytes(), self.made[path.name].read_bytes(), path.name)

    def test_each_says_what_was_proved(self) -> None:
        head = self.head
        for name in PACKAGES:
            folder = self.folder / name
            subprocess.run(["dpkg-deb", "-x", self.package(f"{name}_"), folder], check=True)
            self.check_proof(folder / f"usr/share/doc/{name}/PROOF", folder, head)
            self.assertIn("mustn't be given to others", (folder / f"usr/share/doc/{name}/copyright").read_text())
        with zipfile.ZipFile(self.package(f"wurstlinen-{self.version}-py3")) as wheel:
            wheel.extractall(self.folder / "wheel")
        self.check_proof(self.folder / "wheel/wurstlinen/PROOF", self.folder / "wheel", head)
        archive = self.unpacked_archive()
        self.check_proof(archive / "PROOF", archive, head)

    def check_proof(self, proof: Path, folder: Path, head: str) -> None:
        """Whether a file says commit and kit, and has the checksums of the files."""
        text = proof.read_text()
        kits = "kit of the program: kit-of-tests logic 1\nkit of the C library: kit-of-tests logic 1\n"
        self.assertIn(f"commit: {head}\n{kits}", text)
        self.assertIn("mustn't be given to others", text)
        found = re.findall(r"^([0-9a-f]{64})  (.*)$", text, re.M)
        self.assertTrue(found)
        for checksum, path in found:
            if path != "wurstlinen/PROOF":
                self.assertEqual(hashlib.sha256((folder / path).read_bytes()).hexdigest(), checksum, path)

    def test_changes_are_said(self) -> None:
        change = self.clone.root / "bindings/python/wurstlinen/more.py"
        self.addCleanup(change.unlink)
        change.write_text("")
        done = self.clone.run("./wurstlinen", "--package", str(self.folder))
        self.assertEqual(done.returncode, 0, done.stderr)
        found, = self.folder.glob("*.tar.gz")
        with tarfile.open(found) as archive:
            proof = archive.extractfile(f"{found.name[:-len('.tar.gz')]}/PROOF")
            assert proof is not None
            self.assertIn(f"commit: {self.head}, with changes\n", proof.read().decode())
        self.assertEqual({path.name.count(f"{self.version}.changed") for path in self.folder.iterdir()}, {1})

    def test_without_git_the_commit_is_unknown(self) -> None:
        done = self.clone.run("./wurstlinen", "--package", str(self.folder), env=self.clone.environment_without("git"))
        self.assertEqual(done.returncode, 0, done.stderr)
        with tarfile.open(self.folder / f"wurstlinen-{VERSION}-linux-{os.uname().machine}.tar.gz") as archive:
            proof = archive.extractfile(f"wurstlinen-{VERSION}-linux-{os.uname().machine}/PROOF")
            assert proof is not None
            self.assertIn("commit: unknown\n", proof.read().decode())

    def unpacked_archive(self) -> Path:
        """The folder in the .tar.gz."""
        path = self.package(f"wurstlinen-{self.version}-linux")
        with tarfile.open(path) as archive:
            self.assertEqual({(each.uid, each.gid, each.uname) for each in archive}, {(0, 0, "")})
            archive.extractall(self.folder)
        return self.folder / path.name[:-len(".tar.gz")]

    def test_commands_run_where_they_are_unpacked(self) -> None:
        root = self.unpacked(*PACKAGES)
        self.check_commands(root / "usr", root / DIST)
        archive = self.unpacked_archive()
        self.check_commands(archive, Path("/nowhere"))

    def check_commands(self, prefix: Path, path: Path) -> None:
        """Whether the program and the front run below a prefix."""
        program = subprocess.run([prefix / "bin/rdm_port", "help"], check=True, capture_output=True, text=True)
        self.assertEqual(program.stdout, "the program: help\n")
        front = str(prefix / "bin/wurstlinen")
        self.assertTrue(os.access(front, os.X_OK))
        self.assertEqual(self.run_python(path, front, "decode", "00"), "the program: decode 00\n")
        wanted = rf"wurstlinen {re.escape(VERSION)} \(proved with kit-of-tests, commit [0-9a-f]{{8}}\)\n"
        self.assertRegex(self.run_python(path, front, "--version"), wanted)
        self.assertIn("device_label", self.run_python(path, front, "pids", "label"))

    def test_there_is_a_rig_to_try_the_commands_on(self) -> None:
        for name in ("five_fixtures.json", "lossy_fixtures.json", "share.c", "silent_fixture.json"):
            wanted = (ROOT / "bindings/examples" / name).read_bytes()
            for share in (self.unpacked("wurstlinen") / "usr/share", self.unpacked_archive() / "share"):
                self.assertEqual((share / "doc/wurstlinen/examples" / name).read_bytes(), wanted)

    def test_systemd_can_start_a_server(self) -> None:
        units = self.unpacked("wurstlinen") / "usr/lib/systemd/user"
        socket, service = (units / f"wurstlinen@.{kind}" for kind in ("socket", "service"))
        # The program looks for a socket of this name.
        self.assertIn("ListenStream=%t/wurstlinen/%i.socket\n", socket.read_text())
        command, = re.findall("^ExecStart=/usr/bin/(.*)$", service.read_text(), re.M)
        self.assertEqual(command, "wurstlinen serve --line enttec:/%I --idle 600")

    def test_pages_are_there(self) -> None:
        for share in (self.unpacked("wurstlinen") / "usr/share", self.unpacked_archive() / "share"):
            folder = share / "doc/wurstlinen"
            for name in ("ADAPTER.md", "COMMANDS.md", "LINES.md", "SERVER.md", "FORMATS.md"):
                links = re.findall(r"\]\(([^)#]+)(?:#[^)]*)?\)", (folder / name).read_text())
                self.assertEqual([link for link in links if not (folder / link).is_file()], [], name)
        self.assertIn("of the C library.", (folder / "COMMANDS.md").read_text())
        self.assertIn("[a log](FORMATS.md#the-log-as-text)", (folder / "COMMANDS.md").read_text())

    def field(self, package: str, name: str) -> str:
        """A field of a Debian package's control file."""
        return subprocess.run(["dpkg-deb", "-f", self.package(f"{package}_"), name], check=True, text=True,
                              capture_output=True).stdout.strip()

    def test_what_packages_need(self) -> None:
        for name in PACKAGES:
            # Each has files in usr/share that name its architecture or its checksums.
            self.assertNotEqual(self.field(name, "Multi-Arch"), "same", name)
            self.assertEqual(self.field(name, "Recommends"), "", name)
            self.assertEqual(self.field(name, "Version"), self.version, name)
        self.assertIn(f"python3-wurstlinen (= {self.version})", self.field("wurstlinen", "Depends"))
        self.assertEqual(self.field("wurstlinen-ola", "Enhances"), "ola")
        needed = self.field("wurstlinen-ola", "Depends")
        for package in ("libstdc++6", "libola1"):
            query = ["dpkg-query", "-W", "-f", "${Version}", package]
            found = subprocess.run(query, check=False, text=True, capture_output=True).stdout.partition("-")[0]
            version = re.escape(re.match(r"[0-9.]*[0-9]|", found)[0])
            self.assertRegex(needed, rf"{re.escape(package)} \(>= {version}\)" if version else re.escape(package))
        self.assertRegex(needed, r"libola1 \(<< [0-9.]+~\)$|libola1$")

    def test_a_removal_without_the_folder(self) -> None:
        subprocess.run(["dpkg-deb", "-e", self.package("python3-wurstlinen_"), self.folder / "control"], check=True)
        done = subprocess.run([self.folder / "control/prerm", "remove"], check=False, text=True, capture_output=True,
                              env={"PATH": os.environ["PATH"], "DPKG_ROOT": str(self.folder / "none")})
        self.assertEqual((done.returncode, done.stderr), (0, ""))

    def test_the_wheel_is_for_one_kind_of_machine(self) -> None:
        with zipfile.ZipFile(self.package(f"wurstlinen-{self.version}-py3")) as wheel:
            name, = (each for each in wheel.namelist() if each.endswith(".dist-info/WHEEL"))
            text = wheel.read(name).decode()
        self.assertIn("Root-Is-Purelib: false\n", text)
        self.assertIn(f"Tag: py3-none-linux_{os.uname().machine}\n", text)

    def test_no_other_library_is_packed(self) -> None:
        other = self.clone.root / "bindings/python/wurstlinen/libwurstlinen.so.0"
        self.addCleanup(other.unlink)
        other.write_text("another")
        done = self.clone.run("./wurstlinen", "--package", str(self.folder))
        self.assertEqual(done.returncode, 0, done.stderr)
        found, = self.folder.glob("python3-wurstlinen_*.deb")
        listed = subprocess.run(["dpkg-deb", "-c", found], check=True, text=True, capture_output=True).stdout
        self.assertNotIn("libwurstlinen", listed)
        for option in ("--install", "--install-library"):
            self.assertEqual(self.clone.run("./wurstlinen", option, str(self.folder / option)).returncode, 0)
        package = self.folder / "--install-library/lib/python3/site-packages/wurstlinen"
        self.assertFalse((package / "libwurstlinen.so.0").exists())
        package = self.folder / "--install/libexec/wurstlinen/python/wurstlinen"
        self.assertTrue((package / "_library.py").exists())
        self.assertFalse((package / "libwurstlinen.so.0").exists())

    def test_libraries(self) -> None:
        root = self.unpacked(*PACKAGES)
        where, = root.glob("usr/lib/*/libwurstlinen.so.0")
        found = "from wurstlinen import _library; print(_library._load()._name)"
        self.assertEqual(self.run_python(root / DIST, "-c", found), f"{where}\n")
        flags = subprocess.run(["pkg-config", "--cflags", "--libs", "wurstlinen"], check=True, text=True,
                               capture_output=True, env={"PATH": "/usr/bin:/bin", "PKG_CONFIG_SYSROOT_DIR": str(root),
                                                         "PKG_CONFIG_LIBDIR": str(where.parent / "pkgconfig"),
                                                         "PKG_CONFIG_ALLOW_SYSTEM_CFLAGS": "1",
                                                         "PKG_CONFIG_ALLOW_SYSTEM_LIBS": "1"}).stdout.split()
        self.assertEqual(flags, [f"-I{root}/usr/include", f"-L{where.parent}", "-lwurstlinen"])
        compile_c("#include <wurstlinen.h>\nint wurst_answer(void);\nint main(void) { return wurst_answer() - 7; }\n",
                  self.folder / "user", ["-x", "c", *flags, f"-Wl,-rpath,{where.parent}"])
        self.assertEqual(subprocess.run([self.folder / "user"], check=False).returncode, 0)

    def test_the_wheel_has_the_library(self) -> None:
        with zipfile.ZipFile(self.package(f"wurstlinen-{self.version}-py3")) as wheel:
            wheel.extractall(self.folder)
        found = "from wurstlinen import _library; print(_library._load()._name)"
        self.assertEqual(self.run_python(self.folder, "-c", found), f"{self.folder}/wurstlinen/libwurstlinen.so.0\n")
        self.assertIn("device_label", self.run_python(self.folder, "-m", "wurstlinen.tool", "pids", "label"))
        source = ROOT / "bindings/python/wurstlinen"
        found = {name for name in files_below(self.folder / "wurstlinen") if name.endswith(OF_PYTHON)}
        self.assertEqual(found, python_files(source))
        self.assertTrue((self.folder / "wurstlinen/py.typed").is_file())

    def test_the_wheel_has_the_program(self) -> None:
        wheel = self.package(f"wurstlinen-{self.version}-py3")
        self.call(["/usr/bin/python3", "-m", "pip", "install", "--quiet", "--no-index", "--no-deps", "--no-compile",
                   "--disable-pip-version-check", "--root-user-action=ignore", "--target", str(self.folder),
                   str(wheel)])
        self.assertEqual(self.run_python(self.folder, "-m", "wurstlinen.tool", "decode", "00"),
                         "the program: decode 00\n")
        for name, wanted in (("rdm_port", "the program: --version\n"), ("wurstlinen", f"wurstlinen {VERSION} (proved")):
            found = self.run_python(self.folder, str(self.folder / "bin" / name), "--version")
            self.assertTrue(found.startswith(wanted), found)

    def test_others_have_the_whole_python_package(self) -> None:
        source = ROOT / "bindings/python/wurstlinen"
        wanted = python_files(source) | {"py.typed"}
        for folder in (self.unpacked("python3-wurstlinen") / DIST,
                       self.unpacked_archive() / "lib/python3/site-packages"):
            self.assertLessEqual(wanted, files_below(folder / "wurstlinen"))

    def test_manual_pages_and_completion(self) -> None:
        share = self.unpacked("wurstlinen") / "usr/share"
        for name in ("wurstlinen", "rdm_port"):
            text = gzip.decompress((share / f"man/man1/{name}.1.gz").read_bytes()).decode()
            self.assertTrue(text.startswith(f".TH {name.upper()} 1 "))
        script = f'. "{share}/bash-completion/completions/wurstlinen"; COMP_WORDS=("$@"); COMP_CWORD=$(($# - 1)); ' \
                 '_wurstlinen; echo "${COMPREPLY[@]}"'
        for words, wanted in ((["wurstlinen", "fi"], "fixtures"), (["wurstlinen", "apply", "--dr"], "--dry-run"),
                              (["wurstlinen", "apply", "x", "--dr"], "--dry-run"), (["wurstlinen", "save", ""], ""),
                              (["wurstlinen", "--v"], "--version"), (["wurstlinen", "help", "fi"], "fixtures"),
                              (["wurstlinen", "get", "1234", ":", "00000001", "device_lab"], "device_label"),
                              (["wurstlinen", "get", "device_lab"], ""), (["wurstlinen", "get", "1234", ":", "d"], ""),
                              (["wurstlinen", "get", "all", "device_lab"], "device_label"),
                              (["wurstlinen", "set", "1234", ":", "00000001", "device_label", "device_l"], ""),
                              (["wurstlinen", "pids", "device_lab"], "device_label"),
                              (["wurstlinen", "fixtures", "--fr"], "--frames"),
                              (["wurstlinen", "identify", "1234", ":", "00000001", "o"], "on off"),
                              (["wurstlinen", "completion", ""], "bash")):
            done = subprocess.run(["bash", "-c", script, "bash", *words], check=True, capture_output=True, text=True)
            self.assertEqual((done.stdout, done.stderr), (f"{wanted}\n", ""))

    def test_the_service_for_ola(self) -> None:
        root = self.unpacked("wurstlinen-ola")
        library, = root.glob("usr/lib/*/wurstlinen/libwurstlinen-ola.so")
        service = (root / "usr/share/doc/wurstlinen-ola/examples/wurstlinen.conf").read_text()
        self.assertIn(f"LD_PRELOAD=/{library.relative_to(root)} /usr/bin/olad", service)
        self.assertFalse((root / "etc").exists())

    @unittest.skipUnless(shutil.which("lintian"), "lintian isn't installed")
    def test_lintian_finds_no_errors(self) -> None:
        packages = [str(self.package(f"{name}_")) for name in PACKAGES]
        # The programs and libraries here are stand-ins.
        done = subprocess.run(["lintian", "--allow-root", "--fail-on", "error", *packages], check=False, text=True,
                              capture_output=True)
        self.assertEqual(done.returncode, 0, done.stdout + done.stderr)

    @unittest.skipUnless(os.geteuid() == 0, "only root can install packages")
    def test_a_removal_leaves_nothing(self) -> None:
        state = self.folder / "var/lib/dpkg"
        (state / "info").mkdir(parents=True)
        (state / "updates").mkdir()
        for name in ("status", "available"):
            (state / name).touch()
        dpkg = ["dpkg", f"--root={self.folder}", "--force-depends", "--force-script-chrootless"]
        before = self.installed()
        self.call([*dpkg, "-i", *(str(self.package(f"{name}_")) for name in PACKAGES)])
        self.assertIn("usr/bin/wurstlinen", self.installed())
        self.call(["/usr/bin/python3", "-m", "compileall", "-q", str(self.folder / DIST)])
        self.assertTrue(any("__pycache__" in path for path in self.installed()))
        self.call([*dpkg, "-r", *PACKAGES])
        self.assertEqual(self.installed(), before)

    def installed(self) -> Set[str]:
        """All files and folders below the folder, without dpkg's own."""
        found = (str(each.relative_to(self.folder)) for each in self.folder.rglob("*"))
        return {path for path in found if not path.startswith("var")}

    def call(self, command: List[str]) -> None:
        """Runs a command that mustn't fail."""
        done = subprocess.run(command, check=False, capture_output=True, text=True)
        self.assertEqual(done.returncode, 0, done.stderr)


class Arguments(unittest.TestCase):
    def setUp(self) -> None:
        context = new_clone()
        self.clone: Clone = context.__enter__()
        self.addCleanup(context.__exit__, None, None, None)

    def test_wrong_folders_build_nothing(self) -> None:
        (self.clone.folder / "file").write_text("")
        for words, status in (([], 2), ([""], 2), (["a", "b"], 2), ([str(self.clone.folder / "file")], 125)):
            self.assertEqual(self.clone.run("./wurstlinen", "--package", *words).returncode, status)
        self.assertEqual(self.clone.rt_calls(), [])


if __name__ == "__main__":
    unittest.main()
