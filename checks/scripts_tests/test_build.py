"""Builds: proofs that outlast a call that is killed, and the lock that a build holds."""
from __future__ import annotations

import fcntl
import os
import signal
import stat
import subprocess
import tempfile
import unittest
from pathlib import Path
from typing import List

from clone import Clone, is_alive, new_clone, wait_for

CRATES = ("rdm_arguments", "rdm_wire")
# A build to which SIGTERM comes once rt has begun, and before all crates are submitted.
EARLY = """
import os, runpy, signal, sys, time
from concurrent.futures import ThreadPoolExecutor

class Pool(ThreadPoolExecutor):
    def submit(self, call, crate):
        submitted = super().submit(call, crate)
        while not os.path.exists({note!r}):
            time.sleep(0.01)
        os.kill(os.getpid(), signal.SIGTERM)
        return submitted

sys.argv = ["build_program", "4", "40000000"]
names = runpy.run_path({builds!r})
names["Build"].run.__globals__["ThreadPoolExecutor"] = Pool
sys.exit(names["main"]())
"""


class Builds(unittest.TestCase):
    def setUp(self) -> None:
        context = new_clone()
        self.clone: Clone = context.__enter__()
        self.addCleanup(context.__exit__, None, None, None)
        self.note, self.slow = self.clone.folder / "note", self.clone.folder / "slow"
        self.clone.put_rt(f'echo "$$" >> "{self.note}"; while [ -e "{self.slow}" ]; do sleep 0.05; done')
        self.temporary = self.clone.folder / "tmp"
        self.temporary.mkdir()
        self.environment = {**self.clone.environment, "TMPDIR": str(self.temporary)}

    def numbers(self) -> List[int]:
        """The processes that were rt."""
        return [int(line) for line in self.note.read_text().split()] if self.note.exists() else []

    def start(self) -> "subprocess.Popen[str]":
        """Starts a build of both libraries side by side, one of which is in a copy, and waits until both are begun."""
        self.slow.touch()
        before = len(self.numbers())
        script = self.clone.start("tools/build_program", "4", "40000000", env=self.environment)
        self.addCleanup(self.end, script)
        wait_for(lambda: len(self.numbers()) >= before + len(CRATES))
        return script

    def end(self, script: "subprocess.Popen[str]") -> None:
        """Lets a build end, and rt too if the build was killed."""
        self.slow.unlink(missing_ok=True)
        script.communicate()

    def kept(self) -> List[str]:
        """The crates whose proofs are where they belong."""
        return [crate for crate in CRATES if (self.clone.root / "crates" / crate / "out/proof").exists()]

    def test_a_build_that_is_killed_loses_no_proof(self) -> None:
        for crate in CRATES:
            (self.clone.root / "crates" / crate / "out/rlib").mkdir(parents=True)
            (self.clone.root / "crates" / crate / "out/proof").write_text(crate)
        script = self.start()
        # One is proved in a copy: nothing of it is among the temporary files.
        self.assertEqual(len(self.kept()), 1)
        self.assertEqual(list(self.temporary.iterdir()), [])
        script.kill()
        script.wait()
        for process in self.numbers():
            os.kill(process, signal.SIGKILL)
        self.slow.unlink()
        done = self.clone.run("tools/build_program", "4", "40000000", env=self.environment)
        self.assertEqual((done.returncode, done.stderr), (0, ""))
        self.assertEqual(self.kept(), list(CRATES))
        self.assertEqual(list((self.clone.root / "out/copies").iterdir()), [])

    def test_what_was_moved_is_put_back_without_a_build(self) -> None:
        (self.clone.root / "out/copies/rdm_wire/crates/rdm_wire/out").mkdir(parents=True)
        (self.clone.root / "out/copies/rdm_wire/crates/rdm_wire/out/proof").write_text("")
        self.assertEqual(self.clone.run("tools/build_program", "--put-back").returncode, 0)
        self.assertEqual(self.kept(), ["rdm_wire"])
        self.assertEqual(list((self.clone.root / "out/copies").iterdir()), [])
        self.assertEqual(self.clone.rt_calls(), [])

    def test_a_build_that_is_interrupted_puts_back_what_it_moved(self) -> None:
        for crate in CRATES:
            (self.clone.root / "crates" / crate / "out/rlib").mkdir(parents=True)
            (self.clone.root / "crates" / crate / "out/proof").write_text(crate)
        script = self.start()
        script.send_signal(signal.SIGTERM)
        self.assertEqual(script.wait(), 130)
        self.assertEqual(self.kept(), list(CRATES))
        self.assertEqual(list((self.clone.root / "out/copies").iterdir()), [])

    def test_a_build_that_is_interrupted_as_it_begins_ends(self) -> None:
        self.slow.touch()
        self.addCleanup(self.slow.unlink, missing_ok=True)
        early = self.clone.root / "tools/early.py"
        early.write_text(EARLY.format(note=str(self.note), builds=str(self.clone.root / "tools/build_program")))
        done = self.clone.run("timeout", "-k", "5", "60", "python3", str(early), env=self.environment)
        self.assertEqual(done.returncode, 130, done.stderr)
        wait_for(lambda: not any(is_alive(process) for process in self.numbers()))

    def test_a_build_ends_with_its_script(self) -> None:
        self.slow.touch()
        self.addCleanup(self.slow.unlink, missing_ok=True)
        with self.clone.start("./wurstlinen", "decode", "00", env=self.environment) as script:
            # With little memory there is one at a time.
            wait_for(self.numbers)
            script.kill()
            # Until all of it has ended, the next call waits.
            lock = self.clone.root / "out/wurstlinen.lock"
            with open(lock, "a") as held:
                with self.assertRaises(BlockingIOError):
                    fcntl.flock(held, fcntl.LOCK_EX | fcntl.LOCK_NB)
                fcntl.flock(held, fcntl.LOCK_EX)
            wait_for(lambda: not any(is_alive(process) for process in self.numbers()))

    def test_who_can_hold_the_lock(self) -> None:
        lock = self.clone.root / "out/wurstlinen.lock"
        for folder_mode, mask, lock_mode in ((0o755, 0o022, 0o600), (0o775, 0o002, 0o660), (0o777, 0o077, 0o666)):
            (self.clone.root / "out").mkdir(exist_ok=True)
            (self.clone.root / "out").chmod(folder_mode)
            lock.unlink(missing_ok=True)
            (self.clone.root / "out/wurstlinen.built").unlink(missing_ok=True)
            old = os.umask(mask)
            done = self.clone.run("./wurstlinen", "decode", "00")
            os.umask(old)
            self.assertEqual(done.stdout, "the program: decode 00\n", done.stderr)
            self.assertEqual(stat.S_IMODE(lock.stat().st_mode), lock_mode)

    def test_a_reader_of_the_script_holds_up_no_build(self) -> None:
        with open(self.clone.root / "wurstlinen") as script:
            fcntl.flock(script, fcntl.LOCK_EX)
            done = self.clone.run("timeout", "20", "./wurstlinen", "decode", "00")
        self.assertEqual((done.returncode, done.stdout), (0, "the program: decode 00\n"), done.stderr)

    def test_two_calls_build_once(self) -> None:
        self.slow.touch()
        errors = [self.clone.folder / f"errors{number}" for number in range(2)]
        calls = []
        for path in errors:
            with path.open("w") as file:
                calls.append(self.clone.start("./wurstlinen", "decode", "00", stderr=file))
        wait_for(lambda: self.numbers() and self.waiting(errors) == 1)
        self.slow.unlink()
        self.assertEqual([call.communicate()[0] for call in calls], ["the program: decode 00\n"] * 2)
        self.assertEqual(self.waiting(errors), 1)
        self.assertEqual(sum(" run " in call for call in self.clone.rt_calls()), 1)

    def test_a_change_that_keeps_size_and_time_is_built(self) -> None:
        """What the contents sum up to is kept, once the last change is some seconds ago."""
        source = self.clone.root / "crates/rdm_wire/src/lib.rt"
        self.assertEqual(self.builds(), 1)
        wait_for(lambda: self.builds() == 1 and (self.clone.root / "out/sources").exists())
        before = source.stat()
        source.write_text(source.read_text().replace("one", "two"))
        os.utime(source, ns=(before.st_atime_ns, before.st_mtime_ns))
        self.assertEqual([self.builds(), self.builds()], [2, 2])
        source.with_name("other.rt").touch()
        self.assertEqual([self.builds(), self.builds()], [3, 3])

    def builds(self) -> int:
        """How often the program was built, after another call."""
        self.assertEqual(self.clone.run("./wurstlinen", "decode", "00").returncode, 0)
        return sum(" run " in call for call in self.clone.rt_calls())

    def waiting(self, errors: List[Path]) -> int:
        """How many calls said that they wait for another one."""
        return sum("waiting for another call" in path.read_text() for path in errors)

    def test_without_rt_nothing_is_made(self) -> None:
        (self.clone.bin / "rt").unlink()
        with tempfile.TemporaryDirectory() as name:
            target = Path(name) / "programs"
            self.assertEqual(self.clone.run("./wurstlinen", "--install", str(target)).returncode, 127)
            self.assertFalse(target.exists())
        self.assertEqual(self.clone.run("./wurstlinen", "decode", "00").returncode, 127)


if __name__ == "__main__":
    unittest.main()
