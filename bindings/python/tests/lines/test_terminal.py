"""The serial device of a driver, and its locks: one owner at any time, and nothing left behind."""
from __future__ import annotations

import errno
import fcntl
import gc
import multiprocessing
import os
import subprocess
import sys
from pathlib import Path
from typing import Any, List
from unittest import mock

from common import ListLine, TestCase, folder
from wurstlinen.line import LineBusy, LineFailed
from wurstlinen.lines import EnttecPro
from wurstlinen.lines.emulator import Emulator, Widget
from wurstlinen.lines.locks import holder_of
from wurstlinen.lines.terminal import Terminal

# Linux: whether TIOCEXCL is in force.
TIOCGEXCL = 0x80045440
RACERS = 8
RACES = 200


def descriptors() -> int:
    """How many files this process has open."""
    gc.collect()
    return len(os.listdir("/proc/self/fd"))


def ended_process() -> int:
    """The number of a process that has ended."""
    ended = subprocess.Popen([sys.executable, "-c", ""])
    ended.wait()
    return ended.pid


def is_exclusive(path: str) -> bool:
    """Whether a terminal is reserved for one program. Root can still open it, so the flag is read."""
    try:
        descriptor = os.open(path, os.O_RDWR | os.O_NOCTTY)
    except OSError as error:
        return error.errno == errno.EBUSY
    try:
        return any(fcntl.ioctl(descriptor, TIOCGEXCL, bytes(4)))
    finally:
        os.close(descriptor)


# Opens a terminal, and tells it apart by its argument whether others may; then it waits.
OTHER = """
import fcntl, os, sys, termios
file = os.open(sys.argv[1], os.O_RDWR | os.O_NOCTTY)
if sys.argv[2]:
    fcntl.ioctl(file, termios.TIOCEXCL)
print(flush=True)
sys.stdin.read()
"""


class Locks(TestCase):
    def test_who_has_it_without_a_lock_file_is_named(self) -> None:
        """As olad does, whose lock file has the name of a link."""
        for exclusive in ("exclusive", ""):
            with folder() as locks, Emulator(ListLine(), Widget(hangs_after=0)) as emulator, subprocess.Popen(
                    [sys.executable, "-c", OTHER, emulator.path, exclusive], stdin=subprocess.PIPE,
                    stdout=subprocess.PIPE) as other:
                other.stdout.readline()
                with self.assertRaisesRegex(LineBusy, rf"{emulator.path} is used by process {other.pid} \(\S+\)$"):
                    EnttecPro(emulator.path, locks)
                other.stdin.close()
                other.wait()
                if exclusive and os.geteuid() == 0:
                    # Nobody has it now, and root may open it.
                    emulator.widget = Widget()
                    EnttecPro(emulator.path, locks).close()

    def test_the_lock_file_is_there_while_it_is_open(self) -> None:
        with folder() as locks, Emulator(ListLine()) as emulator:
            lock = locks / f"LCK..{os.path.basename(emulator.path)}"
            with EnttecPro(emulator.path, locks) as driver:
                self.assertEqual(lock.read_text(), f"{os.getpid():10d}\n")
                with self.assertRaisesRegex(LineFailed, f"used by process {os.getpid()}"):
                    EnttecPro(emulator.path, locks)
                driver.close()
                self.assertEqual(os.listdir(locks), [])
                driver.open()
            self.assertEqual(os.listdir(locks), [])

    def test_a_link_to_the_device_has_the_same_lock(self) -> None:
        with folder() as locks, folder() as directory, Emulator(ListLine()) as emulator:
            link = directory / "usb-ENTTEC-port0"
            link.symlink_to(emulator.path)
            with EnttecPro(str(link), locks):
                self.assertEqual(os.listdir(locks), [f"LCK..{os.path.basename(emulator.path)}"])
                with self.assertRaisesRegex(LineFailed, f"used by process {os.getpid()}"):
                    EnttecPro(emulator.path, locks)
            self.assertEqual(os.listdir(locks), [])

    def test_no_other_program_may_open_it(self) -> None:
        with folder() as locks, Emulator(ListLine()) as emulator:
            self.assertFalse(is_exclusive(emulator.path))
            with EnttecPro(emulator.path, locks):
                self.assertTrue(is_exclusive(emulator.path))
            self.assertFalse(is_exclusive(emulator.path))

    def test_a_device_that_an_ended_program_has_left_so(self) -> None:
        fault = OSError(errno.EBUSY, os.strerror(errno.EBUSY))
        with folder() as locks, Emulator(ListLine()) as emulator, \
                mock.patch("wurstlinen.lines.terminal._make_raw", side_effect=fault):
            with self.assertRaisesRegex(LineBusy, "busy; if no program uses it, plug it in again, or start the rig"):
                EnttecPro(emulator.path, locks)
            self.assertEqual(os.listdir(locks), [])

    def test_a_stale_lock_is_replaced(self) -> None:
        ended = subprocess.Popen([sys.executable, "-c", ""])
        ended.wait()
        for text in (f"{ended.pid:10d}\n", str(2 ** 70)):
            with folder() as locks, Emulator(ListLine()) as emulator:
                lock = locks / f"LCK..{os.path.basename(emulator.path)}"
                lock.write_text(text)
                with EnttecPro(emulator.path, locks):
                    self.assertEqual(lock.read_text(), f"{os.getpid():10d}\n")

    def test_a_lock_that_says_nothing_is_left_alone(self) -> None:
        for text in ("", "olad\n"):
            with folder() as locks, Emulator(ListLine()) as emulator:
                lock = locks / f"LCK..{os.path.basename(emulator.path)}"
                lock.write_text(text)
                with self.assertRaisesRegex(LineFailed, "can't be understood"):
                    EnttecPro(emulator.path, locks)
                self.assertEqual(lock.read_text(), text)

    def test_no_lock_no_line(self) -> None:
        with Emulator(ListLine()) as emulator, self.assertRaisesRegex(LineFailed, "can't be made"):
            EnttecPro(emulator.path, Path("/no/such/folder"))

    def test_a_lock_of_this_process_from_before_a_crash_is_stale(self) -> None:
        with folder() as locks, Emulator(ListLine()) as emulator:
            lock = locks / f"LCK..{os.path.basename(emulator.path)}"
            lock.write_text(f"{os.getpid():10d}\n")
            with Open(emulator.path, locks):
                self.assertEqual(lock.read_text(), f"{os.getpid():10d}\n")
            self.assertEqual(os.listdir(locks), [])

    def test_what_is_no_lock_file_is_left_alone(self) -> None:
        for make in (os.mkfifo, os.mkdir, lambda path: os.symlink("/dev/zero", path),
                     lambda path: os.symlink("/none", path), lambda path: Path(path).write_text(" " * 40 + "1"),
                     lambda path: Path(path).write_text("0"), lambda path: Path(path).write_text("-1"),
                     lambda path: Path(path).write_text("1_0"), lambda path: Path(path).write_bytes(b"\xff")):
            with folder() as locks, Emulator(ListLine()) as emulator:
                lock = locks / f"LCK..{os.path.basename(emulator.path)}"
                make(lock)
                before = os.lstat(lock)
                with self.assertRaisesRegex(LineFailed, "can't be understood"):
                    Terminal(emulator.path, locks)
                self.assertEqual(holder_of(str(lock)), "")
                self.assertTrue(os.path.samestat(os.lstat(lock), before))

    def test_who_has_a_lock(self) -> None:
        with folder() as locks, Emulator(ListLine()) as emulator:
            lock = str(locks / f"LCK..{os.path.basename(emulator.path)}")
            self.assertEqual(holder_of(lock), "")
            with EnttecPro(emulator.path, locks):
                self.assertEqual(holder_of(lock), Path("/proc/self/comm").read_text().strip())

    def test_the_lock_of_another_is_not_removed(self) -> None:
        with folder() as locks, Emulator(ListLine()) as emulator:
            lock = locks / f"LCK..{os.path.basename(emulator.path)}"
            terminal = Terminal(emulator.path, locks)
            lock.unlink()
            lock.write_text("1\n")
            terminal.close()
            self.assertEqual(lock.read_text(), "1\n")

    def test_a_lock_that_is_held_is_respected_whatever_it_says(self) -> None:
        """Another container has other process numbers."""
        with folder() as locks, Emulator(ListLine()) as emulator:
            lock = locks / f"LCK..{os.path.basename(emulator.path)}"
            lock.write_text(f"{ended_process():10d}\n")
            with open(lock, "rb") as held:
                fcntl.flock(held, fcntl.LOCK_EX)
                with self.assertRaisesRegex(LineFailed, "by another program"):
                    Terminal(emulator.path, locks)
            with Open(emulator.path, locks):
                pass

    def test_without_its_lock_file_a_device_is_still_locked(self) -> None:
        with folder() as locks, Emulator(ListLine()) as emulator:
            with Open(emulator.path, locks):
                os.unlink(locks / f"LCK..{os.path.basename(emulator.path)}")
                with self.assertRaisesRegex(LineFailed, "used by another program|can't be opened"):
                    Terminal(emulator.path, locks)
                self.assertTrue(is_exclusive(emulator.path))
                self.assertEqual(os.listdir(locks), [])

    def test_a_full_disk_leaves_no_lock(self) -> None:
        full = OSError(errno.ENOSPC, os.strerror(errno.ENOSPC))
        for how in ({"side_effect": full}, {"return_value": 0}):
            with folder() as locks, Emulator(ListLine()) as emulator:
                before = descriptors()
                with mock.patch("wurstlinen.lines.locks.os.write", **how):
                    with self.assertRaisesRegex(LineFailed, "can't be made: No space left"):
                        Terminal(emulator.path, locks)
                self.assertEqual((os.listdir(locks), descriptors()), ([], before))

    def test_others_can_read_it(self) -> None:
        before = os.umask(0o077)
        try:
            with folder() as locks, Emulator(ListLine()) as emulator, Open(emulator.path, locks):
                lock = locks / f"LCK..{os.path.basename(emulator.path)}"
                self.assertEqual(lock.stat().st_mode & 0o777, 0o644)
        finally:
            os.umask(before)

    def test_a_fork_leaves_its_parents_locks_alone(self) -> None:
        with folder() as locks, Emulator(ListLine()) as emulator, Open(emulator.path, locks) as terminal:
            child = os.fork()
            if not child:
                terminal.close()
                os._exit(0)
            os.waitpid(child, 0)
            self.assertEqual(os.listdir(locks), [f"LCK..{os.path.basename(emulator.path)}"])
            self.assertTrue(is_exclusive(emulator.path))
            with self.assertRaisesRegex(LineFailed, f"used by process {os.getpid()}"):
                Terminal(emulator.path, locks)


class Writes(TestCase):
    def test_a_device_that_is_gone(self) -> None:
        with folder() as locks:
            with Emulator(ListLine()) as emulator:
                terminal = Terminal(emulator.path, locks)
                self.assertTrue(terminal.is_there)
            with self.assertRaisesRegex(LineFailed, "the device took no message"):
                terminal.write(b"x")
            self.assertFalse(terminal.is_open or terminal.is_there)
            with self.assertRaisesRegex(LineFailed, "the device was closed"):
                terminal.read_until(0.0)
            self.assertEqual(os.listdir(locks), [])

    def test_half_a_message(self) -> None:
        with folder() as locks, Emulator(ListLine()) as emulator:
            terminal = Terminal(emulator.path, locks)
            with mock.patch("wurstlinen.lines.terminal.os.write", return_value=1), \
                    self.assertRaisesRegex(LineFailed, "the device took 1 of 2 bytes of a message"):
                terminal.write(b"ab")
            self.assertEqual((terminal.is_open, os.listdir(locks)), (False, []))


class Leaks(TestCase):
    def test_a_forgotten_driver_is_closed(self) -> None:
        with folder() as locks, Emulator(ListLine()) as emulator:
            before = descriptors()
            driver = EnttecPro(emulator.path, locks)
            self.assertGreater(descriptors(), before)
            del driver
            self.assertEqual((descriptors(), os.listdir(locks)), (before, []))
            self.assertFalse(is_exclusive(emulator.path))

    def test_a_driver_that_is_left_open_is_closed_at_the_end_of_the_program(self) -> None:
        program = ("import sys; from pathlib import Path; from wurstlinen.lines import EnttecPro; "
                   "driver = EnttecPro(sys.argv[1], Path(sys.argv[2]))")
        with folder() as locks, Emulator(ListLine()) as emulator:
            subprocess.run([sys.executable, "-c", program, emulator.path, str(locks)], check=True,
                           env={**os.environ, "PYTHONPATH": os.pathsep.join(sys.path)})
            self.assertEqual(os.listdir(locks), [])

    def test_an_interrupt_at_any_step_of_opening(self) -> None:
        lines = "wurstlinen.lines"
        for step in ("locks.os.open", "locks.os.fchmod", "locks.os.write", "locks.os.link", "locks.fcntl.flock",
                     "terminal.os.open", "terminal.termios.tcsetattr", "terminal.fcntl.ioctl", "terminal.fcntl.flock",
                     "terminal.Terminal.read_until", "terminal.Terminal.write", "enttec.EnttecPro._meet"):
            with folder() as locks, Emulator(ListLine()) as emulator:
                before = descriptors()
                with mock.patch(f"{lines}.{step}", side_effect=KeyboardInterrupt), self.assertRaises(KeyboardInterrupt):
                    EnttecPro(emulator.path, locks)
                self.assertEqual((os.listdir(locks), descriptors()), ([], before), step)
                with EnttecPro(emulator.path, locks):
                    pass


class Races(TestCase):
    """Processes that open one device at once. Half of the times they find a stale lock."""

    def test_there_are_never_two_owners(self) -> None:
        context = multiprocessing.get_context("fork")
        with folder() as locks, folder() as owners, Emulator(ListLine()) as emulator:
            barrier = context.Barrier(RACERS)
            results = context.Queue()
            arguments = (emulator.path, locks, owners, ended_process(), barrier, results)
            racers = [context.Process(target=race, args=(*arguments, number == 0)) for number in range(RACERS)]
            for racer in racers:
                racer.start()
            found = [results.get() for _ in racers]
            for racer in racers:
                racer.join()
            self.assertEqual(sum(twice for _, twice, _ in found), 0)
            self.assertEqual([fault for _, _, faults in found for fault in faults], [])
            self.assertGreater(sum(owned for owned, _, _ in found), RACES // 2)
            self.assertEqual(os.listdir(locks), [])


def race(path: str, locks: Path, owners: Path, ended: int, barrier: Any, results: Any, is_first: bool) -> None:
    """Opens the device again and again, and counts how often it had it, and how often another had it too."""
    owned = twice = 0
    faults: List[str] = []
    for number in range(RACES):
        if is_first and number % 2:
            (locks / f"LCK..{os.path.basename(path)}").write_text(f"{ended:10d}\n")
        barrier.wait()
        try:
            with Open(path, locks):
                owned += 1
                try:
                    os.close(os.open(owners / "owner", os.O_CREAT | os.O_EXCL))
                except FileExistsError:
                    twice += 1
                os.sched_yield()
                (owners / "owner").unlink(missing_ok=True)
        except LineFailed as failure:
            if "used by" not in str(failure) and "being opened" not in str(failure) and "busy" not in str(failure):
                faults.append(str(failure))
        barrier.wait()
    results.put((owned, twice, faults))


class Open:
    """A terminal for the duration of a `with`."""

    def __init__(self, path: str, locks: Path) -> None:
        self._terminal = Terminal(path, locks)

    def __enter__(self) -> Terminal:
        return self._terminal

    def __exit__(self, *why: object) -> None:
        self._terminal.close()
