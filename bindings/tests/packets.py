"""Packets, replies to branches and a line for the tests in Python, made according to E1.20."""

from wurstlinen import LineFailed, Uid


def packet(dest: Uid, source: Uid, tn: int, port: int, command_class: int, pid: int, data: bytes = b"",
           count: int = 0, sub_device: int = 0) -> bytes:
    """E1.20, packet format."""
    head = bytes([0xCC, 1, 24 + len(data)]) + dest.number.to_bytes(6, "big") + source.number.to_bytes(6, "big")
    head += bytes([tn, port, count]) + sub_device.to_bytes(2, "big") + bytes([command_class]) + pid.to_bytes(2, "big")
    head += bytes([len(data)]) + data
    return head + (sum(head) & 0xFFFF).to_bytes(2, "big")


def twice(data: bytes) -> bytes:
    return b"".join(bytes([byte | 0xAA, byte | 0x55]) for byte in data)


def branch_reply(uid: Uid, preamble: int = 7) -> bytes:
    """E1.20, discovery unique branch."""
    encoded = twice(uid.number.to_bytes(6, "big"))
    return b"\xfe" * preamble + b"\xaa" + encoded + twice((sum(encoded) & 0xFFFF).to_bytes(2, "big"))


class Fixtures:
    """A line whose devices answer by those rules."""

    def __init__(self, *uids: Uid) -> None:
        self.muted = {uid: False for uid in uids}
        self.failing = False

    def spelled(self, uid: Uid) -> bytes:
        """What a device replies to a branch."""
        return branch_reply(uid)

    def exchange(self, frame: bytes) -> bytes:
        if self.failing:
            raise LineFailed()
        target, command_class, pid = frame[3:9], frame[20], int.from_bytes(frame[21:23], "big")
        source, tn = Uid.from_number(int.from_bytes(frame[9:15], "big")), frame[15]
        if pid == 1:
            lo, hi = (int.from_bytes(frame[at:at + 6], "big") for at in (24, 30))
            replies = [self.spelled(uid) for uid, muted in self.muted.items() if not muted and lo <= uid.number <= hi]
            return replies[0] if len(replies) == 1 else b"\x55" * (20 if replies else 0)
        if pid == 3:
            self.muted = {uid: False for uid in self.muted}
        for uid in self.muted:
            if uid.number.to_bytes(6, "big") == target:
                if pid == 2:
                    self.muted[uid] = True
                    return packet(source, uid, tn, 0, 0x11, 2, b"\0\4")
                return packet(source, uid, tn, 0, command_class + 1, pid, b"four")
        return b""
