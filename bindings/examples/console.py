"""A console: it discovers the fixtures of a simulated line, asks each for its label, and renames one."""

import wurstlinen
from wurstlinen import (
    AckType, Command, CommandKind, Controller, Device, RequestClass, Response, ResponseClass, Status, Uid,
    encode_mute_ack, encode_response, read_command, write_branch_reply)

DEVICE_LABEL = 0x0082


class Fixture:
    def __init__(self, uid: Uid, label: bytes) -> None:
        self.uid, self.label, self.is_muted = uid, label, False


class SimulatedLine:
    """A line in memory: `exchange` returns its fixtures' replies."""

    def __init__(self, *fixtures: Fixture) -> None:
        self.fixtures = fixtures

    def exchange(self, frame: bytes) -> bytes:
        asked = read_command(frame)
        if asked is None:
            return b""
        if asked.lo is not None and asked.hi is not None:
            return self.branched(asked.lo, asked.hi)
        replies = [self.answer(fixture, asked) for fixture in self.fixtures]
        return b"".join(replies)

    def branched(self, lo: Uid, hi: Uid) -> bytes:
        replies = [write_branch_reply(fixture.uid) for fixture in self.fixtures
                   if not fixture.is_muted and lo <= fixture.uid <= hi]
        # Replies at the same time overlap.
        return bytes(map(lambda *same: sum(same) & 0xFF, *replies)) if replies else b""

    def answer(self, fixture: Fixture, asked: Command) -> bytes:
        if asked.kind == CommandKind.UNMUTE:
            fixture.is_muted = False
        if asked.target != fixture.uid:
            return b""
        if asked.request is None:
            fixture.is_muted = True
            return encode_mute_ack(Device(fixture.uid), asked.source, asked.tn)
        is_set = asked.request.request_class == RequestClass.SET
        if is_set:
            fixture.label = asked.request.data
        return encode_response(Response(
            fixture.uid, asked.source, asked.tn, AckType.ACK, ResponseClass.SET if is_set else ResponseClass.GET,
            asked.request.pid, b"" if is_set else fixture.label))


def main() -> None:
    line = SimulatedLine(Fixture(Uid(0x1234, 1), b"Stage left"), Fixture(Uid(0x1234, 2), b"Stage right"))
    with Controller(Uid.parse("7a70:00000100")) as controller:
        client = controller.join(16)
        client.discover()
        controller.run(line)
        discovery = client.next_discovery()
        assert discovery is not None
        devices = discovery.devices
        client.set(devices[0].uid, DEVICE_LABEL, b"Front")
        for device in devices:
            client.get(device.uid, DEVICE_LABEL)
        controller.run(line)
        renamed = client.next_completion()
        assert renamed is not None and renamed.status == Status.COMPLETED
        for device in devices:
            asked = client.next_completion()
            assert asked is not None
            print(device.uid, asked.data.decode("ascii"))
        print("wurstlinen", wurstlinen.__version__)


if __name__ == "__main__":
    main()
