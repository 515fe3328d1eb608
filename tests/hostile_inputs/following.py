"""Where replies go, which are packets as inside hosts got them, worked out in the plainest way during a run."""

from dataclasses import dataclass

from . import reading, translating
from .reading import word
from .translating import Datagram, Dropped, Translator


@dataclass
class Step:
    """What became of a packet: the time of the run, its own, its bytes, what the run got for them, its end, and what left."""

    is_outside: bool
    now: int
    time: int
    data: bytes
    got: bytes
    end: str
    left: bytes | None


class Follower(Translator):
    """A translator that packets from outside may reach as replies."""

    def external_of(self, protocol, inside):
        """The external endpoint of an inside host's endpoint; where it has none the least number from 1 on that none has."""
        address = self.rules.pair(inside[0])
        binding = self.found(protocol, address, inside=inside)
        if binding:
            return binding.external
        taken = self.taken(protocol, address)
        number = next((number for number in range(1, 65536) if number not in taken), None)
        return None if number is None else (address, number)

    def followed(self, now, data):
        """The packet for an external endpoint that a reply becomes: what reads as none stays as it is, and what is to no inside
        host goes back to its source."""
        if reading.cause(True, data):
            return data
        packet = Datagram(bytearray(data[: word(data, 2)]))
        self.purge(now)
        about = packet.inner() if packet.is_error() else packet
        inside = about.end(packet.is_error())
        end = self.external_of(about.protocol, inside) if self.rules.is_inside(inside[0]) else None
        end = end or (packet.end(True)[0], inside[1])
        if packet.is_error():
            packet.revert(True, end)
        else:
            packet.put_end(False, end)
        return bytes(packet.data)

    def step(self, now, is_outside, is_reply, time, data):
        got = self.followed(now, data) if is_reply else data
        try:
            end, left = self.take(now, is_outside, got)
        except Dropped as dropped:
            end, left = f"drop {dropped}", None
        return Step(is_outside, now, time, data, got, end, left and bytes(left))


def steps(configured, inside, outside, are_replies):
    """The steps of a run over both captures' (time, packet) pairs, of which those from outside may be replies."""
    follower, found, clock = Follower(configured), [], 0
    for is_outside, time, data in translating.merged(inside, outside):
        clock = max(clock, time)
        found.append(follower.step(clock, is_outside, are_replies and is_outside, time, data))
    return found


def delivered(found):
    """The replies that a run's packets from outside were to inside hosts. One that got to none is an empty record, which moves the
    clock and does nothing else."""
    return [(it.time, it.left if it.end == "to inside" else b"") for it in found if it.is_outside]
