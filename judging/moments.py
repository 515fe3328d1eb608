"""The moments in which a gateway can meet a requirement or break it. `judging.gateway` finds them, and the rules of
`judging.rules` judge them."""
import dataclasses

from judging.mappings import Mapping, Session
from judging.packets import ERROR, OF_TCP, RST, Endpoint, Packet
from judging.pairing import Pair, Seen, UnmatchedDeparture
from reading.captures import SECOND

# a SYN waits for its answer for so long (RFC 5382, REQ-4)
ANSWER_TO_SYN = 12 * SECOND
# any other packet waits for its answer for so long
ANSWER = 3 * SECOND

# CAUSES FOR WHICH A PACKET TO AN EXTERNAL ENDPOINT DID NOT COME IN

# nothing had been sent to its source before
STRANGER = "stranger"
# it was a SYN, and met a SYN from inside
SIMULTANEOUS = "simultaneous"
# it was a segment of a live connection
SEGMENT = "segment"
# a RST had gone through its connection
RESET = "reset"
# an ICMP error had come in by its mapping
AFTER_ERROR = "after an error"
# it came soon after a packet of its mapping, and no other cause explains that it was refused
SUDDEN = "sudden"
# packets out had refreshed its mapping, which was gone all the same
UNREFRESHED = "not refreshed"
# its timer had ended
TIMER = "timer"
# it went to another host
ELSEWHERE = "elsewhere"


@dataclasses.dataclass(slots=True)
class Moment:
    """What became of an arrival: a moment in which a requirement can be met or broken."""

    pair: Pair

    @property
    def protocol(self) -> int:
        return self.pair.protocol


@dataclasses.dataclass(slots=True)
class Departure(Moment):
    """A packet that left by a new mapping, or to a remote that is new to its mapping. All is as it was before the
    packet: `others` are the live mappings of the same endpoint with other numbers, and `holders` are the live mappings
    of other endpoints with this number. `rival` is a live mapping of another endpoint, for other remotes, with the
    number that this endpoint did not get. `before` is the last mapping that had the number."""

    inside: Endpoint
    external: Endpoint
    remote: Endpoint
    mapping: Mapping | None
    is_new: bool
    is_new_remote: bool
    others: list
    holders: list
    rival: Mapping | None = None
    before: Mapping | None = None


@dataclasses.dataclass(slots=True)
class Neighbours(Moment):
    """A packet that left from an external address by a new mapping, and whose host has other live mappings: `siblings`
    are of the same protocol, and `cousins` are of other protocols."""

    address: int
    siblings: tuple = ()
    cousins: tuple = ()


@dataclasses.dataclass(slots=True)
class Incoming(Moment):
    """A packet to the external endpoint of a mapping: whether the packet came in, or why it did not. `gap` is the time
    since its session had a packet, or since a packet left for its remote; `quiet` is the time since its session or its
    mapping had a packet. `is_known` says whether something was sent to its remote before."""

    mapping: Mapping
    session: Session | None = None
    kind: str = ""
    gap: int = 0
    quiet: int = 0
    is_known: bool = True
    is_let_in: bool = False
    cause: str | None = None
    holder: Seen | None = None


@dataclasses.dataclass(slots=True)
class Refreshed(Moment):
    """A packet of UDP that came in by a mapping by which several packets had left, which may have refreshed it."""

    mapping: Mapping


@dataclasses.dataclass(slots=True)
class Error(Moment):
    """An ICMP error about a mapping. `mapping` is the live mapping to which the quoted datagram belongs, if there is
    one, and `host` is the mapping to whose host the error went. `is_known` says whether anybody had the quoted
    endpoint."""

    mapping: Mapping | None
    is_known: bool
    is_bad: bool
    is_from_remote: bool
    host: Mapping | None = None
    is_right: bool = True
    is_own_source: bool = False

    @property
    def protocol(self) -> int:
        return self.pair.arrival.quoted.protocol

    def is_good(self, way: str, *needed) -> bool:
        """Returns whether the error goes this way, has nothing for which it may be dropped, and has all that is
        needed."""
        return self.pair.way is way and not self.is_bad and all(needed)

    @property
    def live(self) -> list[Mapping]:
        """Returns the mappings that have to live so that the gateway may not drop the error."""
        return [self.mapping] if self.mapping and not self.pair.departure else []


@dataclasses.dataclass(slots=True)
class Hairpin(Moment):
    """A packet from inside to the live external endpoint of an inside host. `mine` are the live mappings of its sender,
    `opens` are the kinds of filtering that let the packet in for sure, and `is_untranslated` says whether it came in
    with its inside source."""

    mapping: Mapping
    mine: list
    opens: tuple
    is_untranslated: bool


@dataclasses.dataclass(slots=True)
class Waiting(Moment):
    """A packet that waits for an answer, which is a packet of the gateway's own. `span` is how long it waits, or how
    long the captures go on after it, if that is less."""

    answer: UnmatchedDeparture | None = None
    span: int = ANSWER


@dataclasses.dataclass(slots=True)
class Unsolicited(Waiting):
    """A SYN from outside that was not let in. The answer is a RST, or an ICMP error about the SYN, that refuses it."""

    span: int = ANSWER_TO_SYN

    def is_answer(self, packet: Packet) -> bool:
        came = self.pair.arrival
        if packet.kind == OF_TCP:
            return bool(packet.flags & RST) and is_reply(packet, came)
        is_error = packet.kind == ERROR and packet.side == came.side
        return is_error and (packet.quoted.source, packet.quoted.destination) == (came.source, came.destination)


class TooLarge(Waiting):
    """A packet with DF that did not leave. The answer is a 'fragmentation needed' to its sender."""

    def is_answer(self, packet: Packet) -> bool:
        is_needed = (packet.side, packet.kind, packet.type, packet.code) == ("inside", ERROR, 3, 4)
        return is_needed and packet.destination[0] == self.pair.arrival.source[0]


class Unforwarded(Waiting):
    """A good packet from inside that did not leave. The answer is a segment of the gateway's own that refuses it."""

    def is_answer(self, packet: Packet) -> bool:
        return packet.kind == OF_TCP and is_reply(packet, self.pair.arrival)


class Fragmented(Moment):
    """A datagram that came in pieces."""


class Fragmentable(Moment):
    """A datagram without DF that left."""


def is_reply(packet: Packet, came: Packet) -> bool:
    return (packet.destination, packet.source) == (came.source, came.destination)
