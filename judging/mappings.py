"""The mappings of a gateway and their sessions, and the least timers that the RFCs allow. Numbers are taken as the
gateway chose them. A mapping must be live while the least timer has not ended since its last packet out; only then a
packet that does not come in speaks against the gateway."""
from judging.packets import ACK, FIN, OF_UDP, RST, SYN, TCP, UDP, Endpoint
from judging.pairing import IN, Pair, Seen
from reading.captures import SECOND

# a mapping of ICMP queries has a timer of this kind, and a mapping of UDP has one of the kind OF_UDP
OF_ICMP = "icmp"
# a connection of TCP has a timer of this kind while it is established
ESTABLISHED = "established"
# a connection of TCP has a timer of this kind while it is opened or closed
TRANSITORY = "transitory"
# the timer of each kind must be at least so long (RFC 4787, REQ-5; RFC 5508, REQ-2; RFC 5382, REQ-5)
LEAST = {OF_UDP: 120 * SECOND, OF_ICMP: 60 * SECOND, ESTABLISHED: 7440 * SECOND, TRANSITORY: 240 * SECOND}
# no mapping has to live for longer than this without a packet out
LONGEST = max(LEAST.values())
# each mapping has to live for at least this time without a packet out
SHORTEST = min(LEAST.values())
# the timers of a gateway may be so much longer than they must be
MARGIN = 600 * SECOND
# a mapping that is not of TCP has no sessions
NO_SESSIONS = {}


class Session:
    """A connection through a mapping of TCP, as its flags show it (RFC 7857, section 2), and the kind of timer that
    holds for the connection."""

    __slots__ = ("opened_out", "opened_in", "closed_out", "closed_in", "reset", "last", "acknowledged", "met", "kind")

    def __init__(self):
        self.opened_out = self.opened_in = self.closed_out = self.closed_in = self.met = False
        self.reset, self.last, self.acknowledged, self.kind = None, 0, None, TRANSITORY

    @property
    def is_closing(self) -> bool:
        return self.reset is not None or self.closed_out and self.closed_in

    def take(self, pair: Pair, is_out: bool):
        """Takes the flags of a segment that went through."""
        flags = pair.arrival.flags
        if flags & SYN:
            # the SYN of the inside host may have left before the captures began
            self.opened_out |= is_out or bool(flags & ACK)
            self.opened_in |= not is_out
        if flags & FIN:
            self.closed_out |= is_out
            self.closed_in |= not is_out
        self.reset = pair if flags & RST else self.reset
        is_open = self.opened_out and self.opened_in and not self.is_closing
        self.kind = ESTABLISHED if is_open else TRANSITORY


class Mapping:
    """A mapping of an inside endpoint to an external endpoint. `remotes` has for each remote the time when a packet
    last left for it, and `tried` has the external endpoints to which the mapping sent hairpins. A mapping that is
    unsure was there before a packet left, or has packets that may be of other mappings: nothing is concluded from
    it."""

    __slots__ = (
        "protocol", "inside", "external", "first", "last_out", "last_any", "longest_gap", "last", "remotes", "tried",
        "sessions", "error", "refused", "sent", "received", "is_unsure",
    )

    def __init__(self, inside: Endpoint, external: Endpoint, pair: Pair, is_unsure: bool = False):
        self.protocol, self.inside, self.external = pair.protocol, inside, external
        self.tried, self.is_unsure, self.last = (), is_unsure, None
        self.sessions = {} if pair.protocol == TCP else NO_SESSIONS
        self.last_out = self.last_any = pair.time
        self.begin(pair)

    @property
    def last_pair(self) -> Seen:
        """Returns the last packet that went through."""
        way, remote, flags, time, *numbers = self.last
        ends = (remote, self.external, self.inside) if way is IN else (self.inside, remote, self.external)
        return Seen(way, self.protocol, *ends, flags, time, numbers)

    def use(self, pair: Pair, remote: Endpoint):
        """Notes that a packet goes through."""
        came, left, time = pair.arrival, pair.departure, pair.time
        if time - self.last_any > self.longest_gap:
            self.longest_gap = time - self.last_any
        self.last_any = time
        if self.last and self.last[1] == remote:
            # an equal endpoint that is there already takes no more memory
            remote = self.last[1]
        self.last = (pair.way, remote, came.flags, time, came.file, came.number, left.file, left.number)

    def begin(self, pair: Pair):
        """Notes that the mapping is made, or is made again after its timer has ended."""
        self.first, self.remotes, self.longest_gap = pair.time, {}, 0
        self.error, self.refused, self.sent, self.received = None, None, 0, 0
        if self.sessions:
            self.sessions = {at: it for at, it in self.sessions.items() if pair.time - it.last < LEAST[it.kind]}

    def kind_to(self, remote: Endpoint | None) -> str:
        """Returns the kind of timer that holds for a remote."""
        if self.protocol != TCP:
            return OF_UDP if self.protocol == UDP else OF_ICMP
        session = self.sessions.get(remote)
        return session.kind if session else TRANSITORY

    def age(self, time: int) -> tuple[str, int]:
        """Returns the kind of the timer that ends last, and how long it has run."""
        if self.protocol != TCP:
            return self.kind_to(None), time - self.last_out
        end, kind = time - LONGEST, TRANSITORY
        for it in self.sessions.values():
            if it.last + LEAST[it.kind] > end:
                end, kind = it.last + LEAST[it.kind], it.kind
        return kind, time - end + LEAST[kind]

    def must_live(self, time: int) -> bool:
        """Returns whether no timer that the RFCs allow can have ended the mapping."""
        if time - self.last_out < SHORTEST and (self.sessions or self.protocol != TCP):
            return True
        kind, gap = self.age(time)
        return gap < LEAST[kind]

    def is_over(self, time: int) -> bool:
        """Returns whether hardly any gateway still has the mapping."""
        quiet = time - self.last_any - MARGIN
        return quiet > SHORTEST and quiet > LEAST[self.age(time)[0]]
