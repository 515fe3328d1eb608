"""What a run leaves, worked out in the plainest way: one list of bindings, one packet after another (RFC 3022, 4787, 5382, 5508, 6888;
docs/REQUIREMENTS.md and docs/FORMATS.md say what napt chose where they leave a choice)."""

import math
import struct
from collections import Counter

from . import captures, reading
from .packets import ACK, FIN, ICMP, RST, SYN, TCP, UDP, summed
from .reading import word

SECOND = captures.SECOND
NAMES = {ICMP: "icmp", TCP: "tcp", UDP: "udp"}
PROTOCOLS = {name: number for number, name in NAMES.items()}
CAUSES = (
    "truncated not-ipv4 bad-header bad-checksum fragment unsupported bad-inner bad-port spoofed not-ours no-binding filtered over-quota "
    "no-port"
).split()


class Dropped(Exception):
    """The cause of a packet that is dropped."""


class Flow:
    """What passes between a binding's inside endpoint and one remote, as far as TCP marks it."""

    def __init__(self, remote):
        self.remote = remote
        self.last = 0
        self.syns, self.fins, self.is_reset = set(), set(), False

    def is_closing(self):
        return self.is_reset or len(self.fins) == 2

    def use(self, now, way, flags):
        """A segment in a way ("out" or "in"); `flags` is None outside TCP."""
        self.last = now
        if flags is None:
            return
        if flags & SYN and not flags & ACK and self.is_closing():
            self.syns, self.fins, self.is_reset = set(), set(), False
        if flags & SYN:
            self.syns |= {"out", "in"} if flags & ACK else {way}
        if flags & FIN:
            self.fins.add(way)
        self.is_reset |= bool(flags & RST)

    def timer(self):
        """The name of its timer (RFC 5382, REQ-5)."""
        is_established = len(self.syns) == 2 and not self.is_closing()
        return "tcp-established" if is_established else "tcp-transitory"

    def end(self, timers):
        """The first time at which it is no longer live if no packet comes."""
        return self.last + SECOND * timers[self.timer()]


class Binding:
    def __init__(self, protocol, inside, external, is_fixed=False):
        self.protocol = protocol
        self.inside = inside
        self.external = external
        self.is_fixed = is_fixed
        self.last = 0
        self.flows = []
        # its entry in the log of its run, if that has one
        self.entry = None

    def end(self, timers):
        """The first time at which it is no longer live if no packet comes; a redirect always is."""
        if self.is_fixed:
            return math.inf
        if self.protocol != TCP:
            return self.last + SECOND * timers[NAMES[self.protocol]]
        return max((flow.end(timers) for flow in self.flows), default=0)

    def is_live(self, now, timers):
        return now < self.end(timers)

    def live_flows(self, now, timers):
        """Outside TCP flows live as long as their binding."""
        return [flow for flow in self.flows if now < flow.end(timers)] if self.protocol == TCP else [*self.flows]

    def flow_of(self, remote):
        return next((flow for flow in self.flows if flow.remote == remote), None)

    def permits(self, filtering, remote, flows):
        """Whether these flows of it, those that live, let a remote in."""
        if self.is_fixed or filtering == "independent":
            return True
        if filtering == "address":
            return any(flow.remote[0] == remote[0] for flow in flows)
        return any(flow.remote == remote for flow in flows)

    def row(self):
        (inside, number), (external, other) = self.inside, self.external
        return f"{NAMES[self.protocol]} {shown(inside)}:{number} {shown(external)}:{other}{' fixed' if self.is_fixed else ''}\n"


def shown(address):
    return ".".join(str(byte) for byte in address.to_bytes(4, "big"))


# A PACKET'S FIELDS


def address_at(data, at):
    return struct.unpack_from(">I", data, at)[0]


def put_checksum(data, at, old, new, is_udp=False):
    """The checksum after words of the sum `old` became those of the sum `new` (RFC 1624, equation 3)."""
    check = word(data, at)
    if is_udp and check == 0:
        return
    right = (check + old - new) % 65535
    struct.pack_into(">H", data, at, right or (65535 if is_udp else 0))


class Datagram:
    """The fields of a datagram at a place of a packet, outer or quoted in an ICMP error."""

    def __init__(self, data, at=0):
        self.data = data
        self.at = at
        self.start = at + 4 * (data[at] & 15)
        self.protocol = data[at + 9]

    def kind(self):
        return self.data[self.start]

    def is_error(self):
        return self.protocol == ICMP and self.kind() in reading.ERRORS

    def number_place(self, is_source):
        """Where the port of an end is, or the identifier of an echo, which only the end has that asked."""
        if self.protocol != ICMP:
            return self.start + (0 if is_source else 2)
        return self.start + 4 if not self.is_error() and is_source == (self.kind() == 8) else None

    def end(self, is_source):
        place = self.number_place(is_source)
        return address_at(self.data, self.at + (12 if is_source else 16)), 0 if place is None else word(self.data, place)

    def flags(self):
        return self.data[self.start + 13] if self.protocol == TCP else None

    def put_address(self, is_source, address):
        place = self.at + (12 if is_source else 16)
        old = summed(self.data[place : place + 4])
        struct.pack_into(">I", self.data, place, address)
        new = summed(self.data[place : place + 4])
        put_checksum(self.data, self.at + 10, old, new)
        return old, new

    def put_end(self, is_source, end):
        old, new = self.put_address(is_source, end[0])
        place = self.number_place(is_source)
        if self.protocol == ICMP:
            old = new = 0
            if place is None:
                return
        old, new = old + word(self.data, place), new + end[1]
        struct.pack_into(">H", self.data, place, end[1])
        check = self.start + {ICMP: 2, TCP: 16, UDP: 6}[self.protocol]
        if check + 2 <= len(self.data):
            put_checksum(self.data, check, old, new, self.protocol == UDP)

    def inner(self):
        return Datagram(self.data, self.start + 8)

    def revert(self, is_incoming, end):
        """Puts an end into the datagram that the error quotes, and its address into the error's header."""
        self.put_address(not is_incoming, end[0])
        old = summed(self.data[self.start + 8 :])
        self.inner().put_end(is_incoming, end)
        put_checksum(self.data, self.start + 2, old, summed(self.data[self.start + 8 :]))


# THE TRANSLATOR


class Translator:
    def __init__(self, configured):
        self.rules = configured
        # those that are live, and those that have ended and keep their numbers
        self.bindings, self.held = [], []
        for protocol, inside, external in configured.redirects:
            self.bindings.append(Binding(PROTOCOLS[protocol], inside, external, is_fixed=True))

    def purge(self, now):
        timers, ago = self.rules.timers, max(0, now - SECOND * self.rules.hold)
        kept = [(end, it) for it in self.bindings + self.held if (end := it.end(timers)) > ago]
        for _, it in kept:
            it.flows = it.live_flows(ago, timers)
        self.bindings = [it for end, it in kept if end > now]
        self.held = [it for end, it in kept if end <= now]

    def found(self, protocol, address, inside=None, number=None):
        for binding in self.bindings:
            if binding.protocol == protocol and binding.external[0] == address and (inside is None or binding.inside == inside):
                if number is None or binding.external[1] == number:
                    return binding
        return None

    def has_quota(self, address, host):
        """Whether the host has all the bindings, of any protocol, held or not, and not configured, that it may have (RFC 6888, REQ-4)."""
        known = self.bindings + self.held
        its = [binding for binding in known if (binding.external[0], binding.inside[0]) == (address, host) and not binding.is_fixed]
        return self.rules.quota is not None and len(its) >= self.rules.quota

    def taken(self, protocol, address):
        """The numbers that bindings have, held ones too."""
        return {it.external[1] for it in self.bindings + self.held if (it.protocol, it.external[0]) == (protocol, address)}

    def chosen(self, protocol, address, inside):
        """The number of a new binding of which none is held."""
        if self.has_quota(address, inside[0]):
            raise Dropped("over-quota")
        taken = self.taken(protocol, address)
        wanted = self.rules.choosing.candidates(self.rules.block_of(inside[0]), protocol, inside)
        number = next((number for number in wanted if number not in taken), None)
        if number is None:
            raise Dropped("no-port")
        return number

    def made(self, protocol, address, inside):
        """A new binding: where its endpoint has a held one with that number, and that goes (RFC 6888, REQ-8)."""
        mine = next((it for it in self.held if (it.protocol, it.external[0], it.inside) == (protocol, address, inside)), None)
        if mine:
            self.held.remove(mine)
        number = mine.external[1] if mine else self.chosen(protocol, address, inside)
        self.bindings.append(Binding(protocol, inside, (address, number)))
        return self.bindings[-1]

    def judge_sides(self, is_outside, packet):
        rules = self.rules
        source, destination = packet.end(True)[0], packet.end(False)[0]
        is_own = destination in rules.pool
        if rules.is_inside(source) != (not is_outside) or (is_outside and source in rules.pool):
            raise Dropped("spoofed")
        if rules.is_inside(destination) if not is_outside else not is_own:
            raise Dropped("not-ours")
        about = packet.inner() if packet.is_error() else packet
        if not is_outside and is_own and about.protocol == ICMP:
            raise Dropped("unsupported")

    def go_out(self, now, packet):
        if packet.is_error():
            quoted = packet.inner()
            inside = quoted.end(False)
            binding = self.found(quoted.protocol, self.rules.pair(inside[0]), inside=inside)
            if binding is None:
                raise Dropped("no-binding")
            packet.revert(False, binding.external)
            return
        inside, remote = packet.end(True), packet.end(False)
        address = self.rules.pair(inside[0])
        binding = self.found(packet.protocol, address, inside=inside) or self.made(packet.protocol, address, inside)
        if not binding.is_fixed:
            binding.last = now
            binding.flows = binding.live_flows(now, self.rules.timers)
            if binding.flow_of(remote) is None:
                binding.flows.append(Flow(remote))
            binding.flow_of(remote).use(now, "out", packet.flags())
        packet.put_end(True, binding.external)

    def come_in(self, now, packet):
        about = packet.inner() if packet.is_error() else packet
        address, number = about.end(True) if packet.is_error() else packet.end(False)
        binding = self.found(about.protocol, address, number=number)
        if binding is None:
            raise Dropped("no-binding")
        if packet.is_error():
            packet.revert(True, binding.inside)
            return
        remote, flows = packet.end(True), binding.live_flows(now, self.rules.timers)
        if not binding.permits(self.rules.filter, remote, flows):
            raise Dropped("filtered")
        binding.flows = flows
        flow = binding.flow_of(remote)
        if packet.protocol == TCP and flow:
            flow.use(now, "in", packet.flags())
        if packet.protocol == UDP and self.rules.refresh == "both" and not binding.is_fixed:
            binding.last = now
        packet.put_end(False, binding.inside)

    def take(self, now, is_outside, data):
        """Where a packet goes, as which bytes."""
        cause = reading.cause(is_outside, data)
        if cause:
            raise Dropped(cause)
        packet = Datagram(bytearray(data[: word(data, 2)]))
        self.judge_sides(is_outside, packet)
        self.purge(now)
        if not is_outside:
            self.go_out(now, packet)
            if packet.end(False)[0] not in self.rules.pool:
                return "to outside", packet.data
        self.come_in(now, packet)
        return "to inside", packet.data

    def rows(self, now):
        self.purge(now)
        place = self.rules.pool.index
        ordered = sorted(self.bindings, key=lambda binding: (place(binding.external[0]), binding.protocol, binding.external[1]))
        return [binding.row() for binding in ordered]


def merged(inside, outside):
    """Both sides' packets, each side's in its order, by the greatest time of each so far; the inside goes first at a tie."""
    pairs = []
    for is_outside, packets in ((False, inside), (True, outside)):
        clock = 0
        for place, (time, data) in enumerate(packets):
            clock = max(clock, time)
            pairs.append((clock, is_outside, place, time, data))
    pairs.sort(key=lambda pair: pair[:3])
    return [(is_outside, time, data) for _, is_outside, _, time, data in pairs]


def run(configured, inside, outside):
    """What the run over two captures leaves: the captures to outside and to inside, and the report."""
    return ran(Translator(configured), 0, inside, outside)[:3]


def ran(translator, clock, inside, outside):
    """The same of a translator from a time on, and the time at the end."""
    counts = Counter()
    magic = b"\x4d\x3c\xb2\xa1"
    written = {"to outside": captures.header(magic), "to inside": captures.header(magic)}
    for is_outside, time, data in merged(inside.packets, outside.packets):
        clock = max(clock, time)
        counts["packets"] += 1
        try:
            end, bytes_left = translator.take(clock, is_outside, data)
            written[end] += captures.record(magic, time, bytes_left)
        except Dropped as dropped:
            end = f"drop {dropped}"
        counts[end] += 1
    lines = [f"{name} {counts[name]}\n" for name in ["packets", "to outside", "to inside"] + [f"drop {cause}" for cause in CAUSES]]
    lines += [f"cut {side}\n" for side, read in (("inside", inside), ("outside", outside)) if read.is_cut]
    report = "".join(lines + translator.rows(clock)).encode()
    return bytes(written["to outside"]), bytes(written["to inside"]), report, clock
