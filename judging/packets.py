"""IPv4 packets of captures, and what of each a translator may not change, by which it is found again at the other
side."""
import dataclasses
import ipaddress
import struct
import zlib
from collections.abc import Iterator
from typing import NamedTuple

from reading.captures import COOKED, COOKED_2, MOST_TIME, SECOND, SENT, Capture, Copies, Frame, LeftOut, packet_in

SIDES = ("inside", "outside")
ICMP, TCP, UDP = 1, 6, 17
PROTOCOLS = {ICMP: "icmp", TCP: "tcp", UDP: "udp"}
# what a packet is: a query also is its reply, and a piece a fragment
OF_UDP, OF_TCP, QUERY, ERROR, OTHER, PIECE = "udp", "tcp", "query", "error", "other", "piece"
FIN, SYN, RST, ACK = 1, 2, 4, 16
FLAGS = ((SYN, "S"), (ACK, "A"), (FIN, "F"), (RST, "R"))
# types of ICMP messages (RFC 792, 4884)
QUERIES, REPLIES, ERRORS = (8, 13, 17), (0, 14, 18), (3, 11, 12)
# headers, as the words of 32 bits whose sum is looked at; and what else of them is read
HEADER, UDP_HEADER, TCP_HEADER = struct.Struct("!5I"), struct.Struct("!2I"), struct.Struct("!5I")
ICMP_HEADER = struct.Struct("!BBxxHH")
QUOTED_HEADER, QUOTED_PORTS = struct.Struct("!xxHHxxxBxxII"), struct.Struct("!HHxxH")
DONT_FRAGMENT, MORE_FRAGMENTS, FRAGMENT = 0x4000, 0x2000, 0x3FFF
# pieces of a datagram come within so long (RFC 1122, section 3.3.2), and copies of a packet at two places of a machine
MOST_APART, COPY_WITHIN = 30 * SECOND, SECOND // 1000
MOST_GROUPS, MOST_COPIES, MOST_ADDRESSES = 10_000, 1000, 1_000_000
# packets that are handed on together, and bytes of which zlib adds up more at once than can be converted
BATCH, LONG, EXACT = 128, 512, 256

Endpoint = tuple[int, int]


def number_of(address: str) -> int:
    return int(ipaddress.IPv4Address(address))


def dotted(address: int) -> str:
    return f"{address >> 24}.{address >> 16 & 255}.{address >> 8 & 255}.{address & 255}"


def endpoint_text(endpoint: Endpoint) -> str:
    return f"{dotted(endpoint[0])}:{endpoint[1]}"


def named(side: str, file: int, number: int) -> str:
    """Returns the name of a packet: its side and number, behind the number of its file where its side has several."""
    return f"{side[0]}{file}.{number}" if file else f"{side[0]}{number}"


def ends_text(protocol: int, source: Endpoint, destination: Endpoint, flags: int = 0) -> str:
    letters = "".join(letter for bit, letter in FLAGS if flags & bit)
    return f"{PROTOCOLS[protocol]} {endpoint_text(source)} > {endpoint_text(destination)} {letters}".rstrip()


def is_right(data: bytes, more: int = 0) -> bool:
    """Whether the one's complement sum of the 16-bit words, and of what else is summed, is that of a right checksum
    (RFC 1071)."""
    if len(data) > LONG:
        return (sum_of_bytes(data[::2]) * 256 + sum_of_bytes(data[1::2]) + more) % 0xFFFF == 0
    number = int.from_bytes(data, "big")
    return ((number << 8 if len(data) & 1 else number) + more) % 0xFFFF == 0


def sum_of_bytes(data: bytes) -> int:
    """Returns the sum of bytes. A half of adler32 is one more than the sum of up to 256 of them, and is made in less
    time than a number of so many bytes."""
    return sum((zlib.adler32(data[at : at + EXACT]) & 0xFFFF) - 1 for at in range(0, len(data), EXACT))


class Prefixes(dict):
    """Whether addresses are of inside hosts, by the prefixes of these; each is looked up once."""

    def __init__(self, networks):
        super().__init__()
        self.networks = list(networks)

    def __missing__(self, address: int) -> bool:
        if len(self) > MOST_ADDRESSES:
            self.clear()
        self[address] = any(address & int(it.netmask) == int(it.network_address) for it in self.networks)
        return self[address]

    def __contains__(self, address) -> bool:
        return self[address]


class Quoted(NamedTuple):
    """The datagram that an ICMP error quotes; of a checksum that is not all there `sum_ok` is None."""

    source: Endpoint
    destination: Endpoint
    protocol: int
    identification: int
    header_ok: bool
    sum_ok: bool | None


class Packet:
    """A packet. Ends are pairs of address and port; of a query both have its identifier. `sum_ok` is None where there
    is no checksum that can be looked at, `is_sent` where the frame does not tell whether the captured machine sent it.
    `content` is what no translator changes, the ends apart; `order` is the latest time in its capture up to it."""

    __slots__ = (
        "side", "file", "number", "time", "order", "kind", "protocol", "source", "destination", "identification", "ttl",
        "length", "may_fragment", "header_ok", "sum_ok", "is_offloaded", "is_cut", "is_sent", "flags", "sequence",
        "acknowledged", "payload", "content", "pieces", "__dict__",
    )
    # what few packets have
    type = code = 0
    is_in_order, quoted, data = True, None, None

    @property
    def is_syn(self) -> bool:
        """Whether it opens a connection."""
        return self.kind == OF_TCP and self.flags & (SYN | ACK) == SYN

    @property
    def is_clean(self) -> bool:
        """Whether no translator has a reason to drop it."""
        return self.header_ok and self.sum_ok is not False and self.ttl > 1

    @property
    def place(self):
        """Its side, file and number."""
        return self.side, self.file, self.number

    @property
    def name(self) -> str:
        return named(*self.place)

    def text(self) -> str:
        """Returns the packet as a line shows it."""
        if self.kind in (OF_UDP, OF_TCP):
            return ends_text(self.protocol, self.source, self.destination, self.flags)
        protocol = PROTOCOLS.get(self.protocol, self.protocol)
        ends = f"{protocol} {dotted(self.source[0])} > {dotted(self.destination[0])}"
        if self.kind == QUERY:
            return f"{ends} type {self.type} id {self.source[1]}"
        if self.kind == ERROR:
            about = f"{endpoint_text(self.quoted.source)} > {endpoint_text(self.quoted.destination)}"
            return f"{ends} type {self.type}/{self.code} about {about}"
        return ends

    def key(self, is_out: bool) -> tuple:
        """Returns the content with the end of the remote, which is the destination of what goes out."""
        far = self.destination if is_out else self.source
        if self.kind is QUERY:
            return self.content, far[0]
        if self.kind is ERROR:
            end = self.quoted.source if is_out else self.quoted.destination
            return self.content, far[0], end[0] if self.quoted.protocol == ICMP else end
        return self.content, far


def packet_of(
    data: bytes, side: str, time: int, depth: int | None = None, file: int = 0, number: int = 0,
) -> Packet | None:
    """Returns the packet of an IPv4 datagram, or None where it is none. Payloads are compared up to a depth, in bytes,
    of the datagram."""
    first, second, third, source, destination = HEADER.unpack_from(data)
    header, total, size = (first >> 24 & 15) * 4, first & 0xFFFF, len(data)
    if header < 20 or size < header or first >> 28 != 4:
        return None
    packet = Packet()
    packet.side, packet.file, packet.number, packet.time = side, file, number, time
    packet.is_sent, packet.pieces = None, ()
    packet.identification, packet.ttl, packet.protocol = second >> 16, third >> 24, third >> 16 & 0xFF
    packet.may_fragment = not second & DONT_FRAGMENT
    # a length of 0 is left to the network card
    packet.length = total = total if total >= header else size
    if header == 20:
        packet.header_ok = (first + second + third + source + destination) % 0xFFFF == 0
    else:
        packet.header_ok = is_right(data[:header])
        data, total, depth = data[:20] + data[header:], total + 20 - header, depth and depth + 20 - header
    if not second & FRAGMENT:
        fill(packet, source, destination, data if size <= total else data[:total], total, depth)
    else:
        packet.kind, packet.data = PIECE, data[20:total]
        packet.source, packet.destination = (source, 0), (destination, 0)
        packet.offset = (second & 0x1FFF) * 8, bool(second & MORE_FRAGMENTS)
    return packet


def fill(packet: Packet, source: int, destination: int, data: bytes, total: int, depth: int | None = None):
    """Fills in the transport header, which is behind 20 bytes, and what follows. The data is shorter than its total
    where it was cut."""
    protocol, size, begin, kind, content = packet.protocol, len(data), 20, OTHER, None
    packet.is_cut, is_summed, sum_ok, is_offloaded = size < total, False, None, False
    ports = sequence = first = second = flags = 0
    if protocol == TCP and size >= 40:
        ports, sequence, second, fifth, checksum = TCP_HEADER.unpack_from(data, 20)
        kind, begin, first, is_summed = OF_TCP, 20 + (fifth >> 28) * 4, fifth >> 16 & 63, size == total
        flags, words, rest, checksum = first, ports + sequence + second + fifth + checksum, 40, checksum >> 16
    elif protocol == UDP and size >= 28:
        ports, words = UDP_HEADER.unpack_from(data, 20)
        kind, begin, rest, told, checksum, words = OF_UDP, 28, 28, words >> 16, words & 0xFFFF, ports + words
        if 8 <= told <= total - 20:
            total, data = 20 + told, data[: 20 + told]
            is_summed = checksum and len(data) == total
    elif protocol == ICMP and size >= 28:
        first, second, identifier, number = ICMP_HEADER.unpack_from(data, 20)
        packet.type, packet.code, begin = first, second, 28
        sum_ok = None if size < total else is_right(data[20:])
        if first in ERRORS and (quoted := quoted_in(data[28:])):
            kind, packet.quoted, content = ERROR, quoted, (ERROR, quoted.protocol, quoted.identification)
        elif first in QUERIES or first in REPLIES:
            kind, sequence, ports = QUERY, number, identifier << 16 | identifier
    if is_summed:
        pseudo = source + destination + protocol + total - 20
        sum_ok = is_right(data[rest:], words + pseudo) if total > rest else (words + pseudo) % 0xFFFF == 0
        if not sum_ok and (checksum - pseudo) % 0xFFFF == 0:
            # it is the sum of the pseudo header alone, and yet to be made by the card: nothing is known of it
            sum_ok, is_offloaded = None, True
    packet.kind, packet.sum_ok, packet.is_offloaded, packet.flags = kind, sum_ok, is_offloaded, flags
    packet.source, packet.destination = (source, ports >> 16), (destination, ports & 0xFFFF)
    packet.sequence, packet.acknowledged, packet.payload = sequence, second, total - begin
    packet.content = content or (
        protocol, first, second, sequence, total - begin, total > begin and zlib.crc32(data[begin:depth]))


def quoted_in(data: bytes) -> Quoted | None:
    """Returns the datagram that an error quotes, or None where its ports are not there."""
    header = (data[0] & 15) * 4 if data else 0
    if len(data) < 28 or data[0] >> 4 != 4 or header < 20 or len(data) < header + 8:
        return None
    total, identification, protocol, source, destination = QUOTED_HEADER.unpack_from(data)
    near, far, checksum = QUOTED_PORTS.unpack_from(data, header)
    body, sum_ok, is_whole = data[header:total], None, len(data) >= total >= header + 8
    if protocol == ICMP:
        near = far = int.from_bytes(data[header + 4 : header + 6], "big")
        sum_ok = is_right(body) if is_whole else None
    elif is_whole and (protocol == TCP and len(body) >= 20 or protocol == UDP and checksum):
        sum_ok = is_right(body, source + destination + protocol + total - header)
    return Quoted((source, near), (destination, far), protocol, identification, is_right(data[:header]), sum_ok)


@dataclasses.dataclass
class Plan:
    """What is known before captures are paired: the pool, how far the outside clock is ahead, in nanoseconds, how deep
    payloads are compared (None: whole), which sides have each packet twice, whether the gateway ends connections
    itself and makes its own, and whether one file is of both sides, so that a leak cannot be told."""

    pool: set
    ahead: int = 0
    depth: int | None = None
    doubles: tuple = ()
    ends_connections: bool = False
    is_one_file: bool = False


class Side:
    """The captures of one side, of which one interface may be read alone. It counts what it reads."""

    def __init__(self, name: str, files: list, interface: str | None, plan: Plan, keeps_data: bool = False):
        self.name, self.files, self.interface, self.plan, self.keeps_data = name, files, interface, plan, keeps_data
        self.read, self.doubles, self.least_cut = 0, 0, None
        self.copies, self.seen, self.groups = Copies(), {}, {}

    def streams(self) -> list[Iterator[list[Packet]]]:
        """Opens the captures, and returns the packets of each in batches, pieces of a datagram put together."""
        captures = [Capture(it) for it in self.files]
        return [self.packets_of(it, at if len(captures) > 1 else 0) for at, it in enumerate(captures, 1)]

    def is_copy(self, frame: Frame, data: bytes) -> bool:
        """Whether the same packet was there just before: at another interface, or, where each is there twice, in the
        same way."""
        if frame[3].link == COOKED_2:
            return self.copies.has(frame, data)
        time, last = frame[0], self.seen.pop(data, None)
        if len(self.seen) > MOST_COPIES:
            del self.seen[next(iter(self.seen))]
        if last is not None and time - last <= COPY_WITHIN:
            self.doubles += 1
            return True
        self.seen[data] = time
        return False

    def packets_of(self, capture: Capture, file: int) -> Iterator[list[Packet]]:
        """Yields the packets of a capture in batches, those of one order in one batch."""
        name, depth, only, keeps_data = self.name, self.plan.depth, self.interface, self.keeps_data
        is_double, ahead = name in self.plan.doubles, self.plan.ahead if name == "outside" else 0
        batch, latest = [], -MOST_TIME
        for number, frame in enumerate(capture.frames(), 1):
            time, data, original, interface = frame
            link = interface.link
            if only and interface.name != only:
                continue
            try:
                data, original = packet_in(link, data, original)
            except LeftOut:
                continue
            if (is_double or link == COOKED_2) and self.is_copy(frame, data):
                continue
            if original > len(data):
                self.least_cut = min(self.least_cut or len(data), len(data))
            packet = packet_of(data, name, time - ahead, depth, file, number)
            if packet is None:
                continue
            if link == COOKED or link == COOKED_2:
                packet.is_sent = frame[1][1 if link == COOKED else 10] == SENT
            if packet.kind is PIECE:
                if (packet := self.put_together(packet)) is None:
                    continue
            elif keeps_data:
                packet.data = data
            if packet.time > latest:
                latest = packet.time
                if len(batch) >= BATCH:
                    self.read += len(batch)
                    yield batch
                    batch = []
            packet.order = latest
            batch.append(packet)
        self.read += len(batch)
        yield batch

    def put_together(self, piece: Packet) -> Packet | None:
        """Returns the datagram of a piece at the time of its last one, once all are there (RFC 791, section 3.2), or
        None."""
        key = (piece.source, piece.destination, piece.protocol, piece.identification)
        group = self.groups.setdefault(key, [])
        if group and piece.time - group[0].time > MOST_APART:
            group.clear()
        group.append(piece)
        if len(self.groups) > MOST_GROUPS:
            del self.groups[next(iter(self.groups))]
        in_place, data = sorted(group, key=lambda it: it.offset[0]), b""
        for it in in_place:
            if it.offset[0] != len(data):
                return None
            data += it.data
        if in_place[-1].offset[1]:
            return None
        self.groups.pop(key, None)
        whole = group[0]
        whole.pieces, whole.time, whole.is_in_order = tuple(it.name for it in group), piece.time, group == in_place
        whole.kind, whole.length, whole.data = OTHER, len(data) + 20, None
        whole.header_ok = all(it.header_ok for it in group)
        fill(whole, whole.source[0], whole.destination[0], bytes(20) + data, 20 + len(data))
        return whole
