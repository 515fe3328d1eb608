"""Packets of all protocols from both sides, and changes at the edges of their fields (RFC 791, 768, 9293, 792)."""

import struct

ICMP, TCP, UDP = 1, 6, 17
REMOTES = (0xC6336407, 0xC6336409, 0x08080808)  # 198.51.100.7, 198.51.100.9, 8.8.8.8
PORTS = (0, 1, 2, 53, 80, 1022, 1023, 1024, 1025, 1026, 1027, 5000, 5001, 65534, 65535)
TTL = 64
FIN, SYN, RST, ACK = 1, 2, 4, 16


def summed(data):
    """The one's complement sum of 16-bit words, an odd last byte padded with zero (RFC 1071)."""
    if len(data) % 2:
        data = bytes(data) + b"\0"
    total = sum(struct.unpack(f">{len(data) // 2}H", data))
    while total >> 16:
        total = (total & 0xFFFF) + (total >> 16)
    return total


def checksum(data):
    return ~summed(data) & 0xFFFF


def ipv4(protocol, source, destination, body, options=b"", flags=0):
    header_length = 20 + len(options)
    first, length = 0x40 + header_length // 4, min(header_length + len(body), 0xFFFF)
    header = bytearray(struct.pack(">BBHHHBBHII", first, 0, length, 1, flags, TTL, protocol, 0, source, destination) + options)
    struct.pack_into(">H", header, 10, checksum(header))
    return header + body


def transport_checksum(protocol, source, destination, body):
    """Of a UDP or TCP body whose checksum field is zero."""
    return checksum(struct.pack(">IIHH", source, destination, protocol, len(body)) + bytes(body))


def udp(source, destination, payload=b"", options=b"", with_checksum=True):
    body = bytearray(struct.pack(">HHHH", source[1], destination[1], 8 + len(payload), 0) + payload)
    if with_checksum:
        struct.pack_into(">H", body, 6, transport_checksum(UDP, source[0], destination[0], body) or 0xFFFF)
    return ipv4(UDP, source[0], destination[0], body, options)


def tcp(source, destination, flags, payload=b"", options=b"", tcp_options=b"", *, acknowledged=1, window=1024):
    offset = (20 + len(tcp_options)) // 4
    body = bytearray(struct.pack(">HHIIBBHHH", source[1], destination[1], 1, acknowledged, offset << 4, flags, window, 0, 0))
    body += tcp_options + payload
    struct.pack_into(">H", body, 16, transport_checksum(TCP, source[0], destination[0], body))
    return ipv4(TCP, source[0], destination[0], body, options)


def icmp(source, destination, kind, code, rest, options=b""):
    body = bytearray(struct.pack(">BBH", kind, code, 0) + rest)
    struct.pack_into(">H", body, 2, checksum(body))
    return ipv4(ICMP, source, destination, body, options)


def echo(source, destination, kind, identifier, payload=b"", options=b""):
    return icmp(source, destination, kind, 0, struct.pack(">HH", identifier, 1) + payload, options)


def error(source, destination, kind, code, about, options=b""):
    """An ICMP error whose offending datagram is `about`, whole or cut."""
    return icmp(source, destination, kind, code, b"\0\0\0\0" + bytes(about), options)


def header_length(packet, at=0):
    """Of the datagram at a place: as its first byte says, within the packet."""
    if len(packet) <= at:
        return 20
    return min(4 * (packet[at] & 15), len(packet) - at)


def mend(packet, at=0):
    """Makes the header's checksum right, and of a whole datagram that of its transport."""
    long = header_length(packet, at)
    if len(packet) < at + 20 or long < 20:
        return
    struct.pack_into(">H", packet, at + 10, 0)
    struct.pack_into(">H", packet, at + 10, checksum(packet[at : at + long]))
    total = struct.unpack_from(">H", packet, at + 2)[0]
    if at == 0 and long <= total <= len(packet):
        mend_transport(packet, long, total)


def mend_transport(packet, start, end):
    protocol = packet[9]
    place = {ICMP: 2, TCP: 16, UDP: 6}.get(protocol)
    if place is None or end - start < place + 2:
        return
    struct.pack_into(">H", packet, start + place, 0)
    body = packet[start:end]
    if protocol == ICMP:
        right = checksum(body)
    else:
        source, destination = struct.unpack_from(">II", packet, 12)
        right = transport_checksum(protocol, source, destination, body)
    struct.pack_into(">H", packet, start + place, right)


class Traffic:
    """Draws packets that hosts inside a translator send, and what comes to them from the outside."""

    def __init__(self, draw, configuration, hosts):
        self.draw = draw
        self.pool = configuration.pool
        self.external_of = configuration.external_of
        self.hosts = hosts
        self.sent = []  # (protocol, inside endpoint, external endpoint as it is guessed, remote endpoint)

    def payload(self):
        return self.draw.randbytes(self.draw.choice((0, 0, 1, 2, 3, 8, 31)))

    def options(self):
        return b"\x01" * self.draw.choice((0, 0, 0, 0, 4, 8, 40))

    def host(self):
        return (self.draw.choice(self.hosts), self.draw.choice(PORTS))

    def remote(self):
        return (self.draw.choice(REMOTES), self.draw.choice(PORTS))

    def of_protocol(self, protocol, source, destination, incoming=False):
        if protocol == UDP:
            return udp(source, destination, self.payload(), self.options(), self.draw.random() < 0.8)
        if protocol == TCP:
            options = b"\x01" * self.draw.choice((0, 0, 4, 40))
            return tcp(source, destination, self.draw.choice((2, 18, 16, 17, 1, 4, 20, 0, 255)), self.payload(), self.options(), options)
        number = destination[1] if incoming else source[1]
        return echo(source[0], destination[0], 0 if incoming else 8, number, self.payload(), self.options())

    def outgoing(self):
        """From a host to a remote, or to another host's external endpoint."""
        protocol = self.draw.choice((UDP, UDP, TCP, TCP, ICMP))
        host, to = self.host(), self.remote()
        if self.sent and self.draw.random() < 0.3:
            to = self.draw.choice(self.sent)[2]
        self.sent.append((protocol, host, self.external_of(protocol, host), to))
        return self.of_protocol(protocol, host, to)

    def incoming(self):
        """From a remote to an external endpoint, mostly one that a host sent from."""
        if self.sent and self.draw.random() < 0.8:
            protocol, _, external, remote = self.draw.choice(self.sent)
            if self.draw.random() < 0.2:
                remote = self.remote()
        else:
            protocol, remote = self.draw.choice((UDP, TCP, ICMP)), self.remote()
            external = (self.draw.choice(self.pool), self.draw.choice(PORTS))
        return self.of_protocol(protocol, remote, external, incoming=True)

    def error_in(self):
        """From outside, about what a host sent as it left."""
        protocol, _, external, remote = self.draw.choice(self.sent)
        about = self.quoted(self.of_protocol(protocol, external, remote))
        sender = remote[0] if self.draw.random() < 0.7 else self.draw.choice(REMOTES)
        target = external[0] if self.draw.random() < 0.9 else self.draw.choice(self.pool)
        return error(sender, target, *self.error_type(), about, self.options())

    def error_out(self):
        """From a host, about what came to it."""
        protocol, inside, _, remote = self.draw.choice(self.sent)
        about = self.quoted(self.of_protocol(protocol, remote, inside, incoming=True))
        return error(inside[0], remote[0], *self.error_type(), about, self.options())

    def error_type(self):
        return self.draw.choice(((3, 3), (3, 4), (11, 0), (12, 0), (3, 3), (5, 0), (4, 0)))

    def quoted(self, datagram):
        """An offending datagram, which is cut at will; eight bytes past its header must be there (RFC 792). It may be a fragment."""
        if self.draw.random() < 0.2:
            put(datagram, 6, 2, self.draw.choice((0x2000, 0x4000, 0x8000, 0x0001)))
            mend(datagram)
        least = header_length(datagram)
        return datagram[: least + self.draw.choice((8, 8, 17, 18, 20, len(datagram), 7, 0))]

    def packet(self):
        """(is it from outside, the packet)"""
        kind = self.draw.random()
        if self.sent and kind < 0.12:
            return True, self.error_in()
        if self.sent and kind < 0.24:
            return False, self.error_out()
        if kind < 0.5:
            return True, self.incoming()
        return False, self.outgoing()


# fields of a datagram at a place from its beginning: (place, width, edges)
HEADER_FIELDS = (
    (0, 1, (0x00, 0x05, 0x40, 0x44, 0x45, 0x46, 0x4F, 0x55, 0x65, 0xF5, 0xFF)),
    (2, 2, (0, 1, 19, 20, 21, 27, 28, 29, 39, 40, 55, 56, 65534, 65535)),
    (6, 2, (0x4000, 0x8000, 0xC000, 0x2000, 0x0001, 0x1FFF, 0x3FFF, 0xFFFF)),
    (9, 1, (0, 1, 2, 4, 6, 17, 41, 255)),
    (10, 2, (0, 0xFFFF)),
)
ADDRESS_PLACES = (12, 16)
# of the transport header from its beginning
TRANSPORT_FIELDS = {
    UDP: ((0, 2, (0, 1, 65535)), (2, 2, (0, 1, 65535)), (4, 2, (0, 7, 8, 9, 10, 11, 65535)), (6, 2, (0, 1, 0xFFFF))),
    TCP: (
        (0, 2, (0, 1, 65535)), (2, 2, (0, 1, 65535)), (12, 1, (0x00, 0x40, 0x4F, 0x50, 0x60, 0xF0, 0xFF)),
        (13, 1, (0, 1, 2, 4, 16, 17, 18, 255)), (16, 2, (0, 0xFFFF)),
    ),
    ICMP: ((0, 1, (0, 3, 4, 5, 8, 11, 12, 13, 255)), (1, 1, (0, 3, 255)), (2, 2, (0, 0xFFFF)), (4, 2, (0, 1, 65535))),
}


def put(packet, at, width, value):
    if at + width <= len(packet):
        packet[at : at + width] = value.to_bytes(width, "big")


def change(draw, packet, addresses):
    """Changes the packet at the edges of one of its fields, of its length or of its inner datagram."""
    kind = draw.random()
    if kind < 0.1:
        del packet[draw.randrange(len(packet) + 1) :]
    elif kind < 0.15:
        packet += draw.randbytes(draw.choice((1, 2, 3, 40)))
    elif kind < 0.25 and packet:
        packet[draw.randrange(len(packet))] ^= 1 << draw.randrange(8)
    else:
        change_field(draw, packet, addresses)


def change_field(draw, packet, addresses):
    start = header_length(packet)
    is_error = len(packet) > start + 28 and packet[9] == ICMP and packet[start] in (3, 11, 12)
    inner = start + 8
    at = inner if is_error and draw.random() < 0.6 else 0
    if draw.random() < 0.5:
        if draw.random() < 0.25:
            put(packet, at + draw.choice(ADDRESS_PLACES), 4, draw.choice(addresses))
        else:
            place, width, edges = draw.choice(HEADER_FIELDS)
            value = draw.choice(edges + (len(packet) - at, len(packet) - at - 1, len(packet) - at + 1))
            put(packet, at + place, width, value % (1 << 8 * width))
    elif len(packet) > at + 9:
        fields = TRANSPORT_FIELDS.get(packet[at + 9], TRANSPORT_FIELDS[UDP])
        place, width, edges = draw.choice(fields)
        put(packet, at + header_length(packet, at) + place, width, draw.choice(edges))
    if is_error and draw.random() < 0.7:
        mend(packet, inner)
    if draw.random() < 0.7:
        mend(packet)
