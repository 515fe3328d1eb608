"""Packets as bytes."""
import itertools
import struct

from judging.packets import ICMP, TCP, UDP

numbers = itertools.count(1)


def summed(data, more=0):
    """Returns the checksum of 16-bit words and of what else is summed (RFC 1071)."""
    return 0xFFFF - (int.from_bytes(data + b"\0" * (len(data) % 2), "big") + more) % 0xFFFF


def ip(protocol, source, destination, body, *, ttl=64, identification=None, keeps_whole=False, piece=None):
    """Returns a datagram. A piece is an offset in bytes, and whether more follow; `keeps_whole` is DF."""
    flags = 0x4000 * keeps_whole | (piece[0] // 8 | 0x2000 * piece[1] if piece else 0)
    if identification is None:
        identification = 0x1000 + next(numbers) % 50_000
    fields = 0x45, 0, 20 + len(body), identification, flags, ttl, protocol, 0, source, destination
    header = struct.pack("!BBHHHBBHII", *fields)
    return header[:10] + struct.pack("!H", summed(header)) + header[12:] + body


def checked(body, at, pseudo, off):
    """Puts a checksum into its place, so much off the right one."""
    return body[:at] + struct.pack("!H", (summed(body, pseudo) + off) & 0xFFFF or 0xFFFF) + body[at + 2 :]


def udp_body(source, destination, data, off=0):
    body = struct.pack("!HHHH", source[1], destination[1], 8 + len(data), 0) + data
    return body if off is None else checked(body, 6, source[0] + destination[0] + UDP + len(body), off)


def udp(source, destination, data, off=0, **more):
    """Returns a packet of UDP; without a checksum where it is None off."""
    return ip(UDP, source[0], destination[0], udp_body(source, destination, data, off), **more)


def tcp(source, destination, flags, sequence, acknowledged=0, data=b"", off=0):
    numbered = (sequence & 0xFFFF_FFFF, acknowledged & 0xFFFF_FFFF)
    body = struct.pack("!HHIIBBHHH", source[1], destination[1], *numbered, 0x50, flags, 65535, 0, 0) + data
    return ip(TCP, source[0], destination[0], checked(body, 16, source[0] + destination[0] + TCP + len(body), off))


def icmp(source, destination, kind, code, rest, off=0):
    return ip(ICMP, source, destination, checked(struct.pack("!BBH", kind, code, 0) + rest, 2, 0, off))


def echo(source, destination, identifier, sequence, is_reply=False):
    data = struct.pack("!HH", identifier, sequence) + b"0123456789abcdef"
    return icmp(source, destination, 0 if is_reply else 8, 0, data)


def error(source, destination, kind, code, about, off=0, rest=bytes(4)):
    return icmp(source, destination, kind, code, rest + about, off)


def with_header_sum_off(packet, off):
    """Returns a packet whose IP checksum is off."""
    checksum = struct.unpack_from("!H", packet, 10)[0]
    return packet[:10] + struct.pack("!H", (checksum + off) & 0xFFFF) + packet[12:]


def in_pieces(protocol, source, destination, body, at):
    """Returns both pieces of a datagram that is cut at an offset of its body."""
    identification = 0x1000 + next(numbers) % 50_000
    return [ip(protocol, source, destination, part, identification=identification, piece=piece)
            for part, piece in ((body[:at], (0, True)), (body[at:], (at, False)))]
