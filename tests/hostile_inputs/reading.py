"""What becomes of a packet when it is read: the cause of the first check of docs/FORMATS.md that fails, or None."""

import struct

from .packets import ICMP, TCP, UDP, summed

MORE_FRAGMENTS_OR_OFFSET = 0x3FFF
OFFSET = 0x1FFF
ERRORS = (3, 11, 12)


def word(data, at):
    return struct.unpack_from(">H", data, at)[0]


def cause(is_outside, packet):
    if len(packet) < 20:
        return "truncated"
    if packet[0] >> 4 != 4:
        return "not-ipv4"
    header, total = 4 * (packet[0] & 15), word(packet, 2)
    if header < 20 or total < header:
        return "bad-header"
    if len(packet) < total:
        return "truncated"
    if summed(packet[:header]) != 0xFFFF:
        return "bad-checksum"
    if word(packet, 6) & MORE_FRAGMENTS_OR_OFFSET:
        return "fragment"
    return cause_of_body(is_outside, packet[9], packet[16:20], packet[header:total])


def cause_of_body(is_outside, protocol, destination, body):
    if protocol not in (ICMP, TCP, UDP):
        return "unsupported"
    if is_short(protocol, body):
        return "bad-header"
    if protocol != ICMP:
        return "bad-port" if 0 in (word(body, 0), word(body, 2)) else None
    if body[0] not in ERRORS:
        return None if body[0] == (0 if is_outside else 8) else "unsupported"
    if summed(body) != 0xFFFF:
        return "bad-checksum"
    return cause_of_inner(is_outside, destination, body[8:])


def is_short(protocol, body):
    if protocol == UDP:
        return len(body) < 8 or not 8 <= word(body, 4) <= len(body)
    if protocol == TCP:
        return len(body) < 20 or not 20 <= 4 * (body[12] >> 4) <= len(body)
    return len(body) < 8


def cause_of_inner(is_outside, destination, inner):
    if len(inner) < 20 or inner[0] >> 4 != 4:
        return "bad-inner"
    header = 4 * (inner[0] & 15)
    if header < 20 or len(inner) < header + 8 or summed(inner[:header]) != 0xFFFF or word(inner, 6) & OFFSET:
        return "bad-inner"
    protocol = inner[9]
    if protocol not in (ICMP, TCP, UDP) or inner[12:16] != destination:
        return "bad-inner"
    if protocol == ICMP:
        return None if inner[header] == (8 if is_outside else 0) else "bad-inner"
    return "bad-port" if 0 in (word(inner, header), word(inner, header + 2)) else None
