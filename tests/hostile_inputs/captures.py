"""Captures in all spellings, changed at the edges of their fields, and what a capture holds (pcap-savefile(5), docs/FORMATS.md)."""

import struct

HEADER_LENGTH = 24
MOST_CAPTURED = 262_144
# the first four bytes: (byte order, nanoseconds in a unit of the fraction)
SPELLINGS = {
    b"\xd4\xc3\xb2\xa1": ("<", 1000),
    b"\xa1\xb2\xc3\xd4": (">", 1000),
    b"\x4d\x3c\xb2\xa1": ("<", 1),
    b"\xa1\xb2\x3c\x4d": (">", 1),
}
SECOND = 1_000_000_000
OF_HEADERS = ("no-header", "bad-magic", "bad-version", "bad-link")
NANOSECONDS, MICROSECONDS = b"\x4d\x3c\xb2\xa1", b"\xd4\xc3\xb2\xa1"


def header(magic=NANOSECONDS, link=101, version=(2, 4)):
    order, _ = SPELLINGS.get(magic, ("<", 1))
    return bytearray(magic + struct.pack(order + "HHIIII", *version, 0, 0, MOST_CAPTURED, link))


def record(magic=NANOSECONDS, time=0, packet=b""):
    order, unit = SPELLINGS.get(magic, ("<", 1))
    seconds, fraction = time // SECOND, time % SECOND // unit
    return bytearray(struct.pack(order + "IIII", seconds % 2**32, fraction, len(packet), len(packet)) + bytes(packet))


def savefile(pairs, magic=NANOSECONDS, link=101):
    """A capture of (time, packet) pairs."""
    return bytes(header(magic, link) + b"".join(record(magic, time, packet) for time, packet in pairs))


def changed_record(draw, magic, data):
    """A record whose header has a field at its edge."""
    order, unit = SPELLINGS.get(magic, ("<", 1))
    most = SECOND // unit
    length = len(data) - 16
    place, edges = draw.choice(
        (
            (0, (0, 2**32 - 1)),
            (4, (0, most - 1, most, 2**32 - 1)),
            (8, (0, 1, max(length - 1, 0), length + 1, MOST_CAPTURED, MOST_CAPTURED + 1, 2**31, 2**32 - 1)),
            (12, (0, 1, 2**32 - 1)),
        )
    )
    struct.pack_into(order + "I", data, place, draw.choice(edges))
    return data


def changed_header(draw, magic):
    order, _ = SPELLINGS[magic]
    changed = header(magic)
    kind = draw.randrange(4)
    if kind == 0:
        changed[draw.randrange(4)] ^= 1 << draw.randrange(8)
    elif kind == 1:
        struct.pack_into(order + "HH", changed, 4, *draw.choice(((1, 4), (2, 3), (2, 5), (3, 4), (4, 2), (0x0200, 0x0400))))
    elif kind == 2:
        struct.pack_into(order + "I", changed, 20, draw.choice((0, 1, 100, 102, 227, 229, 101 << 16, 0x10000065, 0x65000000)))
    else:
        # what is ignored: zone, digits, length
        struct.pack_into(order + "III", changed, 8, 2**32 - 1, 2**32 - 1, draw.choice((0, 1, 2**32 - 1)))
    return changed


def drawn(draw, packets):
    """A capture of these (time, packet) pairs; one of three has something wrong in it."""
    magic = draw.choice(tuple(SPELLINGS))
    records = [record(magic, time, packet) for time, packet in packets]
    head = header(magic, draw.choice((101, 101, 228)))
    kind = draw.random()
    if kind < 0.08:
        head = changed_header(draw, magic)
    elif kind < 0.25 and records:
        place = draw.randrange(len(records))
        records[place] = changed_record(draw, magic, records[place])
    data = bytearray(b"".join((head, *records)))
    if kind > 0.92:
        del data[draw.randrange(len(data) + 1) :]
    elif kind > 0.89:
        data[draw.randrange(len(data))] ^= 1 << draw.randrange(8)
    elif kind > 0.87:
        data += draw.randbytes(draw.choice((1, 15, 16, 17, 40)))
    return bytes(data)


class Reading:
    """What a capture holds: its packets with their times in ns, and whether it is cut after them, or the fault that is reported for it."""

    def __init__(self, packets=(), is_cut=False, fault=None):
        self.packets = packets
        self.is_cut = is_cut
        self.fault = fault


def fault_of_header(data):
    if len(data) < HEADER_LENGTH:
        return "no-header"
    if data[:4] not in SPELLINGS:
        return "bad-magic"
    order, _ = SPELLINGS[data[:4]]
    if struct.unpack_from(order + "HH", data, 4) != (2, 4):
        return "bad-version"
    if struct.unpack_from(order + "I", data, 20)[0] not in (101, 228):
        return "bad-link"
    return None


def read(data):
    """Reads a capture as docs/FORMATS.md says, on its own."""
    fault = fault_of_header(data)
    if fault:
        return Reading(fault=fault)
    order, unit = SPELLINGS[data[:4]]
    packets = []
    at = HEADER_LENGTH
    while at < len(data):
        if len(data) - at < 16:
            return Reading(packets, is_cut=True)
        seconds, fraction, captured, _ = struct.unpack_from(order + "IIII", data, at)
        if fraction * unit >= SECOND:
            return Reading(packets, fault=f"bad-fraction {len(packets) + 1}")
        if captured > MOST_CAPTURED:
            return Reading(packets, fault=f"too-long {len(packets) + 1}")
        at += 16
        if len(data) - at < captured:
            return Reading(packets, is_cut=True)
        packets.append((seconds * SECOND + fraction * unit, data[at : at + captured]))
        at += captured
    return Reading(packets)


def is_whole(data):
    """Whether these bytes are nothing, or a capture as it is written, which ends after a record."""
    return data == b"" or savefile(read(data).packets) == data


def merged_before(inside, outside):
    """Of two readings, how many packets of each side are merged before one is needed that has a fault, and the side of that, or
    None."""
    sides = {"inside": inside, "outside": outside}
    # both headers are read first
    for side, it in sides.items():
        if it.fault in OF_HEADERS:
            return 0, 0, side
    taken = dict.fromkeys(sides, 0)
    while True:
        left = {side: it for side, it in sides.items() if taken[side] < len(it.packets)}
        for side, it in sides.items():
            if side not in left and it.fault:
                return *taken.values(), side
        if not left:
            return *taken.values(), None
        # at the same time the inside is first
        taken[min(left, key=lambda side: left[side].packets[taken[side]][0])] += 1


def warned(rules, readings, name):
    """What stream says at its end of the captures of both sides: that they seem to be swapped, by the sources of their first packets, and
    which are cut."""
    sources = [[it for it in (data[12:16] for _, data in it.packets if len(data) > 16 and data[0] >> 4 == 4) if any(it)][:16] for it in readings]
    matching = [
        [it for it in found if rules.is_inside(int.from_bytes(it, "big")) == is_inside] for found, is_inside in zip(sources, (False, True))
    ]
    here, there = (".".join(map(str, it[0])) if len(it) > len(found) // 2 else None for it, found in zip(matching, sources))
    text = ""
    if here and there:
        text = f"{name}: the captures seem to be swapped: the first packets from inside are from {here}, and those from outside from {there}\n"
    elif here and not sources[1]:
        text = f"{name}: the capture inside seems to be of the outside: its first packets are from {here}, which is no inside host\n"
    cuts = (side for side, it in zip(("inside", "outside"), readings) if it.is_cut)
    return text + "".join(f"{name}: the capture {side} is cut: its last packet is incomplete, and is ignored\n" for side in cuts)


def lost_line(name, outside, to_inside):
    """What stream says at its end of a run with a log, if many packets of a reading of the outside are not in what it wrote for the inside."""
    sent = len(outside.packets)
    lost = sent - len(read(to_inside).packets)
    why = "if the captured gateway chose other numbers, the log does not show its bindings (explain log refuses such captures)"
    return f"{name}: {lost} of {sent} packets from outside reach no inside host: {why}\n" if lost > max(1, sent // 5) else ""
