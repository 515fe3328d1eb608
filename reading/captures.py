"""Reads captures: pcap and pcapng, as they are or compressed, and the IPv4 packets in their frames."""
import bz2
import collections
import contextlib
import dataclasses
import datetime
import gzip
import lzma
import os
import shutil
import struct
import subprocess
import zlib

BAD_WORDS, BAD_CAPTURE, NO_IPV4, BAD_OUTPUT = 2, 3, 4, 5
SECOND = 1_000_000_000
# in nanoseconds: the times that pcap can tell are less
MOST_TIME = SECOND << 32
# a capture is of an output that gets one of so many packets of it
FEW = 10
STANDARD_INPUT = "-"
# what a frame and a block of pcapng have at most, in bytes; more is a fault of the file (napt refuses longer records)
MOST_CAPTURED, MOST_BLOCK = 262_144, 16_777_216
# how many bytes are read at once
ROOM = 1 << 16
# of a pcap (pcap-savefile(5)), by its first four bytes: the byte order, and the nanoseconds of a unit of fractions
PCAP = {
    b"\xd4\xc3\xb2\xa1": ("<", 1000),
    b"\xa1\xb2\xc3\xd4": (">", 1000),
    b"\x4d\x3c\xb2\xa1": ("<", 1),
    b"\xa1\xb2\x3c\x4d": (">", 1),
}
# pcapng: the types of its blocks, the byte orders of a section, and the options of an interface
SECTION = b"\x0a\x0d\x0d\x0a"
INTERFACE, OLD_PACKET, SIMPLE_PACKET, PACKET = 1, 2, 3, 6
ORDERS = {b"\x4d\x3c\x2b\x1a": "<", b"\x1a\x2b\x3c\x4d": ">"}
NAME, RESOLUTION, OFFSET = 2, 9, 14
COMPRESSED = {b"\x1f\x8b": gzip.open, b"BZh": bz2.open, b"\xfd7zXZ\0": lzma.open}
# what is decompressed by the program of that name
BY_PROGRAM = {b"\x28\xb5\x2f\xfd": "zstd", b"\x04\x22\x4d\x18": "lz4"}
UNREAD = (OSError, EOFError, zlib.error, lzma.LZMAError)
# link types (www.tcpdump.org/linktypes.html). Those with an ether type: the length of the header, and where the ether type stands
COOKED, COOKED_2, RAW_IP = 113, 276, 101
WITH_ETHER_TYPE = {1: (14, 12), COOKED: (16, 14), COOKED_2: (20, 0)}
RAW = (RAW_IP, 12, 14, 228, 229)
# what a capture of raw IP begins with whose times are in nanoseconds
RAW_HEADER = struct.pack("<IHHIIII", 0xA1B23C4D, 2, 4, 0, 0, MOST_CAPTURED, RAW_IP)
# what a cooked frame tells of a packet that the captured machine sent
SENT = 4
# what an IPv4 header has up to its destination (RFC 791), in bytes
LEAST_HEADER = 20
IPV4, VLAN_TAGS = 0x0800, (0x8100, 0x88A8, 0x9100)
# and what to do about frames of a dial-up line
OF_PPP = "PPP, which are not read: capture at the ppp interface itself (tcpdump -i ppp0)"
OTHERS = {0x0806: "ARP", 0x86DD: "IPv6", 0x8864: f"of ether type 0x8864, {OF_PPP}"}
OF_LINKS = dict.fromkeys((9, 50, 51), OF_PPP)
LEAST_ETHER_TYPE = 0x0600


class Fault(Exception):
    """Why nothing is written: the status, and the line."""

    def __init__(self, status, line):
        super().__init__(line)
        self.status = status


class LeftOut(Exception):
    """Why a frame is left out."""


@dataclasses.dataclass
class Interface:
    """Where frames were captured: the link type, the name where it is known, and of its times the ticks of a second, and the
    seconds that they begin at. And how many of its packets each output got."""

    link: int
    name: str | None = None
    ticks: int = 1_000_000
    offset: int = 0
    outputs: collections.Counter = dataclasses.field(default_factory=collections.Counter)


# a frame: its time in nanoseconds, its bytes, its length before it was cut, and its interface
Frame = tuple[int, bytes, int, Interface]


class Capture:
    """A capture that is read from its beginning to its end, and its interfaces, as far as it is read."""

    def __init__(self, path):
        self.path, self.name, self.is_cut, self.untimed, self.interfaces = path, shown(path), False, 0, []
        try:
            self.stream = opened(path)
            self.magic = self.stream.read(4)
        except UNREAD as error:
            raise self.unread(error) from error
        if self.magic not in PCAP and self.magic != SECTION:
            raise self.fault(f"neither pcap nor pcapng; 'editcap {path} NEW' may turn it into one (Debian: wireshark-common)")

    def fault(self, what):
        return Fault(BAD_CAPTURE, f"{self.name}: {what}")

    def damaged(self, what):
        return self.fault(f"{what}: it is damaged")

    def unread(self, error):
        return self.fault(getattr(error, "strerror", None) or "the compressed file is damaged")

    def take(self, count, is_first=False):
        """Returns so many bytes, or None where the capture ends before them. It is cut there, unless they would be the first of
        a record or block and it ends as it should."""
        try:
            data = self.stream.read(count)
        except EOFError:
            data, is_first = b"", False
        except UNREAD as error:
            raise self.unread(error) from error
        if len(data) == count:
            return data
        self.is_cut |= bool(data) or not is_first
        return None

    def frames(self):
        return self.pcapng_frames() if self.magic == SECTION else self.pcap_frames()

    def outputs(self):
        """Returns the outputs that got a tenth of the capture's packets or more: those of strangers do not count."""
        found = sum((it.outputs for it in self.interfaces), collections.Counter())
        return {output for output, count in found.items() if FEW * count >= found.total()}

    def pcap_frames(self):
        order, unit = PCAP[self.magic]
        header = self.take(20)
        if header is None:
            raise self.fault("it ends inside its header")
        # the high half tells of checksums behind frames
        interface = Interface(struct.unpack(f"{order}16xI", header)[0] & 0xFFFF)
        self.interfaces.append(interface)
        unpack, buffer, at, end = struct.Struct(f"{order}IIII").unpack_from, b"", 0, 0
        while True:
            if (begin := at + 16) <= end:
                seconds, fraction, captured, original = unpack(buffer, at)
                if (behind := begin + captured) <= end:
                    at = behind
                    yield seconds * SECOND + fraction * unit, buffer[begin:at], original, interface
                    continue
                if captured > MOST_CAPTURED:
                    raise self.damaged(f"a record of {captured} bytes")
            if not (more := self.more()):
                break
            buffer, at = buffer[at:] + more, 0
            end = len(buffer)
        # it is cut unless it ends behind a record
        self.is_cut |= at < end

    def more(self):
        """Returns what comes next of the bytes, or nothing where they end."""
        try:
            return self.stream.read1(ROOM)
        except EOFError:
            self.is_cut = True
            return b""
        except UNREAD as error:
            raise self.unread(error) from error

    def blocks(self):
        """Yields the blocks of a pcapng: the byte order, the type and the body, which is none where a section begins."""
        order, kind = "<", self.magic
        while kind and (head := self.take(8 if kind == SECTION else 4)):
            length, rest = head[:4], 12 - len(head)
            if kind == SECTION and (order := ORDERS.get(head[4:])) is None:
                raise self.damaged("a pcapng section of no byte order")
            size = struct.unpack(f"{order}I", length)[0]
            if size < rest + 8 or size % 4 or size > MOST_BLOCK:
                raise self.damaged(f"a pcapng block of {size} bytes")
            if (body := self.take(size - len(head) - 4)) is None:
                return
            if body[-4:] != length:
                raise self.damaged("a pcapng block with two lengths")
            yield order, None if kind == SECTION else struct.unpack(f"{order}I", kind)[0], body[:-4]
            kind = self.take(4, is_first=True)

    def pcapng_frames(self):
        # those of the section
        interfaces = []
        for order, kind, body in self.blocks():
            try:
                if kind is None:
                    interfaces = []
                elif kind == INTERFACE:
                    interfaces.append(described(order, body))
                    self.interfaces.append(interfaces[-1])
                elif kind == SIMPLE_PACKET:
                    self.untimed += 1
                elif kind in (PACKET, OLD_PACKET):
                    yield packet_of(order, kind, body, interfaces)
            except (struct.error, IndexError) as error:
                raise self.damaged("a pcapng block that is too short for what it says") from error


def shown(path):
    """Returns what a capture is called in lines."""
    return "standard input" if path == STANDARD_INPUT else path


class Decompressed:
    """The bytes of a file that a program decompresses while they are read."""

    def __init__(self, program, path):
        self.process = subprocess.Popen([program, "-dc", path], stdin=subprocess.DEVNULL, stdout=subprocess.PIPE, stderr=subprocess.DEVNULL)

    def read(self, count):
        data = self.process.stdout.read(count)
        return data if len(data) == count else self.ended(data)

    def read1(self, count):
        return self.process.stdout.read1(count) or self.ended(b"")

    def ended(self, data):
        if self.process.wait():
            raise EOFError(data)
        return data


def opened(path):
    """Returns the bytes of a file as a stream, decompressed where it is compressed."""
    file = open(0, "rb", closefd=False) if path == STANDARD_INPUT else open(path, "rb")
    begins = file.peek(6)
    for magic, name in BY_PROGRAM.items():
        if begins.startswith(magic):
            if path != STANDARD_INPUT and shutil.which(name):
                return Decompressed(name, path)
            raise Fault(BAD_CAPTURE, f"{shown(path)}: compressed by {name}: '{name} -d {path}' first (Debian: {name})")
    return next((opener(file) for magic, opener in COMPRESSED.items() if begins.startswith(magic)), file)


def described(order, body):
    """Returns the interface that a block of a pcapng describes; of each of its options the last value counts."""
    options, at = {}, 8
    while at + 4 <= len(body):
        code, length = struct.unpack_from(f"{order}HH", body, at)
        options[code] = body[at + 4 : at + 4 + length]
        at += 4 + length + -length % 4
    link, name, exponent = struct.unpack_from(f"{order}H", body)[0], options.get(NAME), options.get(RESOLUTION, b"\6")[0]
    name = name and name.decode(errors="replace").rstrip("\0")
    ticks = 2 ** (exponent & 0x7F) if exponent & 0x80 else 10**exponent
    return Interface(link, name, ticks, struct.unpack(f"{order}q", options.get(OFFSET, bytes(8)))[0])


def packet_of(order, kind, body, interfaces):
    """Returns the frame of a packet block; that of an older kind has a count of drops in half of its first field."""
    number, high, low, captured, original = struct.unpack_from(f"{order}{'I' if kind == PACKET else 'Hxx'}IIII", body)
    if captured > min(MOST_CAPTURED, len(body) - 20):
        raise IndexError(captured)
    interface = interfaces[number]
    time = (high << 32 | low) * SECOND // interface.ticks + interface.offset * SECOND
    return time, body[20 : 20 + captured], original, interface


def number_at(data, at):
    """Returns two bytes as a number."""
    if at + 2 > len(data):
        raise LeftOut("frames that end inside their link header")
    return data[at] << 8 | data[at + 1]


def after_link_header(link, data):
    """Returns where the IPv4 packet of a frame begins, behind VLAN tags too."""
    if link not in WITH_ETHER_TYPE:
        raise LeftOut(f"of link type {link}, {OF_LINKS.get(link, 'which is not read')}")
    at, place = WITH_ETHER_TYPE[link]
    ether_type = number_at(data, place)
    while ether_type in VLAN_TAGS:
        ether_type, at = number_at(data, at + 2), at + 4
    if ether_type == IPV4:
        return at
    if ether_type < LEAST_ETHER_TYPE:
        raise LeftOut("frames without an ether type (802.3 length)")
    raise LeftOut(OTHERS.get(ether_type) or f"of ether type 0x{ether_type:04x}")


def packet_in(link, data, original):
    """Returns the IPv4 packet of a frame, without link headers, and how long it was before the frame was cut."""
    if link not in RAW:
        at = after_link_header(link, data)
        data, original = data[at:], original - at
    size = len(data)
    if size < LEAST_HEADER:
        raise LeftOut("IPv4 packets that end before their addresses do")
    if data[0] >> 4 != 4:
        raise LeftOut("IPv6" if data[0] >> 4 == 6 else f"of IP version {data[0] >> 4}")
    return data, original if original > size else size


class Copies:
    """Packets of the last second in frames of all interfaces, by which a copy at another interface is told."""

    def __init__(self):
        self.seen = collections.defaultdict(list)
        self.order = collections.deque()

    def forget(self, now):
        """Forgets what is more than a second old."""
        while self.order and now - self.order[0][0] > SECOND:
            key = self.order.popleft()[1]
            self.seen[key].pop(0)
            if not self.seen[key]:
                del self.seen[key]

    def has(self, frame, packet):
        """Whether the frame may be one more of a packet that went the same way; of version 2 at another interface."""
        time, data, _, interface = frame
        self.forget(time)
        place, way = (data[4:8], data[10]) if interface.link == COOKED_2 else (None, data[1])
        key = (way == SENT, packet)
        for places in self.seen.get(key, ()):
            if place is None or place not in places:
                places.add(place)
                return True
        self.seen[key].append({place})
        self.order.append((time, key))
        return False


def record(time, packet, original):
    """Returns the record of a packet for a capture that begins with RAW_HEADER; `original` is its length before it was cut."""
    return struct.pack("<IIII", *divmod(time, SECOND), len(packet), original) + packet


def write_capture(path, packets):
    """Writes a capture of packets, each with its time."""
    with open(path, "wb") as file:
        file.write(RAW_HEADER)
        file.writelines(record(time, data, len(data)) for time, data in packets)


def date(time):
    """Returns a time as the log of explain has it."""
    seconds, rest = divmod(time, SECOND)
    return f"{datetime.datetime.fromtimestamp(seconds, datetime.timezone.utc):%Y-%m-%dT%H:%M:%S}.{rest:09}Z"


def file_of(path):
    """Returns what tells a file from others, whatever its path is spelled like and whatever links lead to it; None where it is not
    there."""
    with contextlib.suppress(OSError):
        found = os.fstat(0) if path == STANDARD_INPUT else os.stat(path)
        return found.st_dev, found.st_ino
    return None
