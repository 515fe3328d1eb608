"""Texts of packets, captures and runs: what tests/runs, tests/followed and tests/calls are written in.

'#' begins a comment; an indented line goes on with the one above it. ` / ` stands between lines in one. `511 times ..` is a line so
often, or some in turn: '+2' after an address or a number adds 2 to it at each time but the first, and '-2' takes 2 away.
`at (1 || 2) ..` is two lines, `at 1 ..` and `at 2 ..`. `run WORDS` begins a run; `run WORDS: ..` begins it with a line. What stands above
the first such line stands at the beginning of each, and then what stands below the last line `given`. A packet is
    udp 10.0.0.2:5000 > 198.51.100.7:53
                                 UDP without payload, with lifetime 64, identification 1 and right checksums
    tcp SA 10.0.0.2:5000 > 198.51.100.7:80
                                 the same of TCP, with the flags F, S, R and A, sequence number 1 and window 8192
    echo 10.0.0.2:7 > 198.51.100.7, echo-reply 198.51.100.7 > 10.0.0.2:7
                                 the same of an ICMP echo request or its reply, with that identifier and sequence
                                 number 1
    4500 001e ..                 the bytes given in hex
    error 198.51.100.7 > 203.0.113.1 about 4500 001e ..
                                 an ICMP error, port unreachable, that quotes those bytes, or what other words describe
    front 27 of 4500 001e ..     the first 27 of those bytes, or of those of a packet that other words describe
    damaged 8 of ..              the packet with another bit 0 of the byte at 8
    udp_query                    one of the packets that tests/packets.txt names
    udp_query with 10 4693 and 26 0000
                                 those bytes with changes, each at a place from 0,
    udp_query and then 0000      with others behind,
    udp_query with 0 65 mended   or with right checksums
Packets between an inside host and a remote have short lines. An endpoint that is not named is 10.0.0.2 or 203.0.113.1 with 5000, or with
the identifier 7, and a remote 198.51.100.7 with port 53 of UDP or 80 of TCP:
    out 1 tcp S 10.0.0.3:80 to 198.51.100.9:80 as 203.0.113.1:82
                                 from inside at 1 s, from the first endpoint to the remote, which leaves from the second
    in 2 udp 203.0.113.1:82 from 198.51.100.9:53 as 10.0.0.3:80
                                 from outside, from the remote to the first endpoint, which goes in to the second
    reply 2 udp 10.0.0.3:80 from 198.51.100.9:53 as 203.0.113.1:82
                                 a reply to the first endpoint, which becomes a packet to the second
    in 2 udp drop no-binding     one that is dropped for that cause
    binding udp                  the binding of the two
    at 1 out udp 10.0.0.3:80 -> 82
                                 the same as a call of a table, and `at 1 in udp 203.0.113.1:82 -> ..`
"""
import dataclasses
import ipaddress
import re

from hostile_inputs import captures, packets
from hostile_inputs.translating import CAUSES
from shared import OUTPUTS, SIDES, TESTS

SECOND = captures.SECOND
# the counts of a report, in their order
COUNTED = ("packets", "to outside", "to inside", *(f"drop {cause}" for cause in CAUSES))
FLAGS = {"F": packets.FIN, "S": packets.SYN, "R": packets.RST, "A": packets.ACK}


@dataclasses.dataclass
class Line:
    """A line of a text, with those that go on below it."""

    number: int
    text: str


def lines_of(text):
    """The lines of a text, each as often as it says."""
    lines = []
    for number, line in enumerate(text.splitlines(), 1):
        line = line.partition("#")[0].rstrip()
        if line.startswith(" "):
            lines[-1].text += f"\n{line.strip()}"
        elif line:
            lines.append(Line(number, line))
    return [Line(line.number, in_full(it)) for line in lines for each in repeated(line.text) for it in each_of(each)]


def each_of(line):
    """The lines that a line with `(1 || 2)` in it stands for."""
    front, found, behind = re.fullmatch(r"(.*?)(?:\(([^()]* \|\| [^()]*)\)(.*))?", line, re.DOTALL).groups()
    return [it for text in found.split(" || ") for it in each_of(front + text + behind)] if found else [line]


NUMBERS = {"udp": "5000", "tcp": "5000", "icmp": "7", "echo": "7"}
PORTS = {"udp": ":53", "tcp": ":80", "echo": ""}
PACKET = r"(udp|tcp \S+|echo)(?: (\d\S+))?(?: (?:to|from) (\S+))?"


def in_full(line):
    """A line, also where it is short."""
    if found := re.fullmatch(r"binding (udp|tcp|icmp)", line):
        return f"{line} 10.0.0.2:{NUMBERS[found[1]]} 203.0.113.1:{NUMBERS[found[1]]}"
    if found := re.fullmatch(rf"at (\S+) (out|in) {PACKET}((?: in \S+ \S+)?\s+->.*)", line, re.DOTALL):
        time, way, packet, end, remote, rest = found.groups()
        return f"at {time} {way}bound {between(way, packet, end, remote)}{rest}"
    if found := re.fullmatch(rf"(out|in|reply) (\S+) {PACKET}(?: as (\S+))?( drop \S+)?", line):
        way, time, packet, first, remote, second, drop = found.groups()
        came, left = between(way, packet, first, remote), between(way, packet, second, remote, has_left=True)
        if way == "reply":
            return f"reply {time} {came} -> {left} ->{drop or ' inside'}"
        source, target = SIDES if way == "out" else SIDES[::-1]
        return f"{source} {time} {came} ->{drop or f' {target} {left}'}"
    return line


def between(way, packet, end, remote, has_left=False):
    """A packet between an end and a remote, as it comes or has left; where none is named, those that are meant."""
    protocol = packet.split()[0]
    end = end or f"{'10.0.0.2' if has_left == (way == 'in') else '203.0.113.1'}:{NUMBERS[protocol]}"
    remote = remote or f"198.51.100.7{PORTS[protocol]}"
    return f"{packet} {end} > {remote}" if way == "out" else f"{packet} {remote} > {end}"


def repeated(line):
    """A line, or some in turn, so often as it says."""
    if begun := re.match(r"(run [^:]*): ", line):
        return [begun[1], *repeated(line[begun.end() :])]
    found = re.match(r"(\d+) times (.*)", line, re.DOTALL)
    if not found:
        return line.split(" / ")

    def grown(number, by):
        return str(ipaddress.IPv4Address(number) + by) if "." in number else str(int(number) + by)

    places = re.compile(r"([\d.]+)([+-]\d+)")
    lines = found[2].split(" / ")
    return [places.sub(lambda it: grown(it[1], time * int(it[2])), line) for time in range(int(found[1])) for line in lines]


def lines_in(text):
    """The lines of a configuration, which stand below one another or with ` | ` between them."""
    return re.split(r"\s+\|\s+|\n", text)


def runs_of(text):
    """The runs of a text: of each what follows `run`, or nothing, and its lines."""
    into = head = []
    given, runs = [], []
    for line in lines_of(text):
        word, _, name = line.text.partition(" ")
        if word == "given":
            given = into = []
        elif word == "run":
            into = [*head, *given]
            runs.append((name, into))
        else:
            into.append(line)
    return runs or [("", head)]


def nanoseconds(text):
    """A time in seconds, as 1.5, in nanoseconds."""
    seconds, _, fraction = text.partition(".")
    return int(seconds) * SECOND + int(fraction.ljust(9, "0"))


def endpoint(text):
    """An address and its number, which is 0 if none follows it."""
    address, _, number = text.partition(":")
    return int(ipaddress.IPv4Address(address)), int(number or 0)


def packet(words, named=None):
    """The bytes of a packet that words describe, which may name packets in addition to those of tests/packets.txt."""
    if words[-1:] == ["mended"]:
        mended = bytearray(packet(words[:-1], named))
        packets.mend(mended)
        return bytes(mended)
    known = NAMED | (named or {})
    text, _, changes = " ".join(known[word].hex() if word in known else word for word in words).partition(" with ")
    text, _, behind = text.partition(" and then ")
    made = bytearray(described(text.split()) + bytes.fromhex(behind))
    for change in changes.split(" and ") if changes else ():
        place, *new = change.split()
        new = bytes.fromhex("".join(new))
        made[int(place) : int(place) + len(new)] = new
    return bytes(made)


def described(words):
    """The bytes of a packet in words of its kind, or in hex."""
    kind, *rest = words or [""]
    if kind == "front":
        return described(rest[2:])[: int(rest[0])]
    if kind == "damaged":
        data = bytearray(described(rest[2:]))
        data[int(rest[0])] ^= 1
        return bytes(data)
    if kind not in ("udp", "tcp", "echo", "echo-reply", "error"):
        return bytes.fromhex("".join(words))
    if kind == "error":
        return bytes(packets.error(endpoint(rest[0])[0], endpoint(rest[2])[0], 3, 3, described(rest[4:])))
    source, destination = endpoint(rest[-3]), endpoint(rest[-1])
    if kind == "udp":
        return bytes(packets.udp(source, destination))
    if kind == "tcp":
        return bytes(packets.tcp(source, destination, sum(FLAGS[letter] for letter in rest[0]), acknowledged=0, window=8192))
    of_type, number = (8, source[1]) if kind == "echo" else (0, destination[1])
    return bytes(packets.echo(source[0], destination[0], of_type, number))


NAMED = {}
for words in (line.text.split() for line in lines_of((TESTS / "packets.txt").read_text())):
    NAMED[words[0]] = packet(words[2:])


def packet_of(text):
    return packet(text.split())


def savefile(records, magic=captures.NANOSECONDS):
    """A capture of records, of each its time and the words of its packet, both in texts."""
    return captures.savefile([(nanoseconds(time), packet(words)) for time, words in records], magic)


# RUNS OF TESTS/RUNS, AS TESTS/REPLAYS --HELP SAYS

RUNS = TESTS / "runs"
SPELLINGS = {
    frozenset(): captures.NANOSECONDS,
    frozenset(["microseconds"]): captures.MICROSECONDS,
    frozenset(["big-endian"]): b"\xa1\xb2\x3c\x4d",
    frozenset(["microseconds", "big-endian"]): b"\xa1\xb2\xc3\xd4",
}
# what lines say of a run in addition to its configuration, packets and bindings
SAID = ("spelled", "cut", "without", "asked", "fault")


@dataclasses.dataclass
class Run:
    """What a run is given, and what must come of it."""

    name: str
    config: bytes | None
    inputs: dict
    wanted: dict
    fault_line: str = ""
    status: int = 0


def report_of(ends, rows):
    """The report of a run whose packets have these ends, as `to inside` and `drop filtered`, and of these rows."""
    counts = "".join(f"{name} {ends.count(name)}\n" for name in COUNTED[1:])
    return f"packets {len(ends)}\n{counts}{rows}".encode()


def counts_and_rows(report):
    """The counts of a report by name, and the lines after them: of captures that are cut, and of bindings."""
    lines = report.decode().splitlines()
    many = len(COUNTED)
    return {name: int(count) for name, _, count in (line.rpartition(" ") for line in lines[:many])}, lines[many:]


def told(lines):
    """What lines tell: a configuration, the rows of a report, and of each packet the first word and those between
    arrows."""
    config, rows, packets = "", "", []
    for line in lines:
        first, rest = re.split(r"\s", line.text, maxsplit=1)
        if first == "config":
            config += "".join(f"{it}\n" for it in lines_in(rest))
        elif first == "binding":
            rows += " ".join(rest.split()).replace(", ", "\n") + "\n"
        else:
            packets.append((first, [part.split() for part in rest.split("->")]))
    return config.encode(), rows, packets


def told_run(name, lines):
    """The run that lines tell packet by packet."""
    said, rest = {word: {} for word in SAID}, []
    for line in lines:
        word, first, *more = [*line.text.split(), ""]
        if word in SAID:
            said[word][first] = more[:-1]
        else:
            rest.append(line)
    config, rows, packets = told(rest)
    records = {side: [(came[0], came[1:]) for first, (came, _) in packets if first == side] for side in SIDES}
    inputs = {it: savefile(records[it], SPELLINGS[frozenset(said["spelled"].get(it, ()))]) for it in SIDES if it not in said["without"]}
    inputs |= {it: inputs[it][: -int(many)] for it, (many,) in said["cut"].items()}
    cut = {first for first, (_, end) in packets if end == ["cut"]}
    ends = [f"drop {left[0]}" if way == "drop" else f"to {way}" for _, (_, (way, *left)) in packets if way != "cut"]
    left = {side: [(came[0], end[1:]) for _, (came, end) in packets if end[0] == side] for side in SIDES}
    rows = "".join(f"cut {side}\n" for side in SIDES if side in cut) + rows
    wanted = {f"to-{side}": savefile(records) for side, records in left.items()} | {"report": report_of(ends, rows)}
    wanted = {it: wanted[it] for it in said["asked"] or wanted}
    for status, words in said["fault"].items():
        return Run(name, config or None, inputs, dict.fromkeys(OUTPUTS, b""), f"napt: {' '.join(words)}", int(status))
    return Run(name, config or None, inputs, wanted)


def followed_runs():
    """The runs of tests/followed, each with its name: its configuration, the rows of its report, and of each packet the first word and
    those between arrows."""
    for path in sorted((TESTS / "followed").iterdir()):
        yield from ((f"{path.stem}, {words}", *told(lines)) for words, lines in runs_of(path.read_text()))


def front_of(given):
    """The captures of the packets that are merged before one is needed that has a fault, and that fault after its side."""
    read = {side: captures.read(captures.savefile([]) if given.get(side) is None else given[side]) for side in SIDES}
    *many, faulty = captures.merged_before(*read.values())
    front = {side: captures.savefile(it.packets[:count]) for (side, it), count in zip(read.items(), many)}
    return front, f"{faulty} {read[faulty].fault}"


def run_names():
    return sorted(path.stem for path in RUNS.iterdir())


def runs_named(name):
    """The runs of a text of tests/runs."""
    found = runs_of((RUNS / f"{name}.txt").read_text())
    return [told_run(f"{name}, {words}" if words else name, lines) for words, lines in found]


def all_runs():
    return [run for name in run_names() for run in runs_named(name)]
