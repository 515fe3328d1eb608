"""What should have come in, by the proved program: each packet from outside, at the inside endpoint that the gateway's
number stood for, goes through the definition of napt, under the gateway's own timers and filter."""
import dataclasses
import json
import pathlib
import struct
import subprocess
import tempfile

from judging.judge import Judge
from judging.lifetimes import ADDRESS, ADDRESS_PORT, INDEPENDENT
from judging.mappings import ESTABLISHED, LEAST, OF_ICMP, TRANSITORY, Mapping
from judging.moments import RESET, TIMER, Incoming
from judging.packets import ERROR, ICMP, OF_UDP, QUERY, TCP, UDP, Endpoint, Packet, Plan, dotted
from judging.pairing import IN, Pair, Setup, UnmatchedDeparture
from judging.rows import BY_DEFINITION, Row
from reading.captures import BAD_WORDS, SECOND, Fault, write_capture

FILTERS = {INDEPENDENT: "independent", ADDRESS: "address", ADDRESS_PORT: "address-port"}
TIMERS = {"udp": OF_UDP, "tcp-established": ESTABLISHED, "tcp-transitory": TRANSITORY, "icmp": OF_ICMP}
MOST_ADDRESSES = 16
# where an IPv4 header has its checksum, source and destination, and where the checksum of a transport is
SUM_PLACE, SOURCE, DESTINATION, SUM_OF = 10, 12, 16, {UDP: 6, TCP: 16, ICMP: 2}
FILTERING = {UDP: "4787 REQ-8", TCP: "5382 REQ-3"}


@dataclasses.dataclass
class Followed:
    """A packet from outside, the inside endpoint that it was for, the rows that it may show, and what the definition
    does with it."""

    pair: Pair
    inside: Endpoint
    rows: list
    is_let_in: bool = False
    cause: str | None = None


def changed(data: bytearray, at: int, value: bytes, *sums: int):
    """Puts a value into its place, and updates checksums by the difference, so that a wrong one stays wrong (RFC
    1624)."""
    before, data[at : at + len(value)] = int.from_bytes(data[at : at + len(value)], "big"), value
    for place in sums:
        checksum = struct.unpack_from("!H", data, place)[0]
        total = (0xFFFF - checksum - before + int.from_bytes(value, "big")) % 0xFFFF
        struct.pack_into("!H", data, place, 0xFFFF - total)


def change_end(data: bytearray, place: int, port_place: int, end: Endpoint, protocol: int):
    """Gives an IPv4 packet another end: its address at a place, and its port at another of the transport."""
    body = (data[0] & 15) * 4
    sum_at = body + SUM_OF[protocol]
    has_sum = sum_at + 2 <= len(data) and (protocol != UDP or data[sum_at : sum_at + 2] != b"\0\0")
    changed(data, place, struct.pack("!I", end[0]), SUM_PLACE, *[sum_at] * (has_sum and protocol != ICMP))
    changed(data, body + port_place, struct.pack("!H", end[1]), *[sum_at] * has_sum)


def sent_inside(packet: Packet, inside: Endpoint) -> bytes:
    """Returns the bytes of a packet from outside as if it had been sent to an inside endpoint."""
    data, body = bytearray(packet.data), (packet.data[0] & 15) * 4
    if packet.kind != ERROR:
        change_end(data, DESTINATION, 4 if packet.kind == QUERY else 2, inside, packet.protocol)
        return bytes(data)
    changed(data, DESTINATION, struct.pack("!I", inside[0]), SUM_PLACE)
    quoted, protocol = data[body + 8 :], packet.quoted.protocol
    pad = bytes(len(quoted) % 2)
    change_end(quoted, SOURCE, 4 if protocol == ICMP else 0, inside, protocol)
    data += pad
    changed(data, body + 8, quoted + pad, body + 2)
    return bytes(data[: len(packet.data)])


def rows_of(pair: Pair, mapping: Mapping, is_known: bool) -> list[str]:
    """Returns the names of the requirements that a packet from outside may show."""
    came = pair.arrival
    if came.kind == ERROR:
        if came.sum_ok is False or not came.quoted.header_ok:
            return ["5508 REQ-3" if came.sum_ok is False else "5508 REQ-3a"]
        return ["5508 REQ-4", "5382 REQ-9"] if came.quoted.protocol == TCP else ["5508 REQ-4"]
    if not is_known:
        return [FILTERING[came.protocol]] if came.protocol == UDP or came.is_syn else []
    if came.protocol != TCP:
        return ["3022 deliver", "4787 REQ-12"] if mapping.error and came.protocol == UDP else ["3022 deliver"]
    session = mapping.sessions.get(came.source)
    if came.is_syn or session and session.met:
        return ["5382 REQ-2a"]
    return ["5382 REQ-2", "5382 REQ-10"] if mapping.error else ["5382 REQ-2"]


class Replay(Judge):
    """A judge whose verdicts on what comes in are those of napt's definition."""

    def __init__(self, given: Setup, plan: Plan, explain: str):
        super().__init__(given, plan, keeps_data=True)
        self.explain, self.sent, self.followed, self.timed_out = explain, [], [], set()
        self.pairing.take, self.gateway.follow = self.take, self.follow

    def tell(self, moment, key: object = None):
        if type(moment) is Incoming and moment.cause in (TIMER, RESET):
            self.timed_out.add(id(moment.pair))
        super().tell(moment, key)

    def follow(self, pair: Pair, mapping: Mapping, is_known: bool):
        """Takes a packet from outside with the mapping that its number stands for; is_known: something was sent to its
        remote before."""
        if pair.way is IN and pair.arrival.data:
            self.followed.append(Followed(pair, mapping.inside, rows_of(pair, mapping, is_known)))

    def take(self, items: list[Pair | UnmatchedDeparture]):
        self.gateway.take(items)
        pairs = (it for it in items if type(it) is Pair and it.way is not IN and it.arrival.data)
        self.sent += ((it.time, it.arrival.data) for it in pairs)

    def run(self) -> "Replay":
        super().run()
        self.ask()
        self.conclude()
        return self

    def configuration(self, protocol: int) -> str:
        """Returns napt's configuration with the gateway's own filter for a protocol, and its own timers where they are
        long enough."""
        lifetimes, kind = self.gateway.lifetimes, self.gateway.filters[protocol].kind
        lines = [f"pool = {json.dumps([dotted(it) for it in sorted(self.plan.pool)])}"]
        lines += [f"inside = {json.dumps([str(it) for it in self.given.prefixes.networks])}"]
        lines += [f'filter = "{FILTERS.get(kind, FILTERS[INDEPENDENT])}"', 'parity = "free"', "[timers]"]
        for name, it in TIMERS.items():
            lines.append(f"{name} = {max(LEAST[it], lifetimes.longest(it) + SECOND - 1) // SECOND}")
        return "\n".join(lines) + "\n"

    def ask(self):
        """Runs the program under the filter of each protocol, and notes what it does with what was followed."""
        if (many := len(self.plan.pool)) > MOST_ADDRESSES:
            raise Fault(BAD_WORDS, f"napt has {MOST_ADDRESSES} external addresses at most, and this gateway {many}")
        with tempfile.TemporaryDirectory(prefix="judge-") as folder:
            room = pathlib.Path(folder)
            replies = [(it.pair.time, sent_inside(it.pair.arrival, it.inside)) for it in self.followed]
            write_capture(room / "inside.pcap", self.sent)
            write_capture(room / "replies.pcap", replies)
            for protocol in (UDP, TCP):
                (room / "napt.toml").write_text(self.configuration(protocol))
                for it, outcome in zip(self.followed, asked(self.explain, room), strict=True):
                    if (it.pair.protocol == TCP) == (protocol == TCP):
                        it.is_let_in, it.cause = outcome["outcome"] == "to-inside", outcome["cause"]

    def conclude(self):
        """Judges what comes in by what the definition did. What the gateway's own timers, or a RST, ended is for other
        rows to say."""
        for name in {name for it in self.followed for name in it.rows}:
            if name in FILTERING.values():
                self.rows[name].judged_by = BY_DEFINITION
            else:
                self.rows[name] = Row(self.rows[name].requirement, BY_DEFINITION)
        for it in self.followed:
            did, had_none = it.pair.departure is not None, it.cause == "no-binding"
            for row in (self.rows[name] for name in it.rows):
                if did == it.is_let_in and (did or not had_none):
                    row.meets(it.pair)
                elif it.is_let_in and not did and id(it.pair) not in self.timed_out:
                    row.breaks(it.pair, "the definition lets it in")
                elif did and not it.is_let_in and not had_none:
                    row.breaks(it.pair, f"the definition drops it: {it.cause}", is_absence=True)


def asked(explain: str, room: pathlib.Path) -> list[dict]:
    """Returns what the program does with each reply, as objects of `explain show --json`."""
    words = [explain, *"show --config napt.toml --inside inside.pcap --replies replies.pcap --json".split()]
    try:
        answer = subprocess.run(words, cwd=room, stdin=subprocess.DEVNULL, capture_output=True, text=True, check=False)
    except OSError as error:
        raise Fault(BAD_WORDS, f"{explain}: {error.strerror} (--explain names the program)") from error
    if answer.returncode:
        raise Fault(BAD_WORDS, f"{explain}: status {answer.returncode}: {answer.stderr.strip()}")
    return [it for it in map(json.loads, answer.stdout.splitlines()) if it["side"] == "outside"]
