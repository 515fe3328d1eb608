"""Pairs what arrived at a gateway with what left it, while both captures are read."""
import bisect
import collections
import dataclasses
import itertools
import operator
import statistics
from collections.abc import Callable, Iterator
from typing import NamedTuple

from judging.packets import ERROR, OF_TCP, OF_UDP, SIDES, Endpoint, Packet, Plan, Prefixes, Side
from judging.packets import endpoint_text, ends_text, named
from reading.captures import BAD_WORDS, SECOND, Fault

# a packet goes this way if an inside host sends it to the outside
OUT = "out"
# a packet goes this way if it comes from the outside
IN = "in"
# a packet goes this way if an inside host sends it to an external address of the gateway
HAIRPIN = "hairpin"
# a departure was found in this way if it was alone with its content
SURE = "sure"
# a departure was found in this way if it was the most likely of several
LIKELY = "likely"
# a departure was found in this way if it is the SYN of a gateway that ends connections itself
CONNECTION = "connection"
# a departure was found in this way if it has another payload than its arrival
ALTERED = "altered"
# a packet leaves within so long after it arrived
WINDOW = 2 * SECOND
# a packet may seem to leave so long before it arrived if the captures of both sides have one clock
ONE_CLOCK = SECOND // 500
# a packet may seem to leave so long before it arrived if there are two clocks, which may drift
TWO_CLOCKS = SECOND // 20
# a gateway has ended if nothing leaves of more than so many arrivals at the end of the captures
FEW_SILENT = 20
# a gateway has ended only if these arrivals come over more than so long
LONG_SILENT = 5 * SECOND
# so many arrivals of which nothing left are kept until it is known whether the gateway has ended
MOST_SILENT = 10_000
# a gateway keeps identifications if it kept more than so many times as many of them as it changed
KEEPS = 20
# application gateways look into the protocols of these ports: FTP, TFTP, portmap, RTSP, H.323, PPTP, SIP and IRC
GATEWAY_PORTS = {21, 69, 111, 554, 1720, 1723, 5060, 6667}
# the pool and the difference of the clocks are found from so many packets of each side
SAMPLE = 10_000
# packets are merged by this time
ORDER = operator.attrgetter("order")


class Pair:
    """An arrival and its departure, if it has one. `leak` is the packet that left to the outside in place of a
    departure: the packet as it came, or a hairpin that did not turn back. `made` has the packets that a gateway made of
    the pieces of a datagram that it did not put together."""

    __slots__ = ("time", "way", "arrival", "protocol", "departure", "how", "leak", "made", "key")

    def __init__(self, way: str, arrival: Packet, key: tuple | None = None):
        self.time, self.way, self.arrival = arrival.time, way, arrival
        self.protocol, self.departure, self.how = arrival.protocol, None, None
        self.leak, self.made, self.key = None, (), key

    @property
    def places(self):
        """The side, file and number of both packets."""
        left = self.departure or self.leak
        return self.arrival.place, left and left.place

    def text(self) -> str:
        """Returns the pair as the table shows it: the numbers of both packets, and what was changed."""
        came, left = self.arrival, self.departure
        if not left:
            fate = f"left to the outside, {self.leak.name}" if self.leak else "nothing left"
            return f"{came.name} ({came.text()}): {fate}"
        changed = f"to {endpoint_text(left.destination)}" if self.way is IN else f"as {endpoint_text(left.source)}"
        if came.kind == ERROR or self.way is HAIRPIN:
            changed = f"> {left.text()}"
        return f"{came.name}>{left.name} ({came.text()} {changed})"


class UnmatchedDeparture:
    """A packet that left without having arrived: the gateway's own, or one whose arrival is not in the captures."""

    departure = leak = None

    def __init__(self, packet: Packet, is_leak: bool = False):
        self.time, self.packet, self.protocol = packet.time, packet, packet.protocol
        self.is_leak, self.is_claimed = is_leak, False

    @property
    def places(self):
        return None, self.packet.place

    def text(self) -> str:
        return f"{self.packet.name} ({self.packet.text()})"


class Seen(NamedTuple):
    """A packet that went through a mapping before: its way, ends and flags, the end that it got, its time, and the
    files and numbers of arrival and departure."""

    way: str
    protocol: int
    source: Endpoint
    destination: Endpoint
    end: Endpoint
    flags: int
    time: int
    numbers: list

    @property
    def places(self):
        sides = {OUT: SIDES, IN: SIDES[::-1], HAIRPIN: ("inside", "inside")}[self.way]
        return [(side, *self.numbers[at : at + 2]) for side, at in zip(sides, (0, 2))]

    def text(self) -> str:
        changed = f"{'to' if self.way is IN else 'as'} {endpoint_text(self.end)}"
        ends = ends_text(self.protocol, self.source, self.destination, self.flags)
        return f"{'>'.join(named(*it) for it in self.places)} ({ends} {changed})"


@dataclasses.dataclass
class Setup:
    """What is judged, and what the user knows of it: the files of each side and the inside prefixes, and also the pool,
    the kind of filtering that was configured, and the names of the interfaces of both sides in the captures."""

    inside: list
    outside: list
    prefixes: Prefixes
    pool: set | None = None
    filtering: str | None = None
    interfaces: tuple = (None, None)
    is_one_file: bool = False

    def sides(self, plan: Plan, keeps_data: bool = False) -> list[Side]:
        return [Side(*it, plan, keeps_data) for it in zip(SIDES, (self.inside, self.outside), self.interfaces)]

    def plan(self) -> Plan:
        """Finds what is to be known before both sides are paired, from the first packets of each. Where they are the
        other way round, or have nothing in common, a fault says so."""
        sides = self.sides(Plan(set()))
        packets = [sampled(it) for it in sides]
        pool = self.pool or pool_of(*packets, self.prefixes)
        if not pool and all(packets):
            # the captures of one side may begin long before those of the other
            sides, begin = self.sides(Plan(set())), max(it[0].time for it in packets)
            packets = [sampled(it, begin - 10 * SECOND) for it in sides]
            pool = pool_of(*packets, self.prefixes)
        if not pool:
            refuse(packets, self.prefixes)
        depth = min((it.least_cut for it in sides if it.least_cut), default=None)
        doubles = tuple(name for name, it in zip(SIDES, packets) if share_of_doubles(it) > 1 / 3)
        ahead, is_ending = ahead_of(*packets, self.prefixes, pool), ends_connections(*packets, self.prefixes)
        return Plan(set(pool), ahead, depth, doubles, is_ending, self.is_one_file)


def merged(streams: list[Iterator[list[Packet]]]) -> Iterator[list[Packet]]:
    """Yields the packets of captures by time, at equal times in the order of the captures, in batches. What is out of
    its order in a capture comes behind what was before it there."""
    heads = [next(it, []) for it in streams]
    while any(heads):
        end, batch = min(it[-1].order for it in heads if it), []
        for at, head in enumerate(heads):
            place = bisect.bisect_right(head, end, key=ORDER)
            batch += head[:place]
            heads[at] = head[place:] or next(streams[at], [])
        batch.sort(key=ORDER)
        yield batch


def sampled(side: Side, begin: int = 0) -> list[Packet]:
    """Returns the first packets of a side from a time on."""
    packets = itertools.chain.from_iterable(merged(side.streams()))
    return list(itertools.islice((it for it in packets if it.time >= begin), SAMPLE))


def pool_of(inside: list[Packet], outside: list[Packet], prefixes: Prefixes) -> set[int]:
    """Returns the external addresses: the sources at the outside of what, but for its source, was sent inside; of a
    gateway that ends connections itself, of SYNs to the same remote."""
    sent = [it for it in inside if it.source[0] in prefixes]
    left = [it for it in outside if it.source[0] not in prefixes]
    keys, ends = {it.key(True) for it in sent}, {it.destination for it in sent if it.is_syn}
    found = collections.Counter(it.source[0] for it in left if it.kind != ERROR and it.key(True) in keys)
    found = found or collections.Counter(it.source[0] for it in left if it.is_syn and it.destination in ends)
    return {address for address, count in found.items() if count * 1000 >= max(found.values())}


def ahead_of(inside: list[Packet], outside: list[Packet], prefixes: Prefixes, pool: set[int]) -> int:
    """Returns how far the outside clock is ahead, from contents that are at each side once: half of the difference of
    both delays."""
    delays = []
    for is_out in (True, False):
        places = [collections.defaultdict(list), collections.defaultdict(list)]
        for place, packets, addresses in zip(places, (inside, outside), (prefixes, pool)):
            for it in packets:
                if (it.source[0] in addresses) == is_out:
                    place[it.key(is_out)].append(it.time)
        times = [(one, places[1].get(key, ())) for key, one in places[0].items()]
        differences = [other[0] - one[0] for one, other in times if len(one) == 1 == len(other)]
        delays += [statistics.median(differences)] if differences else []
    if len(delays) == 2:
        # if there is one clock, what goes out is later outside, and what comes in is earlier there
        return int(sum(delays) / 2) if delays[0] < 0 or delays[1] > 0 else 0
    return int(delays[0]) if delays and abs(delays[0]) > SECOND else 0


def ends_connections(inside: list[Packet], outside: list[Packet], prefixes: Prefixes) -> bool:
    """Returns whether a gateway ends connections itself: its SYNs are not those of inside hosts, but go to the same
    remotes."""
    syns = [it for it in inside if it.is_syn and it.source[0] in prefixes]
    left = [it for it in outside if it.is_syn and it.source[0] not in prefixes]
    ends, keys = {it.destination for it in syns}, {it.key(True) for it in syns}
    return keys.isdisjoint(it.key(True) for it in left) and any(it.destination in ends for it in left)


def share_of_doubles(packets: list[Packet]) -> float:
    """Returns the share of packets that have an equal packet just before them."""
    seen, count = {}, 0
    for it in packets:
        key = (it.source, it.destination, it.identification, it.ttl, it.kind, it.content)
        count += it.time - seen.get(key, -SECOND) <= SECOND // 1000
        seen[key] = it.time
    return count / max(len(packets), 1)


def refuse(packets: list[list[Packet]], prefixes: Prefixes):
    """Says why there are no pairs."""
    ends = [sum(it.source[0] in prefixes or it.destination[0] in prefixes for it in side) for side in packets]
    for side, name in zip(packets, SIDES):
        if not side:
            raise Fault(BAD_WORDS, f"the captures of --{name} have no packet of IPv4")
    if ends[1] > ends[0]:
        why = "--outside has more packets from or to --inside-prefix than --inside: the sides seem to be swapped"
    elif not ends[0]:
        why = "the captures of --inside have no packet from or to --inside-prefix"
    else:
        why = "nothing that inside hosts sent is in the captures of --outside: they are not of one gateway and time"
    raise Fault(BAD_WORDS, why)


class Pairing:
    """Pairs the packets of both sides. `take` gets pairs in the order in which they arrived, and what departed alone
    in its place, each once it is known what became of it: what has not left within the window never will. It gets many
    at once, which takes less time, but those from before the pool grew before that."""

    def __init__(self, prefixes: Prefixes, plan: Plan, take: Callable[[list], None]):
        self.prefixes, self.plan, self.pool, self.take, self.known = prefixes, plan, plan.pool, take, []
        # the pairs that wait for their departures are found by their content
        self.waiting = {OUT: {}, IN: {}, HAIRPIN: {}}
        self.departures, self.queue, self.silent = collections.deque(), collections.deque(), []
        # a departure without an arrival is found by what an application gateway leaves as it is, or by the remote of a
        # SYN; arrivals in pieces wait for what was made of them
        self.alone, self.in_pieces = collections.defaultdict(list), []
        # these are how many identifications were changed, and how many were kept
        self.identifications = [0, 0]
        self.pairs = self.not_judged = 0

    def run(self, streams: list[Iterator[list[Packet]]]):
        """Pairs the packets of both sides until they end."""
        departures, queue, slack = self.departures, self.queue, TWO_CLOCKS if self.plan.ahead else ONE_CLOCK
        for batch in merged(streams):
            for packet in batch:
                now = packet.time
                while departures and departures[0].time + slack <= now:
                    self.depart(departures.popleft())
                if packet.side == "inside":
                    self.take_inside(packet)
                else:
                    self.take_outside(packet)
                while queue and ((head := queue[0]).departure or head.time + WINDOW < now or head.leak):
                    self.decide(queue.popleft())
            self.hand_on()
        while departures:
            self.depart(departures.popleft())
        while queue:
            self.decide(queue.popleft())
        if len(self.silent) > FEW_SILENT and self.silent[-1].time - self.silent[0].time > LONG_SILENT:
            self.not_judged += len(self.silent)
            self.silent.clear()
        self.known += self.silent
        self.hand_on()

    def hand_on(self):
        """Hands on what is known."""
        self.take(self.known)
        self.known = []

    def take_inside(self, packet: Packet):
        destination = packet.destination[0]
        is_from, is_to = self.prefixes[packet.source[0]], self.prefixes[destination]
        if is_from and not is_to and (destination in self.pool or is_forwarded(destination)):
            # a packet that the machine itself sent was captured at its other interface
            if not packet.is_sent:
                self.arrive(HAIRPIN if destination in self.pool else OUT, packet)
        elif is_to and packet.is_sent is not False:
            self.departures.append(packet)

    def take_outside(self, packet: Packet):
        source, destination = packet.source[0], packet.destination[0]
        is_from = self.prefixes[source]
        if self.prefixes[destination] or is_from and (packet.is_sent is False or self.plan.is_one_file):
            return
        if not is_from and source not in self.pool and destination in self.pool:
            self.arrive(IN, packet)
        else:
            # where neither is in the pool, the source may be an address of it that was not seen yet
            self.departures.append(packet)

    def decide(self, item: Pair | UnmatchedDeparture):
        """Notes an item whose fate is known. Arrivals of which nothing left, and the gateway's own packets after them,
        wait until something leaves again."""
        if item.departure and not self.silent and not item.arrival.pieces:
            self.pairs += 1
            self.known.append(item)
            return
        if type(item) is Pair:
            if item.arrival.pieces:
                self.in_pieces.remove(item)
            if not item.departure and not item.leak:
                self.end_wait(item)
            self.pairs += item.departure is not None
            is_silent = not (item.departure or item.leak or item.made)
        else:
            self.forget(item)
            if item.is_claimed or not item.is_leak and self.is_made_of_pieces(item):
                return
            is_silent = bool(self.silent) and not item.is_leak
        if not is_silent:
            self.known += *self.silent, item
            self.silent.clear()
        elif len(self.silent) < MOST_SILENT:
            self.silent.append(item)
        else:
            self.not_judged += 1

    def arrive(self, way: str, packet: Packet):
        key = packet.content if way is HAIRPIN else packet.key(way is OUT)
        pair = Pair(way, packet, key)
        self.queue.append(pair)
        if packet.pieces:
            self.in_pieces.append(pair)
        self.waiting[way].setdefault(key, []).append(pair)

    def depart(self, packet: Packet):
        """Finds the arrival of a packet that left."""
        source, destination = packet.source[0], packet.destination[0]
        is_inside, pair = self.prefixes[source], None
        if packet.side == "outside":
            if is_inside:
                self.leak(packet)
            elif pair := self.chosen(OUT, packet.key(True), packet):
                pair.departure = packet
                if source not in self.pool:
                    self.hand_on()
                    self.pool.add(source)
            elif source in self.pool:
                if destination in self.pool and (pair := self.chosen(HAIRPIN, packet.content, packet)):
                    pair.leak, pair.how = packet, None
                else:
                    self.leave_alone(packet)
            return
        if is_inside or source in self.pool:
            pair = self.chosen(HAIRPIN, packet.content, packet)
        if not pair and not is_inside:
            pair = self.chosen(IN, packet.key(False), packet)
        if pair:
            pair.departure = packet
        elif not is_inside or packet.kind == ERROR:
            self.leave_alone(packet)

    def chosen(self, way: str, key: tuple, packet: Packet) -> Pair | None:
        """Returns the waiting pair of a departure: the first one of its sender; of several senders that with its
        identification."""
        row = self.waiting[way].pop(key, None)
        if row is None:
            return None
        best = row[0]
        if len(row) > 1:
            told = packet.identification, packet.length
            same = [it for it in row if (it.arrival.identification, it.arrival.length) == told]
            best = (same or row)[0]
            if is_of_several(row) and (not same or is_of_several(same) or not packet.identification):
                # all arrivals that wait with it are as likely
                for it in row:
                    it.how = LIKELY
            row.remove(best)
            self.waiting[way][key] = row
        best.key = None
        is_kept = best.arrival.identification == packet.identification
        self.identifications[is_kept] += 1
        if best.how is None:
            # if a gateway that keeps identifications seems to have changed this one, the departure is of another host,
            # whose arrival is not in the captures
            changed, kept = self.identifications
            best.how = LIKELY if not is_kept and kept > KEEPS * changed else SURE
        return best

    def drop(self, pair: Pair):
        """Takes a pair from those that wait."""
        row = self.waiting[pair.way][pair.key]
        if len(row) == 1:
            del self.waiting[pair.way][pair.key]
        else:
            row.remove(pair)
        pair.key = None

    def leave_alone(self, packet: Packet):
        """Notes a departure without an arrival, by what may still be found to be its arrival."""
        item = UnmatchedDeparture(packet)
        if not self.is_made_of_pieces(item):
            self.queue.append(item)
            for key in keys_alone(packet) if packet.side == "outside" else ():
                self.alone[key].append(item)

    def leak(self, packet: Packet):
        """Notes a packet that left as it came."""
        for pair in self.waiting[OUT].get(packet.key(True), ()):
            if pair.arrival.source == packet.source:
                pair.leak = packet
                self.drop(pair)
                break
        self.queue.append(UnmatchedDeparture(packet, is_leak=True))

    def forget(self, item: UnmatchedDeparture):
        for key in keys_alone(item.packet) if item.packet.side == "outside" and not item.is_leak else ():
            self.alone[key].remove(item)
            if not self.alone[key]:
                del self.alone[key]

    def end_wait(self, pair: Pair):
        """Looks for another departure of a pair that has none: with another payload, or of a connection that the
        gateway ends itself."""
        if pair.key is not None:
            self.drop(pair)
        ways = (ALTERED, CONNECTION) if self.plan.ends_connections else (ALTERED,)
        for how, key in zip(ways, keys_alone(pair.arrival) if pair.way is OUT else ()):
            for item in self.alone.get(key, ()):
                is_like = how is ALTERED or item.packet.is_syn
                if is_like and not item.is_claimed and 0 <= item.time - pair.time < SECOND:
                    item.is_claimed, pair.departure, pair.how = True, item.packet, how
                    return

    def is_made_of_pieces(self, item: UnmatchedDeparture) -> bool:
        """Returns whether a departure was made of the pieces of a datagram that waits, which then notes it."""
        left = item.packet
        for pair in self.in_pieces:
            came = pair.arrival
            has_end = left.destination[0] == came.destination[0] or left.source[0] == came.source[0]
            is_like = left.side != came.side and left.protocol == came.protocol and not pair.departure
            if is_like and has_end and abs(item.time - pair.time) < SECOND // 10:
                pair.made += (left,)
                return True
        return False


def is_of_several(pairs: list[Pair]) -> bool:
    """Returns whether arrivals have different ends."""
    return len({(it.arrival.source, it.arrival.destination) for it in pairs}) > 1


def keys_alone(packet: Packet) -> tuple:
    """Returns the keys by which a departure of UDP or TCP is found whose payload was changed, and by which a SYN of the
    gateway's own is found."""
    if packet.kind not in (OF_UDP, OF_TCP):
        return ()
    # identifications of 0 tell nothing (RFC 6864)
    number = packet.identification
    altered = number and (packet.kind, packet.destination, number, packet.sequence)
    return (altered, packet.destination) if packet.is_syn else (altered,)


def is_forwarded(address: int) -> bool:
    """Returns whether a gateway forwards what is for an address. It does not forward what is for multicast, broadcast,
    link-local addresses or this host (RFC 6890)."""
    return address < 0xE0000000 and address >> 16 != 0xA9FE and address >> 24 not in (0, 127)
