"""The rules, which judge each occasion that pairs show. A rule gets a moment of one of the kinds that its signature
names. What a requirement asks is in requirements.csv, with its name, level (RFC 2119) and section, the traffic that
shows it, its rule, the word that the rule gets (`word` here), its protocol, if it is of one, and whether it is of
segments: such a requirement cannot be shown by a gateway that ends connections itself."""
import collections
import csv
import dataclasses
import pathlib
import typing

from judging.gateway import LEAST_HIGH_PORT, Gateway
from judging.lifetimes import ADDRESS_PORT, NO_ONE, SOON
from judging.mappings import LEAST
from judging.moments import AFTER_ERROR, ELSEWHERE, RESET, SEGMENT, SIMULTANEOUS, SUDDEN, TIMER, UNREFRESHED, Departure
from judging.moments import Error, Fragmentable, Fragmented, Hairpin, Incoming, Neighbours, Refreshed, TooLarge
from judging.moments import Unforwarded, Unsolicited
from judging.packets import ERROR, ICMP, OF_TCP, OF_UDP, PROTOCOLS, RST, SYN, TCP, UDP, Plan, dotted
from judging.pairing import ALTERED, GATEWAY_PORTS, HAIRPIN, IN, OUT, SURE, Pair, UnmatchedDeparture
from judging.rows import Row
from reading.captures import SECOND

# a rule keeps so many of the latest datagrams
MOST_DATAGRAMS = 10_000
# so many numbers have to change before their order is looked at
FEW_CHANGED = 8
# a number follows on another number if it is greater by at most so much
NEAR = 2
# a number has to rest for so long (RFC 6888, REQ-8)
REST = 120 * SECOND
# a SYN must not be answered sooner than this (RFC 5382, REQ-4)
SILENT = 6 * SECOND
# a SYN must be answered within so long
ANSWERED = 12 * SECOND
# a fragment of a datagram may be about in the network for so long
FRAGMENTS_LIVE = 120 * SECOND
# a link of Ethernet carries a datagram of this length
ETHERNET_MTU = 1500
# a timer was seen to be long enough if a mapping lived for this part of it
NEARLY = 0.95


class End:
    """The end of the captures: the gateway, all rows by their names, the plan, and the filtering that the user
    expects."""

    protocol, siblings, cousins = None, (), ()

    def __init__(self, gateway: Gateway, rows: dict[str, Row], plan: Plan, expected: str | None = None):
        self.gateway, self.rows, self.plan, self.expected = gateway, rows, plan, expected
        self.lifetimes = gateway.lifetimes


class Rules(Row):
    """A row with the rules of all requirements, of which one is its own."""

    # MAPPINGS AND NUMBERS

    def same_endpoint_for_each_remote(self, it: Departure | End):
        """An endpoint must have the same external endpoint for each remote. The gateway could have failed where a
        packet left for a new remote. An endpoint that kept its number says little, since a gateway may keep numbers
        wherever it can."""
        if type(it) is End:
            if not self.met and self.memory["kept"]:
                self.needs = f"an endpoint whose number was changed (all {self.memory['kept']} kept theirs)"
            return
        time, mapping, remote, is_new_remote = it.pair.time, it.mapping, it.remote, it.is_new_remote
        for other in it.others:
            if remote in other.remotes:
                is_older = mapping is None or mapping.last_any < other.last_any
                if is_older and time - other.last_any < SOON and not other.error:
                    self.breaks(it.pair, live=[other])
            elif is_new_remote:
                self.memory["changed"] += 1
                self.breaks(it.pair, live=[other])
        if mapping and is_new_remote and not it.others and not it.is_new:
            if it.protocol == ICMP or it.external[1] != it.inside[1]:
                self.meets(mapping.last_pair, it.pair)
            else:
                self.memory["kept"] += self.weight

    def one_identifier(self, it: Departure):
        self.same_endpoint_for_each_remote(it)
        self.no_overloading(it)

    def no_overloading(self, it: Departure):
        """Two endpoints must not share a number, even if their remotes differ. The gateway could have failed where
        another endpoint had, for other remotes, the number that an endpoint did not get."""
        for other in it.holders:
            self.breaks(it.pair, live=[other])
        if it.rival:
            self.meets(it.pair, live=[it.rival])

    def ports_stay(self, it: Departure):
        if it.is_new and it.protocol != ICMP and (it.inside[1] < LEAST_HIGH_PORT) == (self.word == "low"):
            self.judge((it.external[1] < LEAST_HIGH_PORT) == (self.word == "low"), it.pair)

    def parity(self, it: Departure):
        """A number must keep its parity. The gateway could have failed where it changed a number."""
        if it.is_new and it.external[1] != it.inside[1]:
            self.judge((it.external[1] ^ it.inside[1]) & 1 == 0, it.pair)

    def one_address(self, it: Neighbours | End):
        """All endpoints of a host must have one external address: those of one protocol (siblings), or also those of
        other protocols (cousins). The gateway could have failed where it has two addresses."""
        if type(it) is End:
            self.needs = "" if len(it.plan.pool) > 1 else "two external addresses"
        for other in getattr(it, self.word):
            self.judge(other.external[0] == it.address, it.pair, live=[other])

    def numbers_rest(self, it: Departure | End):
        """A number must rest before another endpoint gets it. The gateway could have failed where another endpoint got
        it. Nobody saw the former mapping end: it lived at least as long as others did, and at most until others were
        gone."""
        if type(it) is Departure:
            if it.before:
                times = (it.pair.time - it.before.last_out, it.pair.time - it.before.last_any)
                self.keep("again", *times, it.before.last_pair, it.pair)
            return
        least, longest, end = LEAST[OF_UDP], it.lifetimes.longest(OF_UDP), it.lifetimes.shortest(OF_UDP)
        shortest = longest if end is not None and end < least else max(longest, least)
        for sent, used, before, pair in self.later["again"]:
            if sent < shortest + REST and (end is None or sent >= end or sent >= least):
                self.breaks(before, pair)
            elif end is not None and used > end + REST:
                self.meets(before, pair)

    def hard_to_guess(self, it: Departure | End):
        """Numbers must be hard to guess (RFC 6056). The gateway could have failed where it changed a number: the new
        number must follow neither on the one before nor on the inside number."""
        memory = self.memory
        if type(it) is End:
            if memory["changed"] >= FEW_CHANGED:
                near = f"of which {memory['near']} follow on the one before or on the inside number"
                self.note = f"{memory['changed']} changed, {near}"
                self.judge(memory["near"] * 3 <= memory["changed"], *(pair for pair, in self.later["pairs"][1:4]))
        elif it.is_new and it.protocol != ICMP and it.inside[1] != it.external[1]:
            number = it.external[1]
            is_near = 0 < number - it.inside[1] <= NEAR or 0 < number - memory.get("before", number) <= NEAR
            memory["near"] += is_near
            memory["changed"] += 1
            memory["before"] = number
            self.keep("pairs", it.pair)

    def identifications_differ(self, it: Fragmentable):
        """Two hosts behind one address must not use one identification at a time, where fragments are possible (RFC
        6864, section 5.3.1). The gateway could have failed where two hosts chose the same identification."""
        came, left, time = it.pair.arrival, it.pair.departure, it.pair.time
        tables = [self.memory.setdefault(name, collections.OrderedDict()) for name in ("left", "came")]
        keys = [(left.source[0], came.destination[0], packet.identification) for packet in (left, came)]
        found = [table.pop(key, None) for table, key in zip(tables, keys)]
        is_other = [one and one[0] != came.source[0] and time - one[1] < FRAGMENTS_LIVE for one in found]
        if is_other[0]:
            self.breaks(found[0][2], it.pair)
        elif is_other[1] and came.identification:
            self.meets(found[1][2], it.pair)
        for table, key in zip(tables, keys):
            table[key] = (came.source[0], time, f"{came.name}>{left.name} (from {dotted(came.source[0])})")
            if len(table) > MOST_DATAGRAMS:
                table.popitem(last=False)

    def deterministic(self, it: End):
        """Mapping and filtering must not change. The gateway could have failed where it was seen to map or to filter
        several times."""
        for protocol, mapping in ((UDP, "4787 REQ-1"), (TCP, "5382 REQ-1")):
            found, filtered = it.rows[mapping], it.gateway.filters[protocol]
            same, changed = found.met + found.memory["kept"], found.memory["changed"]
            if same and found.broken and changed:
                self.breaks(*found.evidence[0])
                name = PROTOCOLS[protocol].upper()
                self.note = f"mapping of {name}: independent {same} times, not {changed} times"
            elif found.met and same > 3 and not found.broken:
                self.meets(*found.shown[0])
            if filtered.kind == NO_ONE:
                self.breaks(*filtered.occasions(True)[0], *filtered.occasions(False)[0], is_absence=True)

    # TIMERS

    def lives(self, it: End):
        """A mapping that is not used must live for the least timer. The gateway could have failed where a packet came
        after nearly that time; it did fail where a mapping was gone sooner."""
        kind, lifetimes = self.word, it.lifetimes
        least, alive, lost = LEAST[kind], lifetimes.alive.get(kind), lifetimes.lost.get(kind)
        seen = ("survived", alive), ("gone after", lost)
        said = [f"{what} {found[0] / SECOND:.0f} s" for what, found in seen if found]
        differ = alive and lost and alive[0] > lost[0]
        self.note = ", ".join(said) + (" (they differ, by the state of the mapping)" if differ else "")
        if lost and lost[0] < least:
            self.breaks(*lost[1:], is_absence=True)
        elif alive and alive[0] >= least * NEARLY:
            self.meets(*alive[1:])

    def packets_out_refresh(self, it: Incoming | Refreshed | End):
        """Packets out must refresh a mapping. The gateway could have failed where a mapping became older than the
        gateway's own timer, and was never quiet for as long as that."""
        ages = self.memory.setdefault("ages", {})
        if type(it) is Incoming:
            if it.cause == UNREFRESHED:
                self.breaks(it.holder, it.pair)
        elif type(it) is Refreshed:
            time, mapping = it.pair.time, it.mapping
            gap, age = max(mapping.longest_gap, time - mapping.last_any) // SECOND, time - mapping.first
            if age > ages.get(gap, (10 * SECOND,))[0]:
                ages[gap] = (age, mapping.last_pair, it.pair)
        elif it.lifetimes.is_one(OF_UDP):
            for gap, (age, *evidence) in sorted(ages.items()):
                if gap * SECOND < it.lifetimes.shortest(OF_UDP) < age:
                    self.meets(*evidence)

    def refreshes_nothing(self, it: Incoming | End):
        """An ICMP error, or a packet that the filter refused, must not refresh a mapping. The gateway could have failed
        where such a packet came within the timer, and the mapping was gone all the same. It did fail where a mapping
        lived longer than the timer because of such a packet."""
        if type(it) is End:
            for kind, quiet, *evidence in self.later["lived"]:
                if it.lifetimes.is_one(kind) and quiet >= it.lifetimes.shortest(kind):
                    self.breaks(*evidence, is_absence=True)
            for kind, apart, *evidence in self.later["gone"]:
                if it.lifetimes.is_one(kind) and apart <= it.lifetimes.longest(kind):
                    self.meets(*evidence)
            return
        mapping, time, other = it.mapping, it.pair.time, getattr(it.mapping, self.word)
        if it.protocol != TCP and other and other.time > mapping.last_any:
            evidence = mapping.last_pair, other, it.pair
            if it.is_let_in and it.is_known:
                self.keep("lived", it.kind, time - mapping.last_any, *evidence)
            elif it.cause == TIMER:
                self.keep("gone", it.kind, max(time - other.time, other.time - mapping.last_any), *evidence)

    def resets_leave_time(self, it: Incoming):
        if it.session and it.session.reset:
            if it.cause == RESET and not it.is_let_in:
                self.breaks(it.session.reset, it.pair)
            elif it.is_let_in and not it.pair.arrival.flags & (SYN | RST):
                self.meets(it.session.reset, it.pair)

    def errors_end_nothing(self, it: Incoming):
        if it.is_known and it.mapping.error:
            if it.cause == AFTER_ERROR:
                self.breaks(it.mapping.error, it.pair)
            elif it.is_let_in and it.cause is None:
                self.meets(it.mapping.error, it.pair)

    # WHAT COMES IN

    def filtering(self, it: End):
        """Whether a mapping lets a packet in must be independent of the remote, or must depend on its address alone,
        and must not change between these two. The gateway could have failed where strangers sent to live mappings."""
        found = it.gateway.filters[self.requirement.protocol]
        let_in, refused = found.occasions(True), found.occasions(False)
        self.note = found.kind or ""
        if found.kind == NO_ONE:
            counts = ((it, found.counts[it, True], found.counts[it, False]) for it in found.seen)
            self.note = "; ".join(f"from another {what}: {many} let in, {others} not" for what, many, others in counts)
            self.breaks(*let_in[0], *refused[0], is_absence=True)
        elif found.kind and it.expected and found.kind != it.expected:
            self.breaks(*(let_in or refused)[0], is_absence=True)
        elif found.kind == ADDRESS_PORT:
            self.breaks(*refused[0])
        elif found.kind:
            self.meets(*let_in[0], *(refused or let_in[1:] or let_in)[0])

    def delivered(self, it: Incoming):
        if it.cause is None and it.is_let_in and it.is_known:
            self.meets(it.pair)
        elif it.cause in (SUDDEN, ELSEWHERE):
            self.breaks(it.mapping.last_pair, it.pair, is_absence=it.cause == ELSEWHERE and not it.is_known)

    def each_segment_passes(self, it: Incoming):
        if it.cause == SEGMENT:
            self.breaks(it.holder, it.pair)
        elif it.cause is None and it.is_let_in and not it.pair.arrival.is_syn:
            self.meets(it.pair)

    def simultaneous_open(self, it: Incoming):
        if it.cause == SIMULTANEOUS:
            self.breaks(it.holder, it.pair)
        elif it.cause is None and it.is_let_in and it.pair.arrival.is_syn and it.session:
            if it.session.opened_out and not it.session.opened_in:
                self.meets(it.pair)

    def syn_is_not_answered(self, it: Unsolicited):
        early = it.answer and it.answer.time - it.pair.time
        if it.answer and early < SILENT:
            self.breaks(it.pair, f"answered by {it.answer.text()} after {early / SECOND:.3f} s", is_absence=True)
        elif it.span > SILENT:
            self.meets(it.pair)

    def syn_is_answered_late(self, it: Unsolicited):
        if not it.answer and it.span >= ANSWERED:
            self.breaks(it.pair)
        elif it.answer and it.answer.time - it.pair.time >= SILENT:
            self.meets(it.pair, it.answer)

    def queries_pass(self, it: Incoming | Unforwarded):
        if type(it) is Unforwarded:
            if not it.answer:
                self.breaks(it.pair)
        elif it.cause is None and it.is_let_in and it.is_known:
            self.meets(it.mapping.last_pair, it.pair)

    # HAIRPINS

    def turns_back(self, it: Hairpin | End):
        """A hairpin must turn back if the filter of the mapping to which it is sent lets the sender in. The gateway
        could have failed on each hairpin to a live mapping. Which filter the gateway has is known at the end."""
        if type(it) is End:
            kind = it.gateway.filters[self.requirement.protocol].kind
            for opens, before, pair, ages in self.later["missing"]:
                if kind in opens or None in opens:
                    self.breaks(before, pair, ages=ages)
        elif it.pair.departure:
            self.meets(it.pair)
        else:
            self.keep("missing", it.opens, it.mapping.last_pair, it.pair, [it.mapping.age(it.pair.time)])

    def turns_back_translated(self, it: Hairpin):
        left = it.pair.departure
        if it.is_untranslated:
            self.breaks(it.pair)
        elif left and it.mine:
            is_right = any(mine.external == left.source for mine in it.mine)
            self.judge(is_right, it.pair, live=[] if is_right else it.mine[:1])
        elif left:
            self.meets(it.pair)

    def errors_turn_back(self, it: Error):
        """An error about a hairpin must turn back to the sender of the hairpin, and quote the ends that the sender
        knows. The gateway could have failed on each such error that it has no reason to drop."""
        if it.pair.way is HAIRPIN and not it.is_bad:
            self.judge(it.pair.departure is not None and it.is_right, it.pair, live=it.live)

    # ICMP ERRORS

    def errors_from_all(self, it: Error | End):
        """Errors must come in whatever their source is. The gateway could have failed where the source was not the
        remote, but a router."""
        if type(it) is End:
            if self.broken and not it.gateway.errors_of_remotes:
                self.needs = "errors of the remotes themselves that go in (here none does)"
                self.broken = self.absent = 0
        elif it.is_good(IN, not it.is_from_remote, it.pair.departure or it.mapping):
            self.judge(it.pair.departure is not None, it.pair, live=it.live)

    def tcp_errors_pass(self, it: Error):
        if it.is_good(IN, it.is_known, it.pair.departure or it.mapping):
            self.judge(it.pair.departure is not None, it.pair, live=it.live)

    def dropped(self, it: Error | End, is_one: bool):
        """Errors of a kind must be dropped. The gateway could have failed on each error of this kind, but that shows
        something only where good errors pass."""
        if type(it) is End:
            self.needs = "" if it.rows["5508 REQ-4"].met else "good errors that go in (here none does)"
        elif is_one:
            self.judge(not it.pair.departure, it.pair, live=it.live)

    def wrong_errors_end(self, it: Error | End):
        self.dropped(it, type(it) is Error and it.pair.arrival.sum_ok is False and it.mapping)

    def wrong_quotations_end(self, it: Error | End):
        self.dropped(it, type(it) is Error and it.pair.arrival.sum_ok is not False and it.is_bad and it.mapping)

    def foreign_errors_end(self, it: Error | End):
        is_one = type(it) is Error and it.is_good(IN, not it.is_known)
        if is_one and it.pair.departure:
            self.breaks(it.pair, is_absence=True)
        else:
            self.dropped(it, is_one)

    def errors_come_in(self, it: Error):
        if it.is_good(IN, it.host):
            self.judge(it.pair.departure.destination[0] == it.host.inside[0], it.pair)
        elif it.is_good(IN, it.mapping, not it.pair.departure):
            self.breaks(it.pair, live=it.live)

    def quotes_inside(self, it: Error):
        if it.is_good(IN, it.pair.departure, it.mapping):
            self.judge(it.host is not None, it.mapping.last_pair, it.pair)

    def type_stays(self, it: Error):
        came, left = it.pair.arrival, it.pair.departure
        if left and not it.is_bad:
            self.judge((came.type, came.code) == (left.type, left.code), it.pair)

    def errors_go_out(self, it: Error):
        if it.is_good(OUT, it.pair.departure or it.mapping):
            self.judge(it.pair.departure is not None, it.pair, live=it.live)

    def quotes_outside(self, it: Error):
        if it.is_good(OUT, it.pair.departure, it.mapping):
            self.judge(it.is_right, it.mapping.last_pair, it.pair)

    def errors_have_own_source(self, it: Error):
        if it.is_good(OUT, it.pair.departure, it.mapping):
            self.judge(it.is_own_source, it.pair)

    def inner_sums(self, it: Error):
        """The checksums of the quoted datagram must be right: that of IP and, where the whole datagram is quoted, that
        of its transport. The gateway could have failed on each error that it translated."""
        if it.pair.departure and not it.is_bad:
            came, left = it.pair.arrival.quoted, it.pair.departure.quoted
            self.judge(left.header_ok and not (came.sum_ok is True and left.sum_ok is False), it.pair)

    # REWRITING

    def forwarded(self, it: Pair | Unforwarded):
        if type(it) is Unforwarded:
            if not it.answer:
                self.breaks(it.pair)
        elif it.way is OUT and it.departure:
            self.meets(it)

    def no_leak(self, it: UnmatchedDeparture | End):
        if type(it) is UnmatchedDeparture:
            self.breaks(it)
            return
        if departures := it.rows["3022 forward"].met:
            self.meets(f"{departures} departures")
        self.needs = "a capture of each interface" if it.plan.is_one_file else ""

    def header_sum(self, it: Pair):
        if it.departure:
            self.judge(it.departure.header_ok, it)

    def sums_stay_right(self, it: Pair | End):
        """A right checksum must stay right. The gateway could have failed on each packet whose checksum was not left to
        the network card."""
        if type(it) is End:
            if count := self.memory["offloaded"]:
                self.note = f"{count} departures have no checksum, or left it to the card: not judged"
        elif it.how is SURE:
            came, left = it.arrival, it.departure
            if left.is_offloaded or left.kind == OF_UDP and left.sum_ok is None and came.sum_ok is not None:
                self.memory["offloaded"] += self.weight
            elif came.sum_ok is True and left.sum_ok is not None:
                self.judge(left.sum_ok, it)

    def sums_stay_wrong(self, it: Pair):
        """A wrong checksum must stay wrong, since a checksum is updated by the difference. The gateway could have
        failed where a packet with a wrong checksum left."""
        if it.arrival.sum_ok is False and it.how is SURE and it.arrival.kind in (OF_UDP, OF_TCP):
            if not it.departure.is_offloaded and it.departure.sum_ok is not None:
                self.judge(it.departure.sum_ok is False, it)

    def no_sum_stays(self, it: Pair):
        came, left = it.arrival, it.departure
        if came.sum_ok is None and it.how is SURE and not came.is_offloaded and not left.is_offloaded:
            self.judge(left.sum_ok is not False, it)

    def content_stays(self, it: Pair | End):
        """All of a packet must stay but addresses, ports, identifiers and checksums. The gateway could have failed on
        each packet that left."""
        if type(it) is End:
            if self.memory["fragmentation"]:
                self.note = f"DF differs in {self.memory['fragmentation']}"
        elif it.how is ALTERED:
            self.breaks(it, is_absence=True)
        elif it.how is SURE and it.arrival.kind != ERROR:
            if it.arrival.may_fragment != it.departure.may_fragment:
                self.memory["fragmentation"] += self.weight
            self.judge(it.arrival.payload == it.departure.payload, it)

    def ttl_goes_down(self, it: Pair | End):
        if type(it) is End:
            self.note = ", ".join(f"{-step:+d}: {count}" for step, count in sorted(self.memory.items()))
            self.note += " (mixed)" if self.met and self.broken else ""
        elif it.how is SURE and it.way is not HAIRPIN:
            step = it.arrival.ttl - it.departure.ttl
            self.memory[step] += self.weight
            self.judge(step >= 1, it)

    def no_application_gateway(self, it: Pair):
        """A payload must stay, also of the protocols that application gateways know. The gateway could have failed
        where a packet of such a protocol left with a payload."""
        if it.how is ALTERED:
            self.breaks(it, is_absence=True)
        elif it.arrival.destination[1] in GATEWAY_PORTS and it.arrival.payload and it.how is SURE:
            self.meets(it)

    def too_large_is_answered(self, it: TooLarge | End):
        """A packet that is too large must be answered. The gateway could have failed where a packet did not leave that
        is larger than all that left, and that the link inside can carry."""
        if type(it) is End:
            for pair, in self.later["large"]:
                if 0 < it.gateway.largest < pair.arrival.length <= ETHERNET_MTU:
                    self.breaks(pair)
        elif it.answer:
            self.meets(it.pair, f"answered by {it.answer.packet.name}")
        else:
            self.keep("large", it.pair)

    def pieces_pass(self, it: Fragmented):
        came = it.pair.arrival
        if came.is_in_order == (self.word == "in"):
            made = [f"made of them: {packet.name} ({packet.text()})" for packet in it.pair.made]
            self.judge(it.pair.departure is not None, it.pair, f"in the pieces {', '.join(came.pieces)}", *made)


@dataclasses.dataclass(frozen=True)
class Requirement:
    """A requirement of an RFC. Its rule is a method of its row, and judges moments of the kinds that the signature
    names."""

    name: str
    level: str
    section: str
    asks: str
    shown_by: str
    rule: str
    protocol: int | None
    is_of_segments: bool

    @property
    def rfc(self) -> int:
        return int(self.name.split()[0])

    @property
    def method(self) -> str:
        return self.rule.split()[0]

    @property
    def moments(self) -> tuple:
        kind = typing.get_type_hints(getattr(Rules, self.method))["it"]
        return typing.get_args(kind) or (kind,)


NUMBERS = {name: number for number, name in PROTOCOLS.items()}
with open(pathlib.Path(__file__).with_name("requirements.csv"), encoding="utf-8", newline="") as file:
    REQUIREMENTS = [Requirement(*words, NUMBERS.get(protocol), bool(is_of_segments))
                    for *words, protocol, is_of_segments in list(csv.reader(file))[1:]]
