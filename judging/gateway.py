"""What pairs show of a gateway: its mappings, how long they live and whom they let in. What does not follow from the
least timers that the RFCs allow depends on the gateway's own timers and filter, which are known at the end."""
import collections
import heapq
import itertools

from judging.lifetimes import ADDRESS, ADDRESS_PORT, INDEPENDENT, SOON, SURELY, Filter, Lifetimes
from judging.mappings import LEAST, LONGEST, MARGIN, Mapping, Session
from judging.moments import AFTER_ERROR, ELSEWHERE, RESET, SEGMENT, SIMULTANEOUS, STRANGER, SUDDEN, TIMER, UNREFRESHED
from judging.moments import Departure, Error, Fragmentable, Fragmented, Hairpin, Incoming, Neighbours, Refreshed
from judging.moments import TooLarge, Unforwarded, Unsolicited, Waiting
from judging.packets import ACK, ERROR, FIN, ICMP, OF_TCP, OF_UDP, PROTOCOLS, QUERIES, QUERY, REPLIES, RST, SYN, TCP
from judging.packets import UDP, Endpoint, Packet, Plan, Prefixes
from judging.pairing import ALTERED, GATEWAY_PORTS, HAIRPIN, IN, LIKELY, OUT, SURE, Pair, UnmatchedDeparture
from reading.captures import SECOND

# a packet that comes in after a longer time says nothing about a timer
MOST_LIFE = LONGEST + MARGIN
# mappings that are over are looked for each time that so much time has passed
SWEEP = 600 * SECOND
# so many refusals are kept whose reason is known only at the end
MOST_UNDECIDED = 256
# so many endpoints of the gateway itself are kept
MOST_ENDS = 10_000
# so many mappings of a number that have ended are kept
MOST_ENDED = 4
# of moments that are alike so many are told, as many as the occasions that are kept as evidence
MOST_KEPT = 5
# a port below this one must stay below it (RFC 4787, REQ-3a)
LEAST_HIGH_PORT = 1024
# every host and every link takes a datagram of this length whole (RFC 791)
LEAST_MTU = 576


class Gateway:
    """What is known of a gateway so far. It tells a judge each moment in which a requirement can be met or broken."""

    def __init__(self, prefixes: Prefixes, plan: Plan, judge):
        self.prefixes, self.pool, self.ends_connections = prefixes, plan.pool, plan.ends_connections
        # the judge counts the moments that are alike
        self.judge, self.tell, self.alike = judge, judge.tell, judge.alike
        # these are whether enough neighbours with one address were told, and who follows what comes from outside
        self.has_neighbours, self.follow = False, None
        # these are the mappings of each protocol by their inside and external endpoints, and the last mapping of each
        # host by its protocol
        self.mappings, self.of_host = collections.defaultdict(dict), {}
        self.lifetimes, self.filters = Lifetimes(), {UDP: Filter(), TCP: Filter()}
        # these are the moments that wait for an answer of the gateway's own, by the time at which they have waited long
        # enough, and the refusals whose reason is known only at the end
        self.waiting, self.undecided, self.order = [], [], itertools.count()
        self.likely = self.now = self.swept = self.largest = self.errors_of_remotes = self.lost = 0
        # these are endpoints from which packets left without an arrival, and endpoints of nobody to which packets came
        self.alone, self.nobodys = collections.Counter(), set()

    def take(self, items: list[Pair | UnmatchedDeparture]):
        """Takes pairs, and departures without an arrival, in order of time."""
        for item in items:
            if item.time > self.now:
                self.now = item.time
            if self.waiting and self.waiting[0][0] < self.now:
                self.end_waits(self.now)
            if type(item) is UnmatchedDeparture:
                self.take_alone(item)
            elif item.how is LIKELY:
                self.doubt(item)
            else:
                if self.now - self.swept > SWEEP:
                    self.sweep()
                self.take_pair(item)

    def has_enough(self, key: object) -> bool:
        """Returns whether enough moments with a key were told. One more is then only counted."""
        group = self.alike.get(key)
        if group is None or group[0] < MOST_KEPT:
            return False
        group[0] += 1
        return True

    def take_pair(self, pair: Pair):
        came, left, way = pair.arrival, pair.departure, pair.way
        key = left and alike(pair, came, left)
        if not self.has_enough(key):
            self.tell(pair, key)
        if came.pieces:
            self.tell(Fragmented(pair))
        if way is OUT:
            if came.may_fragment and came.protocol == UDP and pair.how is SURE:
                self.tell(Fragmentable(pair))
            if left:
                if came.length > self.largest and not came.pieces and not left.pieces:
                    self.largest = came.length
            elif not came.may_fragment and came.length > LEAST_MTU and came.kind in (OF_UDP, OF_TCP):
                self.wait(TooLarge(pair))
        # a packet that was cut may have a wrong checksum, for which the gateway dropped it
        if pair.how is ALTERED or came.is_cut and not left:
            return
        if came.kind in (OF_TCP, OF_UDP, QUERY):
            (self.take_out if way is OUT else self.take_in if way is IN else self.take_hairpin)(pair, came, left)
        elif came.kind is ERROR:
            self.take_error(pair)

    def with_end(self, protocol: int, end: Endpoint) -> tuple[Mapping, ...]:
        """Returns the mappings with an inside or external endpoint."""
        return self.mappings[protocol].get(end, ())

    def add(self, mapping: Mapping):
        """Adds a mapping, which takes the place of old mappings with its number. Some of these are kept."""
        # a tuple that is added to an empty tuple is itself, and takes no more memory
        table, alone = self.mappings[mapping.protocol], (mapping,)
        table[mapping.inside] = table.get(mapping.inside, ()) + alone
        found = table.get(mapping.external, ())
        if len(found) >= MOST_ENDED:
            found = tuple(it for it in found if it.must_live(mapping.first)) or found[-1:]
        table[mapping.external] = found + alone

    def doubt(self, pair: Pair):
        """Marks the mappings to which a packet may belong as unsure, since several hosts sent the same."""
        self.likely += 1
        came, left = pair.arrival, pair.departure
        for end in (came.destination, left.destination) if pair.way is IN else (came.source, left.source):
            for it in self.with_end(came.protocol, end):
                it.is_unsure = True

    def take_alone(self, item: UnmatchedDeparture):
        """Takes a packet that left without having arrived."""
        packet = item.packet
        if item.is_leak:
            self.tell(item)
            return
        for *_, it in self.waiting:
            if not it.answer and it.is_answer(packet):
                it.answer = item
        if packet.kind == OF_TCP and (packet.flags & RST or self.ends_connections):
            return
        if packet.kind not in (OF_UDP, OF_TCP, QUERY):
            return
        end = packet.protocol, packet.source
        is_own = packet.side == "outside" and not any(it.must_live(item.time) for it in self.with_end(*end))
        if is_own and len(self.alone) < MOST_ENDS:
            self.alone[end] += packet.kind != QUERY or packet.type not in REPLIES
        else:
            self.lost += 1

    @property
    def lost_arrivals(self) -> int:
        """Returns how many packets left whose arrival is not in the captures. A packet that leaves from an endpoint of
        the gateway itself, to which packets come that go nowhere, does not count."""
        return self.lost + sum(count for end, count in self.alone.items() if end not in self.nobodys)

    def wait(self, moment: Waiting):
        """Lets a moment wait for an answer of the gateway's own."""
        heapq.heappush(self.waiting, (moment.pair.time + moment.span, next(self.order), moment))

    def end_waits(self, now: int):
        """Tells the moments that have waited long enough for an answer."""
        while self.waiting and self.waiting[0][0] < now:
            self.tell(heapq.heappop(self.waiting)[2])

    def end(self):
        """Tells what is still open once the captures end, and finds the reasons of refusals."""
        for *_, it in self.waiting:
            it.span = min(it.span, self.now - it.pair.time)
        self.end_waits(self.now + LONGEST)
        for *_, incoming in sorted(self.undecided, key=lambda it: it[:2], reverse=True):
            incoming.cause = self.cause_at_end(incoming)
            if incoming.cause == TIMER:
                self.lifetimes.lose(incoming)
            self.tell(incoming)

    def sweep(self):
        """Forgets mappings that have been over for a long time."""
        now = self.swept = self.now
        for protocol, found in self.mappings.items():
            self.mappings[protocol] = {
                end: them for end, them in found.items()
                if not (them[-1].is_over(now) and all(it.is_over(now) for it in them))}
        for host, found in list(self.of_host.items()):
            self.of_host[host] = live = {protocol: it for protocol, it in found.items() if not it.is_over(now)}
            if not live:
                del self.of_host[host]

    # OUT

    def take_out(self, pair: Pair, came: Packet, left: Packet | None):
        if came.kind is QUERY and came.type not in QUERIES:
            return
        if left:
            self.leave(pair, (came.destination[0], 0) if came.kind is QUERY else came.destination)
        elif came.is_clean and not came.pieces and (came.may_fragment or came.length <= LEAST_MTU):
            if not (came.protocol == TCP and self.ends_connections):
                self.wait(Unforwarded(pair))

    def leave(self, pair: Pair, remote: Endpoint):
        """Takes a packet that left from an external endpoint, which may be a hairpin."""
        protocol, time, external = pair.protocol, pair.time, pair.departure.source
        mine, mapping, is_usual = self.mappings[protocol].get(pair.arrival.source, ()), None, False
        if len(mine) == 1 and mine[0].external == external:
            mapping = mine[0]
            is_usual = remote in mapping.remotes and mapping.must_live(time)
        elif mine:
            mapping = next((it for it in mine if it.external == external), None)
        if not is_usual and not (mapping and mapping.is_unsure):
            mapping = self.leave_anew(pair, remote, mapping, mine)
        if protocol == TCP and not mapping.is_unsure:
            self.session_out(mapping, pair, remote)
        mapping.use(pair, remote)
        mapping.last_out = mapping.remotes[remote] = time
        mapping.refused = None
        mapping.sent += 1

    def leave_anew(self, pair: Pair, remote: Endpoint, mapping: Mapping | None, mine: tuple[Mapping, ...]) -> Mapping:
        """Tells of a packet that left by a mapping that is new, or to a new remote, and returns its mapping."""
        protocol, time, inside, external = pair.protocol, pair.time, pair.arrival.source, pair.departure.source
        holders, others, foreign = self.mappings[protocol].get(external, ()), (), ()
        if mine:
            others = [it for it in mine if it.external != external and not it.is_unsure and it.must_live(time)]
        if holders:
            foreign = [it for it in holders if it.inside != inside and not it.is_unsure]
        is_new = mapping is None or not mapping.must_live(time)
        is_new_remote = mapping is None or remote not in mapping.remotes
        # a number that is kept, and that nobody else has, says as much as any other such number
        key = None
        if not others and not foreign and external[1] == inside[1]:
            key = Departure, protocol, is_new, is_new_remote, inside[1] < LEAST_HIGH_PORT
        if not self.has_enough(key):
            live = [it for it in foreign if it.must_live(time)]
            it = Departure(pair, inside, external, remote, mapping, is_new, is_new_remote, others, live)
            if is_new and not key:
                self.add_rivals(it, foreign)
            if others:
                self.lose_others(it)
            self.tell(it, key)
        if is_new and len(self.pool) > 1:
            self.tell_neighbours(pair, inside, external[0])
        if mapping is None:
            mapping = Mapping(inside, external, pair)
            self.add(mapping)
        elif is_new:
            mapping.begin(pair)
        if is_new:
            self.of_host.setdefault(inside[0], {})[protocol] = mapping
        return mapping

    def add_rivals(self, it: Departure, foreign: list[Mapping]):
        """Adds to a departure by a new mapping which mapping has the number that the endpoint did not get, and which
        mapping had the number that it got."""
        time = it.pair.time
        if it.external[1] != it.inside[1]:
            for other in self.with_end(it.protocol, (it.external[0], it.inside[1])):
                is_foreign = other.inside != it.inside and not other.is_unsure
                if is_foreign and it.remote not in other.remotes and other.must_live(time):
                    it.rival = other
                    break
        if foreign:
            it.before = max((o for o in foreign if o not in it.holders), key=lambda o: o.last_out, default=None)

    def tell_neighbours(self, pair: Pair, inside: Endpoint, address: int):
        """Tells which other mappings live of a host from which a packet left by a new mapping."""
        found, siblings, cousins = self.of_host.get(inside[0], {}), (), ()
        for protocol in PROTOCOLS:
            other = found.get(protocol)
            if not other or self.has_neighbours and other.external[0] == address or not other.must_live(pair.time):
                continue
            if protocol != pair.protocol:
                cousins += (other,)
            elif other.inside != inside:
                siblings = (other,)
        if siblings or cousins:
            self.tell(Neighbours(pair, address, siblings, cousins))
            self.has_neighbours = self.judge.has_shown(Neighbours)

    def lose_others(self, it: Departure):
        """Takes it as a refusal if a remote sees another number than before: the mapping with the former number was
        gone, or the endpoint never had the same mapping for all remotes."""
        for o in () if it.protocol == TCP and self.ends_connections else it.others:
            newer = it.mapping is None or it.mapping.last_any < o.last_any
            if it.remote in o.remotes and newer and (it.pair.time - o.last_any >= SOON or o.error):
                session = o.sessions.get(it.remote)
                gap = it.pair.time - (session.last if session else o.remotes[it.remote])
                self.refuse(Incoming(it.pair, o, session, o.kind_to(it.remote), gap, gap))

    def session_out(self, mapping: Mapping, pair: Pair, remote: Endpoint):
        came, session = pair.arrival, mapping.sessions.get(remote)
        flags = came.flags
        if session is None or flags & (SYN | ACK) == SYN and session.is_closing:
            session = mapping.sessions[remote] = Session()
        if session.reset and pair.way is OUT and not flags & (SYN | RST):
            self.tell(Incoming(pair, mapping, session, session.kind, is_let_in=True, cause=RESET))
        session.last = pair.time
        if flags & (SYN | FIN | RST):
            session.take(pair, True)
        if flags & ACK:
            session.acknowledged = came.acknowledged

    # IN

    def take_in(self, pair: Pair, came: Packet, left: Packet | None):
        if not (came.kind is QUERY and came.type in QUERIES or came.pieces) and came.is_clean:
            self.come(pair, (came.source[0], 0) if came.kind is QUERY else came.source, left and left.destination)

    def come(self, pair: Pair, remote: Endpoint, target: Endpoint | None):
        """Takes a packet to an external endpoint, from outside or as a hairpin. `target` is the inside endpoint to
        which it went, if it went to one."""
        came, time, mapping = pair.arrival, pair.time, None
        holders = self.mappings[came.protocol].get(came.destination, ())
        if came.protocol == TCP and self.ends_connections:
            if came.is_syn and not holders:
                self.wait(Unsolicited(pair))
            return
        for it in holders:
            if it.is_unsure:
                return
            if it.inside == target:
                mapping = it
        if mapping is None or not mapping.must_live(time):
            live = [it for it in holders if it.must_live(time)]
            holder = next((it for it in live if remote in it.remotes), None)
            if target and (holder or live and not mapping):
                self.tell(Incoming(pair, holder or live[0], is_known=bool(holder), cause=ELSEWHERE))
                return
            mapping = mapping or holder or (live or holders or (None,))[-1]
        if mapping is None:
            self.come_to_nobody(pair, target)
        else:
            self.come_to(pair, mapping, remote, target)

    def come_to_nobody(self, pair: Pair, target: Endpoint | None):
        """Takes a packet to a number that nobody has. If it goes in, the number is of a redirect, or of a mapping that
        was there before the captures."""
        if target:
            mapping = Mapping(target, pair.arrival.destination, pair, is_unsure=True)
            mapping.use(pair, pair.arrival.source)
            self.add(mapping)
            return
        if len(self.nobodys) < MOST_ENDS:
            self.nobodys.add((pair.protocol, pair.arrival.destination))
        if pair.arrival.is_syn:
            self.wait(Unsolicited(pair))

    def come_to(self, pair: Pair, mapping: Mapping, remote: Endpoint, target: Endpoint | None):
        """Takes a packet to the external endpoint of a mapping."""
        time, came, last = pair.time, pair.arrival, mapping.remotes.get(remote)
        protocol, session, is_known = mapping.protocol, mapping.sessions.get(remote), last is not None
        if self.follow:
            self.follow(pair, mapping, is_known)
        quiet = time - (session.last if session else mapping.last_any)
        gap = time - (session.last if session else last if is_known else mapping.last_out)
        kind, is_usual = session.kind if session else mapping.kind_to(remote), False
        if is_known and target:
            self.note_life(pair, mapping, kind, gap, quiet)
            # no rule tells apart the mappings of one protocol to which nothing happened
            is_usual = not (mapping.error or mapping.refused) and (
                protocol != TCP or session and not session.reset and not came.is_syn)
        if not (is_usual and self.has_enough(protocol)):
            it = Incoming(pair, mapping, session, kind, gap, quiet, is_known, bool(target))
            if not target and is_known:
                self.refuse(it)
                return
            if not is_known:
                it.cause = STRANGER
                if protocol in self.filters and not any(remote[0] == tried[0] for tried in mapping.tried):
                    self.note_filter(it, remote)
            self.tell(it, protocol if is_usual else None)
        if not target:
            mapping.refused = pair
            return
        mapping.use(pair, remote)
        mapping.received += 1
        if protocol == TCP:
            if not session:
                session = mapping.sessions[remote] = Session()
            session.last = time
            if came.flags & (SYN | FIN | RST):
                session.take(pair, False)

    def note_life(self, pair: Pair, mapping: Mapping, kind: str, gap: int, quiet: int):
        """Notes how long a mapping lived, since a packet of a known remote came in by it."""
        if kind == OF_UDP and mapping.sent > 1:
            self.tell(Refreshed(pair, mapping))
        elif kind == OF_UDP and not mapping.received and gap < MOST_LIFE:
            self.lifetimes.alive_alone = max(self.lifetimes.alive_alone, quiet)
        if gap < MOST_LIFE and quiet > self.lifetimes.longest(kind):
            self.lifetimes.alive[kind] = (quiet, mapping.last_pair, pair)

    def note_filter(self, it: Incoming, remote: Endpoint):
        """Notes whether a stranger was let in by a mapping that must be live."""
        is_syn, (kind, age) = it.pair.arrival.is_syn, it.mapping.age(it.pair.time)
        if it.protocol == TCP and not is_syn or not it.is_let_in and age > max(self.lifetimes.longest(kind), SURELY):
            return
        which = "port" if any(address == remote[0] for address, _ in it.mapping.remotes) else "address"
        self.filters[it.protocol].note(which, it.is_let_in, it.mapping.last_pair, it.pair)
        if is_syn and not it.is_let_in:
            self.wait(Unsolicited(it.pair))

    def refuse(self, it: Incoming):
        """Finds why a packet of a known remote did not come in, or keeps the question until the end."""
        session, came, is_soon, it.holder = it.session, it.pair.arrival, it.gap < SOON, it.mapping.last_pair
        of_segment = session if it.pair.way is not OUT else None
        if of_segment and session.acknowledged is not None and not came.flags & SYN and it.pair.way is IN:
            if (came.sequence - session.acknowledged) & 0xFFFF_FFFF > 0xFFFF:
                # the segment is out of the window, and a gateway may drop it
                return
        if it.gap >= LEAST[it.kind]:
            it.cause = TIMER
        elif of_segment and (session.met or came.is_syn and not session.opened_in):
            session.met = True
            if not is_soon:
                return
            it.cause = SIMULTANEOUS
        elif of_segment and is_soon and not session.is_closing and not it.mapping.error:
            it.cause = SEGMENT
        elif session and session.reset:
            it.cause = RESET
        elif it.mapping.error:
            it.cause = AFTER_ERROR
        else:
            it.cause = SUDDEN if is_soon else UNREFRESHED if is_sent_alone(it.mapping) else TIMER
        if is_soon or it.cause in (RESET, TIMER):
            if it.cause == TIMER:
                self.lifetimes.lose(it)
            self.tell(it)
        else:
            heapq.heappush(self.undecided, (-it.gap, next(self.order), it))
            if len(self.undecided) > MOST_UNDECIDED:
                heapq.heappop(self.undecided)

    def cause_at_end(self, it: Incoming) -> str:
        """Returns why a packet of a known remote did not come in, by the lifetimes that were seen until the end. The
        cause is an error, or a packet out that did not refresh, if other mappings lived as long without that."""
        seen = {AFTER_ERROR: self.lifetimes.longest(it.kind), UNREFRESHED: self.lifetimes.alive_alone}
        return it.cause if it.gap <= seen[it.cause] else TIMER

    # HAIRPINS AND ERRORS

    def take_hairpin(self, pair: Pair, came: Packet, left: Packet | None):
        time = pair.time
        if came.kind == QUERY or not came.is_clean or came.protocol == TCP and self.ends_connections:
            return
        owner = next((it for it in self.with_end(came.protocol, came.destination) if it.must_live(time)), None)
        if not owner or owner.is_unsure:
            return
        senders = self.with_end(came.protocol, came.source)
        for it in senders:
            it.tried = {*it.tried, came.destination}
        mine = [it for it in senders if it.must_live(time)]
        is_untranslated = bool(left) and left.source[0] in self.prefixes
        if left or came.protocol != TCP or came.is_syn:
            self.tell(Hairpin(pair, owner, mine, open_for(senders, owner), is_untranslated))
        if left and not is_untranslated:
            self.leave(pair, came.destination)
            self.come(pair, left.source, left.destination)

    def take_error(self, pair: Pair):
        came, left, quoted, time = pair.arrival, pair.departure, pair.arrival.quoted, pair.time
        if not came.header_ok or quoted.protocol == TCP and self.ends_connections:
            return
        near, far = (quoted.source, quoted.destination) if pair.way is IN else (quoted.destination, quoted.source)
        far = (far[0], 0) if quoted.protocol == ICMP else far
        found = self.with_end(quoted.protocol, near)
        with_it = [it for it in found if far in it.remotes]
        live = next((it for it in with_it if it.must_live(time)), None)
        is_bad = came.sum_ok is False or not quoted.header_ok
        it = Error(pair, live, bool(found), is_bad, came.source[0] == far[0])
        if pair.way is HAIRPIN:
            if not self.take_turned_error(it, found):
                return
        elif pair.way is IN and left:
            it.host = next((o for o in with_it if o.inside == left.quoted.source), None)
            it.mapping = it.host or live
            self.errors_of_remotes += it.is_from_remote and not is_bad
        elif left and live:
            it.is_right = any(o.external == left.quoted.destination for o in with_it)
            it.is_own_source = left.source[0] in self.pool
        if self.follow and pair.way is IN and with_it:
            self.follow(pair, it.mapping or with_it[-1], True)
        self.tell(it)
        noted = it.host if left else live if quoted.protocol == UDP and it.is_from_remote else None
        if pair.way is IN and noted and not is_bad:
            noted.error = pair

    def take_turned_error(self, it: Error, senders: list[Mapping]):
        """Finds the mapping of an error about a hairpin, and returns whether the error is about a hairpin."""
        quoted, left = it.pair.arrival.quoted, it.pair.departure
        owners = self.with_end(quoted.protocol, quoted.source)
        it.mapping = next((o for o in owners if o.must_live(it.pair.time)), None)
        if left and it.mapping:
            ends = (left.quoted.source, left.destination[0]) == (it.mapping.inside, it.mapping.inside[0])
            it.is_right = ends and any(o.external == left.quoted.destination for o in senders)
        return senders and it.mapping


def alike(pair: Pair, came: Packet, left: Packet) -> tuple:
    """Returns the key that all pairs have that no rule about pairs can tell from this pair."""
    return (
        pair.way, pair.how, came.kind, came.protocol, came.sum_ok, left.sum_ok, came.is_offloaded, left.is_offloaded,
        left.header_ok, came.ttl - left.ttl, came.may_fragment == left.may_fragment, came.payload == left.payload,
        came.payload > 0 and came.destination[1] in GATEWAY_PORTS)


def open_for(senders: list[Mapping], owner: Mapping) -> tuple:
    """Returns the kinds of filtering under which the mapping of an owner lets in one of the senders."""
    if any(it.external in owner.remotes or it.external in owner.tried for it in senders):
        return INDEPENDENT, ADDRESS, ADDRESS_PORT, None
    if any(it.external[0] == address for it in senders for address, _ in owner.remotes):
        return INDEPENDENT, ADDRESS
    return (INDEPENDENT,)


def is_sent_alone(mapping: Mapping) -> bool:
    """Returns whether only packets out can have kept a mapping alive."""
    return mapping.protocol == UDP and mapping.sent > 1 and not mapping.received
