"""Traffic that shows what a translator does: flows by their steps, and scenarios of inside and outside hosts, each a
function, or a generator that yields how long it waits, in seconds. A device takes a packet at a side, and gives what
came out of it."""
import heapq
import itertools

import craft
from judging.packets import ACK, FIN, QUERY, RST, SIDES, SYN, TCP, UDP, dotted, number_of, packet_of
from reading.captures import SECOND

REMOTES = [number_of(f"198.51.100.{it}") for it in range(1, 60)]
ROUTER = number_of("198.51.100.200")
DNS, WEB = 53, 80
# Open vSwitch drops pieces below 1,200 bytes that are not the last (ipf-set-min-frag), and a link takes 1,400
CUT, LARGE = 1280, 1472
BITS = {"S": SYN, "A": ACK, "F": FIN, "R": RST}
OPEN = ">S <SA >A"
QUIET = (20, 28, 45, 70, 100, 117, 290, 310, 700)
KEPT = [f"{wait} > " * times + f"{wait / 2}" for wait, times in ((15, 4), (24, 3), (100, 2), (115, 6))]
# flows: the protocol, host, port and remote, the steps, and what {} stands for: each is a flow of its own, of the next
# host and port. > is a packet out and < one in, with the flags of TCP, and + with data; a number is a pause; = sends
# the last SYNs again
FLOWS = {
    "simultaneous_open": (TCP, 43, 6002, 9, ">S 0.2 <S = >SA <SA >A+ <A+", ()),
    "quiet_udp": (UDP, 60, 6700, 16, "> {} <", QUIET),
    "quiet_stream": (UDP, 70, 6720, 16, "> < > 3 < > {} <", QUIET),
    "kept_udp": (UDP, 80, 6800, 17, "> {} <", KEPT),
    "kept_from_outside": (UDP, 84, 6850, 18, ">" + " 100 <" * 6, ()),
    "quiet_syn": (TCP, 100, 7000, 23, ">S {} <SA", (20, 50, 110, 130, 236, 250)),
    "quiet_connection": (TCP, 110, 7100, 24, f"{OPEN} <A+ >A+ {{}} <A+ >A", (60, 250, 7300, 7435, 7450)),
    "after_reset": (TCP, 116, 7200, 25, f"{OPEN} {{}} <A", ("<RA 0.5", ">RA 8", "<RA 15", ">RA 100", "<RA 230")),
    "after_ends": (TCP, 122, 7300, 26, f"{OPEN} >FA <FA >A {{}} <FA", (100, 130, 230)),
}


class Probe:
    """Sends packets through a device, and finds what they became."""

    def __init__(self, device):
        self.device, self.host, self.tags = device, device.host, itertools.count(1)

    def data(self):
        return b"probe %06d" % next(self.tags)

    def sent(self, side, packet, is_it):
        """Sends a packet at a side, and returns what left at the other one, or turned back, if it is it."""
        def found(at, data):
            left = packet_of(data, at, 0)
            return left if left and is_it(left) else None
        return self.device.send(side, packet, found)

    def out(self, packet):
        """Sends from inside, and returns the external endpoint, or None."""
        came = packet_of(packet, "inside", 0)
        def is_it(left):
            has_end = came.kind == QUERY or left.destination == came.destination
            ways = (left.side, left.destination[0], left.kind), ("outside", came.destination[0], came.kind)
            return ways[0] == ways[1] and has_end and left.content == came.content
        left = self.sent("inside", packet, is_it)
        return left and left.source

    def in_(self, packet):
        """Sends from outside, and returns what came in."""
        came = packet_of(packet, "outside", 0)
        def is_it(left):
            return (left.side, left.source[0], left.content) == ("inside", came.source[0], came.content)
        return self.sent("outside", packet, is_it)

    def turn(self, packet):
        """Sends from inside to an external endpoint, and returns what came back in."""
        came = packet_of(packet, "inside", 0)
        def is_it(left):
            return (left.side, left.content) == ("inside", came.content) and left.destination != came.destination
        return self.sent("inside", packet, is_it)

    def throw(self, side, *packets):
        """Sends packets without looking for what they become."""
        for packet in packets:
            self.device.send(side, packet, None)

    def udp(self, inside, remote, data=None, **more):
        return self.out(craft.udp(inside, remote, data or self.data(), **more))

    def reply(self, remote, external, data=None, **more):
        return external and self.in_(craft.udp(remote, external, data or self.data(), **more))

    def opened(self, host, port, remote, remote_port=WEB):
        """Opens a connection, and returns it."""
        return Flow(self, TCP, (self.host(host), port), (REMOTES[remote], remote_port)).does(OPEN)


class Flow:
    """A flow of UDP or TCP: what one side sends acknowledges what it got, whatever numbers the gateway makes of it."""

    def __init__(self, probe, protocol, inside, remote):
        self.probe, self.protocol, self.inside, self.remote, self.external = probe, protocol, inside, remote, None
        # the next number of each side, and that of the other one, as it is seen there
        self.next = {"inside": 1000 * inside[1] + 77, "outside": 5_000_000 + inside[1]}
        self.seen = dict.fromkeys(SIDES, 0)

    def does(self, words):
        """Does steps without a pause, and returns itself."""
        for word in words.split():
            self.step(word)
        return self

    def steps(self, words):
        """Does steps, and yields the pauses."""
        for word in words.split():
            if word[0] in "<>=":
                self.step(word)
            else:
                yield float(word)

    def step(self, word):
        flags, data = sum(BITS.get(it, 0) for it in word[1:]), self.probe.data() if "+" in word else b""
        if word == "=":
            self.next = {side: number - 1 for side, number in self.next.items()}
        elif self.protocol == TCP:
            self.segment("inside" if word[0] == ">" else "outside", flags, data)
        elif word[0] == ">":
            self.external = self.probe.udp(self.inside, self.remote) or self.external
        else:
            self.probe.reply(self.remote, self.external)

    def segment(self, side, flags, data):
        is_out, other = side == "inside", SIDES[side == "inside"]
        ends = (self.inside, self.remote) if is_out else (self.remote, self.external)
        if not is_out and not self.external:
            return
        def is_it(left):
            if left.side != other or (left.protocol, left.flags & ~8, left.payload) != (TCP, flags, len(data)):
                return False
            if is_out:
                return left.destination == self.remote
            return (left.source, left.destination[1]) == (self.remote, self.inside[1])
        packet = craft.tcp(*ends, flags, self.next[side], self.seen[side] if flags & ACK else 0, data)
        left = self.probe.sent(side, packet, is_it)
        self.next[side] += len(data) + bool(flags & (SYN | FIN))
        if left:
            self.seen[other] = left.sequence + left.payload + bool(left.flags & (SYN | FIN))
            self.external = left.source if is_out else self.external


def mapping(probe):
    for number, port in ((1, 40000), (2, 40001), (3, 600)):
        for remote in ((REMOTES[0], DNS), (REMOTES[1], DNS), (REMOTES[0], 54), (REMOTES[0], DNS)):
            probe.udp((probe.host(number), port), remote)
    for port in (40002, 40003):
        probe.udp((probe.host(1), port), (REMOTES[0], DNS))


def clash(probe):
    first, second, third = ((probe.host(it), 5000) for it in (10, 11, 12))
    a, b, c = ((REMOTES[it], DNS) for it in (0, 2, 3))
    probe.udp(first, a)
    external = probe.udp(second, a)
    for inside, remote in ((second, b), (third, b), (third, a), (first, a), (second, a), (second, c)):
        probe.udp(inside, remote)
    probe.reply(a, external)
    for port, many in ((5001, 14), (500, 4), (701, 4)):
        for it in range(many):
            probe.udp((probe.host(20 + it), port), a)


def clash_of_connections(probe):
    for host, remote in ((10, 0), (11, 0), (11, 2), (12, 2), (12, 0), (10, 4)):
        probe.opened(host, 5100, remote)
    for it in range(4):
        probe.opened(20 + it, 5101, 0)


def filtering(probe):
    for number in (40, 41):
        external = probe.udp((probe.host(number), 6000), (REMOTES[5], DNS))
        for remote in ((REMOTES[5], DNS), (REMOTES[5], 99), (REMOTES[6], DNS)):
            probe.reply(remote, external)
        yield 0.3
        probe.reply((REMOTES[7], 960 + number), external)
        probe.reply((REMOTES[5], DNS), external)


def filtering_of_connections(probe):
    connection = probe.opened(42, 6001, 5)
    external = connection.external
    for remote in ((REMOTES[5], 99), (REMOTES[6], WEB)) if external else ():
        probe.in_(craft.tcp(remote, external, SYN, 777))
    connection.does("<A+ >A")
    if external:
        probe.in_(craft.tcp((REMOTES[8], 4000), (external[0], 61234), SYN, 888))
    yield 14
    connection.does(">AF <AF >A")


def echoes(probe):
    for number in (44, 45):
        external = probe.out(craft.echo(probe.host(number), REMOTES[0], 7, number))
        if external:
            probe.in_(craft.echo(REMOTES[0], *external, number, is_reply=True))
        probe.out(craft.echo(probe.host(number), REMOTES[1], 7, number))
    probe.out(craft.echo(probe.host(44), REMOTES[0], 7, 99))


def errors(probe):
    remote = (REMOTES[10], DNS)
    for number, (is_whole, router) in enumerate(((True, None), (False, None), (True, ROUTER), (False, ROUTER))):
        inside, data = (probe.host(46), 6100 + number), probe.data()
        external = probe.udp(inside, remote, data)
        if external:
            about = craft.udp(external, remote, data)[: None if is_whole else 28]
            probe.in_(craft.error(router or remote[0], external[0], *((11, 0) if router else (3, 3)), about))
            yield 0.2
            probe.reply(remote, external)


def wrong_errors(probe):
    inside, remote, data = (probe.host(46), 6110), (REMOTES[10], DNS), probe.data()
    external = probe.udp(inside, remote, data)
    if external:
        about = craft.udp(external, remote, data)
        foreign = craft.udp((external[0], 62345), remote, data)
        for quoted, off in ((about, 1), (craft.with_header_sum_off(about, 5), 0), (foreign, 0)):
            probe.in_(craft.error(remote[0], external[0], 3, 3, quoted, off))
        probe.reply(remote, external)
        data = probe.data()
        if probe.reply(remote, external, data):
            about = craft.udp(remote, inside, data)
            probe.throw("inside", *(craft.error(inside[0], remote[0], 3, 3, it) for it in (about, about[:28])))


def other_errors(probe):
    """About an echo, and about a segment."""
    external = probe.out(craft.echo(probe.host(46), REMOTES[10], 77, 5))
    if external:
        probe.in_(craft.error(ROUTER, external[0], 11, 0, craft.echo(external[0], REMOTES[10], external[1], 5)))
    connection = probe.opened(46, 6120, 10)
    if connection.external:
        numbers = connection.seen["outside"], connection.next["outside"]
        segment = craft.tcp(connection.external, connection.remote, ACK, *numbers)
        for code, rest in ((1, bytes(4)), (4, b"\0\0\x05\x00")):
            probe.in_(craft.error(ROUTER, connection.external[0], 3, code, segment, rest=rest))
        yield 0.2
        connection.does("<A+ >A")


def hairpins(probe):
    one, other, remote = (probe.host(47), 6200), (probe.host(48), 6201), (REMOTES[11], DNS)
    of_one, of_other = probe.udp(one, remote), probe.udp(other, remote)
    if not of_one or not of_other:
        return
    probe.turn(craft.udp(one, of_other, probe.data()))
    probe.turn(craft.udp(other, of_one, probe.data()))
    yield 0.1
    data = probe.data()
    if got := probe.turn(craft.udp(one, of_other, data)):
        probe.throw("inside", craft.error(other[0], got.source[0], 3, 3, craft.udp(got.source, other, data)))
    a, b = probe.opened(47, 6210, 11), probe.opened(48, 6211, 11)
    if a.external and b.external:
        probe.turn(craft.tcp(a.inside, b.external, SYN, 31))
        probe.turn(craft.tcp(b.inside, a.external, SYN, 32))
        probe.turn(craft.tcp(a.inside, b.external, SYN | ACK, 31, 33))


def fragments(probe):
    inside, remote = (probe.host(49), 6300), (REMOTES[12], DNS)
    for step, side in itertools.product((1, -1), SIDES):
        source, destination = (inside, remote) if side == "inside" else (remote, probe.udp(inside, remote))
        if destination:
            body = craft.udp_body(source, destination, probe.data() * 140)
            probe.throw(side, *craft.in_pieces(UDP, source[0], destination[0], body, CUT)[::step])
        yield 0.2


def sums(probe):
    inside, remote = (probe.host(50), 6400), (REMOTES[13], DNS)
    external = probe.udp(inside, remote, off=None)
    probe.reply(remote, external, off=None)
    probe.udp(inside, remote, off=9)
    probe.out(craft.tcp((probe.host(50), 6401), (REMOTES[13], WEB), SYN, 5, off=9))
    for number in (50, 52):
        probe.udp((probe.host(number), 6410 + number), remote, identification=4242)
    probe.udp(inside, remote, b"x" * LARGE, keeps_whole=True)


def application_gateways(probe):
    me = dotted(probe.host(52)).encode()
    lines = (b"REGISTER sip:198.51.100.15 SIP/2.0", b"Via: SIP/2.0/UDP %s:6500;branch=z9hG4bK1" % me,
             b"Max-Forwards: 70", b"From: <sip:me@198.51.100.15>;tag=1", b"To: <sip:me@198.51.100.15>",
             b"Call-ID: 1@%s" % me, b"CSeq: 1 REGISTER", b"Contact: <sip:me@%s:6500>" % me, b"Expires: 60",
             b"Content-Length: 0", b"", b"")
    probe.udp((probe.host(52), 6500), (REMOTES[14], 5060), b"\r\n".join(lines))
    connection = probe.opened(52, 6501, 14, 21)
    for side, line in (("outside", b"220 hello"), ("inside", b"USER me"), ("outside", b"230 yes"),
                       ("inside", b"PORT %s,25,101" % me.replace(b".", b","))):
        connection.segment(side, ACK, line + b"\r\n")


def before_the_end(probe, host, port, disturb):
    """A mapping that something else comes to 60 s before it is asked for."""
    inside, remote, data = (probe.host(host), port), (REMOTES[19], DNS), probe.data()
    external = probe.udp(inside, remote, data)
    yield 250
    if external:
        disturb(external, remote, data)
    yield 60
    probe.reply(remote, external)


def error_before_the_end(probe):
    return before_the_end(probe, 86, 6860, lambda external, remote, data: probe.in_(
        craft.error(remote[0], external[0], 3, 3, craft.udp(external, remote, data))))


def refused_before_the_end(probe):
    return before_the_end(probe, 88, 6880, lambda external, remote, data: probe.reply((REMOTES[20], 9), external))


def number_again(probe, number, wait):
    for host in (number, number + 2):
        probe.udp((probe.host(host), 6770 + number), (REMOTES[21], DNS))
        yield wait if host == number else 0


def quiet_echo(probe, number, wait):
    # each with a number of its own, by which it is found again whatever its identifier becomes
    external = probe.out(craft.echo(probe.host(94 + number), REMOTES[22], 300 + number, 1 + number))
    yield wait
    if external:
        probe.in_(craft.echo(REMOTES[22], *external, 1 + number, is_reply=True))


# scenarios, their seconds, and what more each is given
SCENARIOS = [
    (mapping, 1), (clash, 2), (clash_of_connections, 2), (filtering, 2), (filtering_of_connections, 16), (echoes, 1),
    (errors, 2), (wrong_errors, 1), (other_errors, 1), (hairpins, 2), (fragments, 2), (sums, 1),
    (application_gateways, 1), (error_before_the_end, 310), (refused_before_the_end, 310),
    *((number_again, wait, number, wait) for number, wait in ((130, 310), (134, 130))),
    *((quiet_echo, wait, number, wait) for number, wait in enumerate((20, 58.5, 70)))]


def scenarios(probe):
    """Yields of each scenario its name, how many seconds it takes, and its generator."""
    def steps(function, *given):
        yield from function(probe, *given) or ()
    for function, seconds, *given in SCENARIOS:
        yield " ".join([function.__name__, *(str(seconds) for _ in given[:1])]), seconds, steps(function, *given)
    for name, (protocol, host, port, remote, words, waits) in FLOWS.items():
        for number, wait in enumerate(waits or [None]):
            given = words.format(wait)
            ends = (probe.host(host + number), port + number), (REMOTES[remote], WEB if protocol == TCP else DNS)
            seconds = sum(float(it) for it in given.split() if it[0] not in "<>=")
            yield name if wait is None else f"{name} {seconds:g}", seconds, Flow(probe, protocol, *ends).steps(given)


def run(device, most_seconds, only=()):
    """Runs all scenarios that take no longer, side by side: those that take longest begin first. Returns the names of
    those left out."""
    probe, order, todo, left_out = Probe(device), itertools.count(), [], []
    for name, seconds, steps in scenarios(probe):
        if seconds > most_seconds or only and name.split()[0] not in only:
            left_out.append(name)
        else:
            heapq.heappush(todo, (device.now(), -seconds, next(order), steps))
    while todo:
        at, _, _, steps = heapq.heappop(todo)
        device.wait_until(at)
        if (wait := next(steps, None)) is not None:
            heapq.heappush(todo, (device.now() + int(wait * SECOND), 0, next(order), steps))
    return left_out
