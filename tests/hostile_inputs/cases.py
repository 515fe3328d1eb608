"""The input of a number: the files and the words that the program is run with. The same seed and number give the same input."""

import random

from . import captures, command_lines, configurations, packets

SECOND = captures.SECOND
# how many of a hundred inputs are of each kind
CAPTURES, CONFIGURATIONS = 60, 30
# between two packets of a conversation, in ns: none, little, and up to the end of each timer's least time
WAITS = (0, 1, 0, SECOND, SECOND, *(seconds * SECOND - less for seconds in (60, 120, 240, 300, 7440) for less in (1, 0)))
# TCP sessions: whether each segment goes out, and its flags
OUT, IN = True, False
SYN, FIN, RST, ACK = packets.SYN, packets.FIN, packets.RST, packets.ACK
OPENING = ((OUT, SYN), (IN, SYN | ACK), (OUT, ACK))
SESSIONS = (
    OPENING[:1],
    OPENING[:2],
    OPENING,
    (*OPENING, (OUT, FIN | ACK)),
    (*OPENING, (IN, FIN | ACK)),
    (*OPENING, (OUT, FIN | ACK), (IN, FIN | ACK)),
    (*OPENING, (OUT, FIN | ACK), (IN, FIN | ACK), *OPENING),
    (*OPENING, (OUT, FIN | ACK), *OPENING, (IN, FIN | ACK)),
    (*OPENING, (OUT, RST)),
    (*OPENING, (IN, RST | ACK)),
    (*OPENING, (OUT, RST), *OPENING),
    (*OPENING, (OUT, RST), (OUT, SYN | ACK)),
    ((OUT, ACK), (IN, SYN), (OUT, SYN | ACK)),
    ((OUT, ACK), (IN, SYN | ACK)),
    ((OUT, SYN), (IN, SYN)),
    ((OUT, SYN | FIN), (IN, SYN | ACK)),
)


class Case:
    """A run's files by name, its words after the program's name, and the kind by which it is judged."""

    outputs = command_lines.OUTPUTS

    def __init__(self, kind, files, words):
        self.kind = kind
        self.files = files
        self.words = words
        # without a file named for it the inside capture is on standard input
        self.standard_input = "inside.pcap"


def clock(draw):
    """A time in ns; mostly the next ones of a short run, at times one before it or long after."""
    return draw.choice((0, 1, 1, 2, 2, 3, 59, 60, 61, 299, 300, 301, 7441, 2**32 - 1)) * SECOND + draw.choice((0, 0, 1000, 999_999_000))


def side_packets(draw, configuration):
    """Packets from inside and from outside, with their times, some of them changed."""
    traffic = packets.Traffic(draw, configuration, configurations.HOSTS)
    strangers = (0, 2**32 - 1, configurations.POOL + 99, 0x0B000002)
    addresses = (*configuration.pool, *configurations.HOSTS, *packets.REMOTES, *strangers)
    inside, outside = [], []
    changes = draw.choice((0, 0.2, 0.5))
    for _ in range(draw.choice((0, 1, 2, 4, 8, 12))):
        is_outside, packet = traffic.packet()
        for _ in range(draw.choice((1, 1, 2)) if draw.random() < changes else 0):
            packets.change(draw, packet, addresses)
        (outside if is_outside else inside).append((clock(draw), packet))
    if draw.random() < 0.7:
        inside.sort(key=lambda pair: pair[0])
        outside.sort(key=lambda pair: pair[0])
    return inside, outside


def conversation(draw, configuration):
    """Two hosts send from one port to one or two remotes, and are answered, with waits at the edges of the timers."""
    traffic = packets.Traffic(draw, configuration, configurations.HOSTS)
    protocol, port = draw.choice((packets.UDP, packets.TCP, packets.TCP, packets.ICMP)), draw.choice(packets.PORTS[1:])
    hosts = [(address, port) for address in draw.sample(configurations.HOSTS, 2)]
    remotes = [traffic.remote() for _ in range(draw.choice((1, 2)))]
    inside, outside, now = [], [], 0
    for _ in range(draw.choice((3, 5, 8))):
        now += draw.choice(WAITS)
        host, remote = draw.choice((*hosts, hosts[0])), draw.choice(remotes)
        if draw.random() < 0.5:
            inside.append((now, traffic.of_protocol(protocol, host, remote)))
        else:
            address, number = traffic.external_of(protocol, (host[0], port))
            external = (address, (number + draw.choice((0, 0, 1, 2))) % 65536)
            outside.append((now, traffic.of_protocol(protocol, remote, external, incoming=True)))
    return inside, outside


def newcomers(draw, configuration):
    """Two hosts send from many ports under all protocols, with waits at the edges of the timers: of a quota more than it allows."""
    traffic = packets.Traffic(draw, configuration, configurations.HOSTS)
    hosts = draw.sample(configurations.HOSTS, 2)
    inside, now = [], 0
    for _ in range(draw.choice((4, 8, 12))):
        now += draw.choice(WAITS)
        host = draw.choice((*hosts, hosts[0])), draw.choice(packets.PORTS[1:])
        inside.append((now, traffic.of_protocol(draw.choice((packets.UDP, packets.TCP, packets.ICMP)), host, traffic.remote())))
    return inside, []


def session(draw, configuration):
    """A TCP session of two endpoints, and a segment of the remote near the end of its time."""
    traffic = packets.Traffic(draw, configuration, configurations.HOSTS)
    host, remote = (draw.choice(configurations.HOSTS), 5000), (packets.REMOTES[0], 80)
    external = traffic.external_of(packets.TCP, host)
    inside, outside, now = [], [], 0
    for is_out, flags in draw.choice(SESSIONS):
        now += draw.choice((0, 1000, SECOND, SECOND))
        if is_out:
            inside.append((now, packets.tcp(host, remote, flags)))
        else:
            outside.append((now, packets.tcp(remote, external, flags)))
    now += draw.choice(WAITS)
    outside.append((now, packets.tcp(remote, external, packets.ACK)))
    return inside, outside


def full_class(draw, configuration):
    """More hosts than the even numbers below 1024, each from the same port: the last ones find none left, nor does the first once more."""
    port = draw.choice((2, 512, 1022))
    sends = [packets.udp((0x0A000100 + n, port), (packets.REMOTES[0], 53)) for n in range(len(configuration.pool) * 511 + draw.randrange(3))]
    sends.append(packets.udp((0x0A000100, 4), (packets.REMOTES[0], 53)))
    return [(SECOND, packet) for packet in sends], []


def of_captures(draw):
    configuration = configurations.Configuration(draw)
    if draw.random() < 0.001:
        configuration.pool = configuration.pool[:1]
        configuration.entries, configuration.block, configuration.choosing, configuration.prefixes = [], "", "", ["10.0.0.0/8"]
        inside, outside = full_class(draw, configuration)
    else:
        kinds = (side_packets, side_packets, side_packets, conversation, session, newcomers)
        inside, outside = draw.choice(kinds)(draw, configuration)
    files = {"inside.pcap": captures.drawn(draw, inside), "outside.pcap": captures.drawn(draw, outside)}
    return Case("captures", {"napt.toml": configuration.text(), **files}, command_lines.usual())


def plain_captures(draw):
    """Captures without a fault, for what is changed elsewhere."""
    configuration = configurations.Configuration(draw)
    traffic = packets.Traffic(draw, configuration, configurations.HOSTS)
    magic = draw.choice(tuple(captures.SPELLINGS))
    data = {False: captures.header(magic), True: captures.header(magic)}
    for second in range(draw.choice((0, 1, 5))):
        is_outside, packet = traffic.packet()
        data[is_outside] += captures.record(magic, second * SECOND, packet)
    return {"inside.pcap": bytes(data[False]), "outside.pcap": bytes(data[True])}


def of_configurations(draw):
    return Case("configuration", {"napt.toml": configurations.drawn(draw), **plain_captures(draw)}, command_lines.usual())


def of_words(draw, words=None):
    files = {"napt.toml": configurations.Configuration(draw).text(), **plain_captures(draw), "state": b"clock 1\nend 0 0\n"}
    return Case("words", files, words or command_lines.drawn(draw))


def case_of(seed, number):
    draw = random.Random(f"{seed} {number}")
    if number == 0:
        # words that are drawn name a state that is none once in 20,000 inputs
        return of_words(draw, [*command_lines.usual(), b"--resume", b"napt.toml"])
    kind = draw.randrange(100)
    if kind < CAPTURES:
        return of_captures(draw)
    if kind < CAPTURES + CONFIGURATIONS:
        return of_configurations(draw)
    return of_words(draw)
