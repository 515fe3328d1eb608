"""Random runs, as captures in memory, and configurations for them."""
from hostile_inputs import captures, packets

CONFIG = 'pool = ["203.0.113.1", "203.0.113.2"]\ninside = ["10.0.0.0/8"]\n'
REDIRECT = '\n[[redirect]]\nprotocol = "tcp"\ninside = "10.0.0.3:80"\nexternal = 8080\n'
# of inside hosts, external addresses and remote hosts: the front of their addresses, and the end of the last byte
NETWORKS = ((0x0A000000, 5), (0xCB007100, 3), (0xC6336400, 4))
START = 1_700_000_000 * captures.SECOND
# other settings, each of which changes what becomes of some packets
CHANGES = ["", "quota = 2\n", "quota = 3\n", "timers = { udp = 120 }\n", 'refresh = "both"\n', 'filter = "address"\n', 'filter = "address-port"\n',
    'parity = "free"\n', "hold = 120\n", "hold = 60\nquota = 3\n"]


def config_of(changes):
    """The text of a configuration with other settings."""
    return CONFIG + changes + REDIRECT


def random_run(dice):
    """Returns (side, time in ns, bytes) of the packets of a run of one of two kinds."""
    return (wide_captures if dice.randrange(3) == 0 else random_captures)(dice)


def packet_of(dice, source, destination):
    """A random packet between two endpoints."""
    kind = dice.choice(["udp", "udp", "udp", "tcp", "tcp", "echo", "reply", "other", "ipv6", "bytes"])
    if kind == "udp":
        return packets.udp(source, destination, with_checksum=False)
    if kind == "tcp":
        return packets.tcp(source, destination, dice.choice([2, 16, 18, 17, 4]))
    if kind in ("echo", "reply"):
        return packets.echo(source[0], destination[0], 8 if kind == "echo" else 0, min(source[1], destination[1]))
    if kind == "other":
        return packets.ipv4(47, source[0], destination[0], bytes(8))
    return bytes([0x60]) + bytes(39) if kind == "ipv6" else dice.randbytes(dice.randrange(40))


def random_captures(dice):
    """Returns (side, time in ns, bytes) of random packets, in the order of their times."""
    now, inputs = START, []
    for _ in range(dice.randrange(20, 120)):
        now += dice.choice([0, 1000, 10**9, 10**9, 130 * 10**9])
        host, pool, remote = (front + dice.randrange(1, most) for front, most in NETWORKS)
        port, far = dice.choice([80, 5000, 5001, 5002, 8080]), dice.choice([53, 443])
        side = dice.choice(["inside", "inside", "outside"])
        if side == "inside":
            whole = packet_of(dice, (host, port), (dice.choice([remote, remote, pool]), dice.choice([far, port])))
        else:
            whole = packet_of(dice, (remote, far), (pool, port))
        inputs.append((side, now, bytes(whole)))
    # of one time the packets from the inside come first
    return sorted(inputs, key=lambda it: (it[1], it[0] != "inside"))


def wide_captures(dice):
    """Returns packets of three hosts that use many ports, some of them for longer than a binding lives."""
    now, inputs = START, []
    for _ in range(dice.randrange(100, 300)):
        now += dice.choice([0, 1, 10**6, 10**9, 10**9, 5 * 10**9, 60 * 10**9])
        host = 0x0A000000 + dice.choice([2, 2, 2, 3, 4])
        port = dice.choice([dice.randrange(1, 2000), dice.randrange(1010, 1040)])
        inputs.append(("inside", now, packets.udp((host, port), (0xC6336407, 53), with_checksum=False)))
    return inputs
