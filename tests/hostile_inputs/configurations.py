"""Configurations: those that docs/FORMATS.md allows, and changes of them by key, kind and edge."""

import functools

from . import configured

POOL = 0xCB007101  # 203.0.113.1
INSIDE = 0x0A000000  # 10.0.0.0
HOSTS = tuple(INSIDE + n for n in (2, 3, 4, 5, 6))

SEED = "000102030405060708090a0b0c0d0e0f"

# values in the place of another: of each kind, at their edges
VALUES = (
    "0", "1", "-1", "119", "120", "4096", "4097", "65535", "65536", "1_000", "1000000000", "1000000001", "0x10", "0b1", "+5",
    "9223372036854775807", "9223372036854775808", "-9223372036854775808", "-9223372036854775809", "99999999999999999999999",
    "1.5", "1e3", "inf", "nan", "true", "false", "1979-05-27", "1979-05-27T07:32:00Z", "07:32:00",
    '""', '"x"', "'x'", '"""x"""', '"\\u0000"', '"\\uD800"', '"\\x"', '"é"', '"203.0.113.1"', '"10.0.0.0/8"', '"10.0.0.2:80"',
    '"udp"', '"tcp"', '"icmp"', '"independent"', '"address"', '"address-port"', '"Address"', '"outbound"', '"both"',
    '"kept"', '"free"', '"Free"', '"preserved"', '"random"', '"00010203"', f'"{SEED}"', f'"{SEED.upper()}"', f'"{SEED}0"', f'"{SEED[1:]}x"',
    '"0.0.0.0"', '"255.255.255.255"', '"256.0.0.1"', '"1.2.3"', '"1.2.3.4.5"', '"01.2.3.4"', '"1..2.3"', '" 1.2.3.4"', '"1.2.3.4 "',
    '"+1.2.3.4"', '"-1.2.3.4"', '"1.2.3.99999999999999999999"', '"0.0.0.0/0"', '"10.0.0.0/33"', '"10.0.0.0/08"', '"10.0.0.1/8"',
    '"10.0.0.0/"', '"10.0.0.0"', '"10.0.0.2:0"', '"10.0.0.2:65536"', '"10.0.0.2:"', '"10.0.0.2:080"', '"11.0.0.2:80"',
    "[]", "[[]]", "[1]", '["x"]', '["203.0.113.1", 1]', '["203.0.113.1", "203.0.113.1"]', "{}", "{ x = 1 }", "[{}]", "[",
    "{", "", "x", '"', "'", '"""', "\0", "\x7f", "# x",
)
KEYS = (
    "pool", "inside", "filter", "refresh", "parity", "numbers", "seed", "hold", "ring", "quota", "block", "timers", "pair", "redirect",
    "udp", "tcp-established", "tcp-transitory", "icmp", "host", "external", "protocol", "x", "Pool", "\"pool\"", "'inside'", "\"po\\u006fl\"", "pool.x", "timers.udp", "", "a b", "é", "1", "-",
)
LINES = (
    "[timers]", "[[timers]]", "[pair]", "[[pair]]", "[redirect]", "[[redirect]]", "[pool]", "[]", "[[]]", "[x]", "[timers.udp]",
    "[[pair.x]]", "[", "]", "=", "pool", "\0", "\xff", "\r", "# comment", "x = 1", "ring = 1", "hold = 60", "quota = 1", "block = 64", "udp = 300",
    'parity = "free"', 'numbers = "random"', f'seed = "{SEED}"',
)


def text_of(address):
    return ".".join(str(address >> shift & 255) for shift in (24, 16, 8, 0))


def quoted(values):
    return "[" + ", ".join(f'"{value}"' for value in values) + "]"


class Configuration:
    """One that is allowed: what it says, and its text."""

    def __init__(self, draw):
        self.pool = [POOL + place for place in range(draw.choice((1, 1, 2, 2, 3, 4, 16)))]
        self.settings = draw.choice(("", 'filter = "independent"', 'filter = "address"', 'filter = "address-port"'))
        self.settings += draw.choice(("", "", '\nrefresh = "outbound"', '\nrefresh = "both"'))
        self.choosing = draw.choice(("", "", 'parity = "kept"', 'parity = "free"'))
        self.choosing += draw.choice(("", "", '\nnumbers = "preserved"', f'\nnumbers = "random"\nseed = "{draw.randbytes(16).hex()}"'))
        self.ring = draw.choice(("", "ring = 1", "ring = 2", "ring = 4096"))
        self.quota = draw.choice(("", "", "quota = 1", "quota = 2", "quota = 65535"))
        self.timers = draw.choice(("", "[timers]", "[timers]\nudp = 120\ntcp-established = 7440\ntcp-transitory = 240\nicmp = 60"))
        self.block = draw.choice(("", "", "", "block = 64", "block = 128"))
        self.hold = ""
        if self.block:
            # the hosts of a few small prefixes, whose redirects are below 1024
            self.prefixes = draw.choice((["10.0.0.0/24"], ["10.0.0.128/25", "10.0.0.0/25"], ["10.0.0.0/25", "10.0.0.128/26", "10.0.0.192/26"]))
            self.entries = self.redirects(draw, 80)
            return
        self.hold = draw.choice(("", "", "hold = 0", "hold = 60", "hold = 120", "hold = 1000000000"))
        self.entries = self.pairs(draw) + self.redirects(draw, 8080)
        others = draw.choice(([], ["172.16.0.0/12", "192.168.0.0/16"], [f"172.{16 + n}.0.0/16" for n in range(15)]))
        self.prefixes = ["10.0.0.0/8"] + others

    @functools.cached_property
    def rules(self):
        return configured.configured(self.text())

    def external_of(self, protocol, inside):
        """The external endpoint of an inside one, as it is guessed: with its first candidate."""
        rules, host = self.rules, inside[0]
        return rules.pair(host), next(iter(rules.choosing.candidates(rules.block_of(host), protocol, inside)))

    def pairs(self, draw):
        hosts = draw.sample(HOSTS, draw.choice((0, 0, 1, 3)))
        return [f'[[pair]]\nhost = "{text_of(host)}"\nexternal = "{text_of(draw.choice(self.pool))}"' for host in hosts]

    def redirects(self, draw, first):
        hosts = draw.sample(HOSTS, draw.choice((0, 0, 1, 2)))
        return [
            f'[[redirect]]\nprotocol = "{draw.choice(("udp", "tcp"))}"\ninside = "{text_of(host)}:80"\nexternal = {first + place}'
            for place, host in enumerate(hosts)
        ]

    def lines(self):
        parts = [f"pool = {quoted(map(text_of, self.pool))}", f"inside = {quoted(self.prefixes)}"]
        parts += [self.settings, self.choosing, self.hold, self.ring, self.quota, self.block, self.timers, *self.entries]
        return "\n".join(part for part in parts if part).split("\n")

    def text(self):
        return ("\n".join(self.lines()) + "\n").encode()


def changed_line(draw, lines):
    """One line dropped, doubled, moved, or with another key, value or entry."""
    place = draw.randrange(len(lines))
    key, equals, value = lines[place].partition(" = ")
    kind = draw.randrange(8)
    if kind == 0:
        del lines[place]
    elif kind == 1:
        lines.insert(draw.randrange(len(lines) + 1), lines[place])
    elif kind == 2:
        lines.insert(draw.randrange(len(lines)), lines.pop(place))
    elif kind == 3:
        lines.insert(place, draw.choice(LINES))
    elif kind == 4:
        lines[place] = f"{draw.choice(KEYS)}{equals}{value}"
    elif kind == 5 and value.startswith("["):
        lines[place] = f"{key} = {value[:-1]}, {draw.choice(VALUES)}]"
    else:
        lines[place] = f"{key} = {draw.choice(VALUES)}"
    return lines or [""]


def many(draw):
    """More of something than is allowed, or nested deep."""
    count = draw.choice((16, 17, 255, 256, 257, 300))
    depth = draw.choice((50, 127, 128, 129, 500, 5000))
    return draw.choice(
        (
            "pool = " + quoted(text_of(POOL + n) for n in range(count)),
            "inside = " + quoted(f"10.{n % 256}.0.0/16" for n in range(count)),
            "\n".join(f'[[pair]]\nhost = "10.1.{n >> 8}.{n & 255}"\nexternal = "203.0.113.1"' for n in range(count)),
            "\n".join(f'[[redirect]]\nprotocol = "tcp"\ninside = "10.1.0.1:{n + 1}"\nexternal = {n + 1}' for n in range(count)),
            "pool = " + "[" * depth + "]" * depth,
            "pool = " + "{x=" * depth + "1" + "}" * depth,
            "x." * depth + "x = 1",
            "[" + "x." * depth + "x]",
            "[[" + "x." * depth + "x]]",
            'filter = "' + "x" * depth + '"',
            "ring = " + "9" * depth,
            "quota = " + "9" * depth,
        )
    )


def changed_bytes(draw, text):
    data = bytearray(text)
    for _ in range(draw.choice((1, 1, 2, 4))):
        place = draw.randrange(len(data) + 1)
        kind = draw.randrange(5)
        if kind == 0:
            data[place:place] = draw.choice((b"\0", b"\xff", b"\xc0\x80", b"\xed\xa0\x80", b"\xf4\x90\x80\x80", b"\xef\xbb\xbf", b"\r"))
        elif kind == 1:
            del data[place : place + draw.choice((1, 2, 10))]
        elif kind == 2:
            data[place:place] = draw.choice((b'"', b"'", b"[", b"]", b"{", b"}", b"=", b"\n", b".", b",", b"#", b"\\", b"0", b"9", b"-"))
        elif kind == 3 and place < len(data):
            data[place] ^= 1 << draw.randrange(8)
        else:
            del data[place:]
    return bytes(data)


def drawn(draw):
    """The text of a configuration that mostly has something wrong in it."""
    configuration = Configuration(draw)
    lines = configuration.lines()
    kind = draw.random()
    if kind < 0.05:
        return configuration.text()
    if kind < 0.15:
        lines.insert(draw.choice((0, len(lines))), many(draw))
    elif kind < 0.7:
        for _ in range(draw.choice((1, 1, 2, 3))):
            lines = changed_line(draw, lines)
    text = ("\n".join(lines) + "\n").encode("utf-8", "surrogatepass")
    return changed_bytes(draw, text) if kind >= 0.7 else text
