"""What a configuration's text gets, by the rules of docs/FORMATS.md: the fault of the first rule that it breaks."""

import re
import tomllib

from .choosing import Choosing

NUMBER = "(?:0|[1-9][0-9]{0,9})"
ADDRESS = re.compile(rf"({NUMBER})\.({NUMBER})\.({NUMBER})\.({NUMBER})", re.ASCII)
PREFIX = re.compile(rf"(.*)/({NUMBER})", re.ASCII | re.DOTALL)
ENDPOINT = re.compile("(.*):([1-9][0-9]{0,9})", re.ASCII | re.DOTALL)
SEED = re.compile("[0-9A-Fa-f]{32}")
MOST_ADDRESSES = MOST_PREFIXES = 16
MOST_ENTRIES = 256
MOST_DEPTH = 80
MOST_SECONDS = 1_000_000_000
FIRST_OF_BLOCKS = 1024
MOST_OF_BLOCKS = 65536 - FIRST_OF_BLOCKS
LEAST_SECONDS = {"udp": 120, "tcp-established": 7440, "tcp-transitory": 240, "icmp": 60}
DEFAULT_SECONDS = LEAST_SECONDS | {"udp": 300}
KEYS = {"pool", "inside", "filter", "refresh", "parity", "numbers", "seed", "timers", "hold", "ring", "quota", "block", "pair", "redirect"}
KEYS_OF_ENTRIES = {"pair": {"host", "external"}, "redirect": {"protocol", "inside", "external"}}


class Refused(Exception):
    """The fault of a rule that is broken."""


class Unread(Exception):
    """Python's reader refuses the text. The program's may take it: it knows a later TOML."""


def want(holds, fault):
    if not holds:
        raise Refused(fault)


def address_of(text):
    parts = ADDRESS.fullmatch(text)
    want(parts and all(int(part) <= 255 for part in parts.groups()), "bad-address")
    return sum(int(part) << shift for part, shift in zip(parts.groups(), (24, 16, 8, 0)))


def prefix_of(text):
    """The prefix's address and the count of its bits that are free."""
    parts = PREFIX.fullmatch(text)
    want(parts and int(parts[2]) <= 32, "bad-prefix")
    free = 32 - int(parts[2])
    try:
        address = address_of(parts[1])
    except Refused:
        raise Refused("bad-prefix") from None
    want(address % 2**free == 0, "bad-prefix")
    return address, free


def endpoint_of(text):
    parts = ENDPOINT.fullmatch(text)
    want(parts and int(parts[2]) <= 65535, "bad-address")
    return address_of(parts[1]), int(parts[2])


def entries_of(table, key, most, is_required):
    """The list that a key names; none is a list of none, where it is not required."""
    if key not in table:
        want(not is_required, "missing")
        return []
    entries = table[key]
    want(isinstance(entries, list), "bad-shape")
    want(entries or not is_required, "missing")
    want(len(entries) <= most, "too-many")
    return entries


def text_in(value):
    want(isinstance(value, str), "bad-shape")
    return value


def number_in(value):
    want(isinstance(value, int) and not isinstance(value, bool), "bad-shape")
    return value


def field_of(entry, key):
    want(key in entry, "missing")
    return entry[key]


def word_in(table, key, *words):
    """One of these words, the first where none is said."""
    word = text_in(table.get(key, words[0]))
    want(word in words, "bad-word")
    return word


def choosing_in(table):
    keeps_parity = word_in(table, "parity", "kept", "free") == "kept"
    if word_in(table, "numbers", "preserved", "random") == "preserved":
        want("seed" not in table, "seed-unused")
        return Choosing(keeps_parity)
    seed = text_in(field_of(table, "seed"))
    want(SEED.fullmatch(seed), "bad-seed")
    return Choosing(keeps_parity, bytes.fromhex(seed))


class Configured:
    """Reads a table rule by rule."""

    def __init__(self, table):
        self.judge_keys(table)
        self.pool = []
        for entry in entries_of(table, "pool", MOST_ADDRESSES, is_required=True):
            address = address_of(text_in(entry))
            want(address not in self.pool, "double-address")
            self.pool.append(address)
        entries = entries_of(table, "inside", MOST_PREFIXES, is_required=True)
        self.prefixes = [prefix_of(text_in(entry)) for entry in entries]
        want(not any(self.is_inside(address) for address in self.pool), "pool-inside")
        self.filter = word_in(table, "filter", "independent", "address", "address-port")
        self.refresh = word_in(table, "refresh", "outbound", "both")
        self.choosing = choosing_in(table)
        self.timers = self.timers_of(table.get("timers", {}))
        self.hold = number_in(table.get("hold", 0))
        want(0 <= self.hold <= MOST_SECONDS, "bad-number")
        want(1 <= number_in(table.get("ring", 64)) <= 4096, "bad-number")
        self.quota = table.get("quota")
        want("quota" not in table or 1 <= number_in(self.quota) <= 65535, "bad-number")
        self.block = self.block_in(table)
        self.pairs, self.redirects = {}, []
        for entry in entries_of(table, "pair", MOST_ENTRIES, is_required=False):
            self.add_pair(entry)
        for entry in entries_of(table, "redirect", MOST_ENTRIES, is_required=False):
            self.add_redirect(entry)

    def judge_keys(self, table):
        want(table.keys() <= KEYS, "unknown-key")
        timers = table.get("timers")
        want(not isinstance(timers, dict) or timers.keys() <= LEAST_SECONDS.keys(), "unknown-key")
        for key, known in KEYS_OF_ENTRIES.items():
            entries = table.get(key)
            for entry in entries if isinstance(entries, list) else ():
                want(not isinstance(entry, dict) or entry.keys() <= known, "unknown-key")

    def timers_of(self, timers):
        want(isinstance(timers, dict), "bad-shape")
        for name, least in LEAST_SECONDS.items():
            seconds = number_in(timers.get(name, least))
            want(0 <= seconds <= MOST_SECONDS, "bad-number")
            want(seconds >= least, "timer-too-short")
        return DEFAULT_SECONDS | timers

    def block_in(self, table):
        """How many numbers each host has for itself, if there are blocks."""
        if "block" not in table:
            return None
        size = number_in(table["block"])
        want(64 <= size <= 32256 and size % 2 == 0, "bad-number")
        ends = sorted((prefix, prefix + 2**free) for prefix, free in self.prefixes)
        want(all(one[1] <= other[0] for one, other in zip(ends, ends[1:])), "prefixes-overlap")
        hosts = sum(2**free for _, free in self.prefixes)
        want(-(-hosts // len(self.pool)) * size <= MOST_OF_BLOCKS, "block-too-large")
        want("pair" not in table, "pair-with-block")
        want(self.hold == 0, "hold-with-block")
        return size

    def index(self, host):
        """The place of an inside host among all, prefix after prefix."""
        before = 0
        for prefix, free in self.prefixes:
            if host >> free == prefix >> free:
                return before + host - prefix
            before += 2**free
        return None

    def block_of(self, host):
        """The external numbers that a host has for itself; none if there are no blocks, or it is not inside."""
        index = self.index(host)
        if self.block is None or index is None:
            return None
        first = FIRST_OF_BLOCKS + self.block * (index // len(self.pool))
        return range(first, first + self.block)

    def is_inside(self, address):
        return any(address >> free == prefix >> free for prefix, free in self.prefixes)

    def pair(self, host):
        """The external address of a host."""
        index = self.index(host) if self.block is not None else None
        return self.pairs.get(host, self.pool[(host if index is None else index) % len(self.pool)])

    def add_pair(self, entry):
        want(isinstance(entry, dict), "bad-shape")
        host = address_of(text_in(field_of(entry, "host")))
        want(self.is_inside(host), "not-inside")
        external = address_of(text_in(field_of(entry, "external")))
        want(external in self.pool, "not-in-pool")
        want(host not in self.pairs, "double-pair")
        self.pairs[host] = external

    def add_redirect(self, entry):
        want(isinstance(entry, dict), "bad-shape")
        protocol = text_in(field_of(entry, "protocol"))
        want(protocol in ("udp", "tcp"), "bad-word")
        inside = endpoint_of(text_in(field_of(entry, "inside")))
        want(self.is_inside(inside[0]), "not-inside")
        number = number_in(field_of(entry, "external"))
        want(1 <= number <= 65535, "bad-number")
        own = self.block_of(inside[0])
        want(own is None or number < FIRST_OF_BLOCKS or number in own, "redirect-in-block")
        external = (self.pair(inside[0]), number)
        for other in self.redirects:
            want(other[0] != protocol or (other[1] != inside and other[2] != external), "double-redirect")
        self.redirects.append((protocol, inside, external))


def is_refused(value, depth=0):
    """Nested deeper than is read here, or with a whole number of more than 64 bits."""
    if isinstance(value, (dict, list)):
        inner = value.values() if isinstance(value, dict) else value
        return depth == MOST_DEPTH or any(is_refused(each, depth + 1) for each in inner)
    return isinstance(value, int) and not -(2**63) <= value < 2**63


def configured(text):
    """What a text configures. Raises the fault of the first rule that it breaks."""
    try:
        table = tomllib.loads(text.decode())
    except UnicodeDecodeError:
        raise Refused("not-toml") from None
    except (ValueError, RecursionError):
        raise Unread from None
    want(not is_refused(table), "not-toml")
    return Configured(table)
