"""Which numbers may stand for that of an inside endpoint, in the order in which they are tried (docs/FORMATS.md; RFC 4787, REQ-3 and
REQ-4; RFC 6056, section 3.3.3; RFC 7422; RFC 7857, sections 8 and 9)."""

import struct
from bisect import bisect_left
from dataclasses import dataclass
from itertools import chain

from .packets import ICMP

MOST = 2**64 - 1
# the four words of a state whose keys are 0: "somepseudorandomlygeneratedbytes"
INITIAL = (0x736F6D6570736575, 0x646F72616E646F6D, 0x6C7967656E657261, 0x7465646279746573)


def turned(word, bits):
    """A word of 64 bits, rotated to the left."""
    return (word << bits | word >> (64 - bits)) & MOST


def sip_round(state):
    a, b, c, d = state
    a, c = (a + b) & MOST, (c + d) & MOST
    b, d, a = turned(b, 13) ^ a, turned(d, 16) ^ c, turned(a, 32)
    c, a = (c + b) & MOST, (a + d) & MOST
    b, d, c = turned(b, 17) ^ c, turned(d, 21) ^ a, turned(c, 32)
    return a, b, c, d


def sip_hash(data):
    """SipHash-1-3 with both keys 0 (Aumasson and Bernstein, 2012)."""
    state = INITIAL
    padded = data + bytes(-(len(data) + 1) % 8) + bytes([len(data) % 256])
    for (word,) in struct.iter_unpack("<Q", padded):
        a, b, c, d = sip_round((*state[:3], state[3] ^ word))
        state = (a ^ word, b, c, d)
    a, b, c, d = state[0], state[1], state[2] ^ 0xFF, state[3]
    for _ in range(3):
        a, b, c, d = sip_round((a, b, c, d))
    return a ^ b ^ c ^ d


def mixed(seed, protocol, inside):
    """What the seed makes of an inside endpoint of a protocol."""
    return sip_hash(seed + struct.pack(">BIH", protocol, *inside))


def numbers_for(keeps_parity, protocol, number):
    """The number's class, upwards."""
    if protocol == ICMP:
        return range(65536)
    first, end = (1, 1024) if number < 1024 else (1024, 65536)
    return range(first + (first + number) % 2, end, 2) if keeps_parity else range(first, end)


@dataclass
class Choosing:
    """The keys `parity`, `numbers` and `seed`: whether ports keep their parity, and the seed's bytes where numbers are random."""

    keeps_parity: bool = True
    seed: bytes | None = None

    def place(self, size, protocol, inside):
        """Where in a block of a size the first candidate is."""
        if self.seed is None:
            return inside[1] % size
        place = mixed(self.seed, protocol, inside)
        return 2 * (place % (size // 2)) + inside[1] % 2 if self.keeps_parity else place % size

    def candidates(self, block, protocol, inside):
        """Those of the class, from the number or a random place on, wrapping; those of the host's block likewise, where it has one,
        and where parity is kept first those of the number's."""
        if block is not None:
            first = self.place(len(block), protocol, inside)
            steps = [*range(0, len(block), 2), *range(1, len(block), 2)] if self.keeps_parity else range(len(block))
            return (block[(first + step) % len(block)] for step in steps)
        numbers = numbers_for(self.keeps_parity, protocol, inside[1])
        at = bisect_left(numbers, inside[1]) if self.seed is None else mixed(self.seed, protocol, inside) % len(numbers)
        return chain(numbers[at:], numbers[:at])
