"""What is known at the end of a gateway's own timers and of its filter: how long its mappings live, and whom they let
in."""
import collections

from judging.moments import Incoming
from reading.captures import SECOND

# a reply that comes within this time cannot be late for a timer
SOON = 5 * SECOND
# a mapping lives for this time even if nothing else is known of it
SURELY = 10 * SECOND
# a filter of this kind lets in what comes from any remote (RFC 4787, section 5, has all three kinds)
INDEPENDENT = "endpoint-independent"
# a filter of this kind lets in what comes from an address to which something was sent
ADDRESS = "address-dependent"
# a filter of this kind lets in what comes from an address and port to which something was sent
ADDRESS_PORT = "address- and port-dependent"
# a filter of none of these kinds was seen: it is not the same at all times
NO_ONE = "not one"


class Lifetimes:
    """The times that mappings of each kind were seen to live, and the times after which mappings were gone, with the
    packets that show both."""

    def __init__(self):
        self.alive, self.lost = {}, {}
        # the longest life of a mapping by which one packet had gone out, and none had come in
        self.alive_alone = 0

    def lose(self, it: Incoming):
        if it.kind not in self.lost or it.gap < self.lost[it.kind][0]:
            self.lost[it.kind] = (it.gap, it.holder, it.pair)

    def longest(self, kind: str) -> int:
        return self.alive[kind][0] if kind in self.alive else 0

    def shortest(self, kind: str) -> int | None:
        """Returns the shortest time after which a mapping of a kind was gone, or None."""
        return self.lost[kind][0] if kind in self.lost else None

    def is_one(self, kind: str) -> bool:
        """Returns whether one timer explains what was seen: a mapping was gone, and none was gone sooner than another
        one lived."""
        return kind in self.lost and self.longest(kind) <= self.lost[kind][0]


class Filter:
    """The strangers that live mappings let in: those with an address to which something was sent, from another port,
    and those with another address."""

    def __init__(self):
        self.seen, self.counts = {it: ([], []) for it in ("port", "address")}, collections.Counter()

    def note(self, which: str, is_let_in: bool, *evidence):
        self.counts[which, is_let_in] += 1
        if len(self.seen[which][is_let_in]) < 2:
            self.seen[which][is_let_in].append(evidence)

    @property
    def kind(self) -> str | None:
        """Returns the kind of filtering, or None where it is not known."""
        port_in, port_out, address_in, address_out = (
            self.counts[which, is_let_in] for which in self.seen for is_let_in in (True, False))
        if address_in and address_out or not address_in and port_in and port_out:
            return NO_ONE
        if address_in:
            return INDEPENDENT
        if port_in:
            return ADDRESS if address_out else None
        return ADDRESS_PORT if port_out else None

    def occasions(self, is_let_in: bool) -> list[tuple]:
        """Returns the evidence of the strangers that were let in, or of those that were not."""
        return self.seen["port"][is_let_in] + self.seen["address"][is_let_in]
