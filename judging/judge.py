"""The judge: captures of both sides in, a row for each requirement out."""
import collections
import copy
import dataclasses
import itertools
from collections.abc import Iterator

from judging.gateway import MOST_KEPT, Gateway
from judging.moments import Incoming
from judging.packets import PROTOCOLS, Plan, dotted
from judging.pairing import Pairing, Setup
from judging.rules import REQUIREMENTS, End, Rules
from reading.captures import SECOND


class Judge:
    """Judges the pairs of two captures."""

    def __init__(self, given: Setup, plan: Plan, keeps_data: bool = False):
        self.given, self.plan = given, plan
        self.inside, self.outside = given.sides(plan, keeps_data)
        self.rows = {it.name: Rules(it) for it in REQUIREMENTS}
        # the rules are found by the kind of a moment and its protocol
        self.rules = collections.defaultdict(list)
        for it in REQUIREMENTS:
            for moment, protocol in itertools.product(it.moments, (*PROTOCOLS, None)):
                if it.protocol in (None, protocol) or moment is End:
                    self.rules[moment, protocol].append(getattr(self.rows[it.name], it.method))
        # of moments that are alike it is kept how many there are, and the first one: the rules judge some of them, and
        # this one for all others
        self.alike = {}
        self.gateway = Gateway(given.prefixes, plan, self)
        self.pairing = Pairing(given.prefixes, plan, self.gateway.take)

    def tell(self, moment, key: object = None):
        """Judges a moment. No rule can tell moments with the same key from each other."""
        if key in self.alike:
            self.alike[key][0] += 1
        elif key:
            self.alike[key] = [1, as_it_was(moment)]
        self.judge(moment)

    def has_shown(self, kind: type) -> bool:
        """Returns whether more moments of a kind that meet its requirements, if mappings live, show nothing more."""
        return all(len(rule.__self__.shown) >= MOST_KEPT for rule in self.rules[kind, None])

    def judge(self, moment):
        kind, protocol = type(moment), moment.protocol
        for rule in self.rules[kind, protocol if protocol in PROTOCOLS else None]:
            rule(moment)

    def run(self) -> "Judge":
        """Reads both captures to their ends, and returns itself."""
        self.pairing.run(self.inside.streams() + self.outside.streams())
        self.gateway.end()
        for count, moment in self.alike.values():
            if count > MOST_KEPT:
                self.weigh(count - MOST_KEPT)
                self.judge(moment)
        self.weigh(1)
        for row in self.rows.values():
            row.is_whole = not self.gateway.lost_arrivals
            row.resolve(self.gateway.lifetimes)
        self.judge(End(self.gateway, self.rows, self.plan, self.given.filtering))
        for row in self.rows.values():
            row.resolve(self.gateway.lifetimes)
            if self.gateway.ends_connections and row.requirement.is_of_segments:
                row.needs = "a gateway that translates segments: this one ends connections itself"
        return self

    def weigh(self, weight: int):
        for row in self.rows.values():
            row.weight = weight

    def notes(self) -> Iterator[str]:
        """Yields what is to be known of the captures beside the verdicts, line by line."""
        count, addresses = self.inside.read + self.outside.read, ", ".join(map(dotted, sorted(self.plan.pool)))
        yield f"{count} packets, {self.pairing.pairs} pairs; external addresses: {addresses}"
        if self.plan.ahead:
            yield f"the outside clock is {self.plan.ahead / SECOND:.3f} s ahead"
        for found, what in (
            (self.gateway.lost_arrivals,
             "packets left without having arrived: the captures are incomplete, so a missing packet is not counted"
             " against the gateway"),
            (self.gateway.likely, "pairs are not sure, since several hosts sent the same: they are left out"),
            (self.pairing.not_judged, "packets at the end had no departures and are not judged"),
            (self.inside.doubles + self.outside.doubles, "packets are there twice, and taken once"),
        ):
            if found:
                yield f"{found} {what}"


def as_it_was(moment):
    """Returns a moment with its mapping and session as they are now."""
    if type(moment) is Incoming:
        return dataclasses.replace(moment, mapping=copy.copy(moment.mapping), session=copy.copy(moment.session))
    return moment
