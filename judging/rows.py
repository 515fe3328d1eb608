"""What is known of a requirement while captures are read, and its verdict in the end."""
import collections
import heapq
import itertools

from judging.gateway import MOST_KEPT
from judging.lifetimes import SURELY, Lifetimes
from judging.mappings import Mapping
from judging.pairing import Pair
from reading.captures import SECOND

MET, BROKEN, NOT_SURE, NOT_SEEN = VERDICTS = ("met", "broken", "not sure", "not seen")
# by whom a verdict is: by the rule over pairs, or by napt's definition (judge replay)
BY_PAIRS, BY_DEFINITION = "pairs", "definition"
# a mapping that was used within so long is live, whatever the gateway's timers are
AT_ONCE = 2 * SECOND
# of so many packets one may be missing because a queue was full
FEW = 1000
# occasions that count only if mappings lived, and what a rule keeps until the end
MOST_ASSUMED, MOST_LATER = 64, 64


class Row:
    """A requirement with its occasions. `needs` is what has to be there so that it can be met, where that is missing;
    `memory` is for what its rule keeps, `word` what it is given."""

    def __init__(self, requirement, judged_by: str = BY_PAIRS):
        self.requirement, self.judged_by, self.is_whole = requirement, judged_by, True
        self.word = requirement.rule.partition(" ")[2]
        self.met = self.broken = self.absent = 0
        # for how many occasions that are alike one stands
        self.weight = 1
        self.shown, self.against, self.missing = [], [], []
        # occasions that count only if mappings lived for some time: broken, and met
        self.assumed, self.order = ([], []), itertools.count()
        self.note, self.needs = "", ""
        self.memory, self.later = collections.Counter(), collections.defaultdict(list)

    def keep(self, name: str, *found):
        """Keeps what is decided at the end, up to a number."""
        if len(self.later[name]) < MOST_LATER:
            self.later[name].append(found)

    def meets(self, *evidence, live: list[Mapping] = ()):
        """Counts an occasion on which the requirement was met, if mappings lived, whose last packets then show it too.
        Where some are shown that count anyhow, those that need that do not."""
        if len(self.shown) >= MOST_KEPT:
            self.met += 0 if live else self.weight
        elif not live or not self.is_assumed(True, *aged(evidence, live)):
            self.met += self.weight
            self.shown.append((*(it.last_pair for it in live), *evidence))

    def breaks(self, *evidence, live: list[Mapping] = (), ages: list = (), is_absence: bool = False):
        """Counts an occasion on which it was broken, if mappings lived, or were so old. Where a packet is missing, or
        may be, nobody is accused by captures that are not whole."""
        evidence, ages = (evidence, ages) if ages else aged(evidence, live)
        if not ages or not self.is_assumed(False, evidence, ages):
            self.broken += self.weight
            is_absence |= any(type(it) is Pair and not it.departure and not it.leak for it in evidence)
            self.absent += self.weight * is_absence
            kept = self.missing if is_absence else self.against
            if len(kept) < MOST_KEPT:
                kept.append(evidence)

    def judge(self, is_met: bool, *evidence, live: list[Mapping] = ()):
        """Counts an occasion on which it was met or broken."""
        (self.meets if is_met else self.breaks)(*evidence, live=live)

    def is_assumed(self, is_met: bool, evidence: tuple, ages: list[tuple[str, int]]) -> bool:
        """Keeps an occasion until the gateway's timers are known, and returns whether that is needed: a mapping was
        not used just now. Those of mappings that were used last are kept longest."""
        longest, kept = max(gap for _, gap in ages), self.assumed[is_met]
        if longest <= AT_ONCE:
            return False
        heapq.heappush(kept, (-longest, -next(self.order), evidence, ages))
        if len(kept) > MOST_ASSUMED:
            heapq.heappop(kept)
        return True

    def resolve(self, lifetimes: Lifetimes):
        """Counts what was kept: each mapping has to be younger than the gateway's own timer; to accuse, others must
        have lived as long."""
        for is_met, kept in enumerate(self.assumed):
            for *_, evidence, ages in sorted(kept, key=lambda it: it[:2], reverse=True):
                is_young = all(gap < (lifetimes.shortest(kind) or gap + 1) for kind, gap in ages)
                if is_young and (is_met or all(gap <= max(lifetimes.longest(kind), SURELY) for kind, gap in ages)):
                    self.judge(is_met, *evidence)
            kept.clear()

    @property
    def verdict(self) -> str:
        if self.broken > self.absent or self.is_whole and self.absent * FEW > self.met:
            return BROKEN
        return NOT_SURE if self.absent else MET if self.met and not self.needs else NOT_SEEN

    @property
    def evidence(self) -> list[tuple]:
        """Returns the occasions that show the verdict, each a tuple of pairs, packets and texts."""
        if self.verdict in (BROKEN, NOT_SURE):
            return self.against + self.missing
        return self.shown if self.verdict == MET else []


def aged(evidence: tuple, live: list[Mapping]) -> tuple[tuple, list]:
    """Returns the evidence with the last packets of mappings, and how old these were at its end."""
    return (*(it.last_pair for it in live), *evidence), [it.age(evidence[-1].time) for it in live]
