"""Figures of a run, worked out a second time from the text of its log, without pandas.

They stand on tests/logs.py and tests/hostile_inputs, which work out the log itself: that of `explain` is held against it by
tests/explain_runs.
"""

from collections import defaultdict
from dataclasses import dataclass, field

from hostile_inputs.logged import ENDED, MADE
from logs import Log

SECOND = 10**9
PORTS = ["even ports below 1024", "odd ports below 1024", "even ports from 1024 on", "odd ports from 1024 on"]
SIDES_OF_PORTS = ["ports below 1024", "ports from 1024 on"]


@dataclass
class Level:
    """How many there are, the most at once, and when that number was first reached."""

    now: set = field(default_factory=set)
    most: int = 0
    at: int = 0

    def make(self, key, at):
        self.now.add(key)
        if len(self.now) > self.most:
            self.most, self.at = len(self.now), at

    def end(self, key):
        self.now.discard(key)


def class_name(entry, keeps_parity):
    """The class of a binding's external number."""
    if entry.protocol == "icmp":
        return "identifiers"
    side, number = int(entry.external[1] >= 1024), entry.external[1]
    return PORTS[2 * side + number % 2] if keeps_parity else SIDES_OF_PORTS[side]


def changes(log: Log, hold: int):
    """The bindings as they are made and go, each with the time and whether it is made. What has ended goes once its hold is over or
    its endpoint makes a new one."""
    held = []
    for row, (at, event) in zip(log.rows, log.events):
        entry = log.entries.get(int(row["binding"] or 0))
        if event == ENDED:
            held.append(entry)
        if event != MADE:
            continue
        for it in held.copy():
            if it.ended + SECOND * hold <= at or (it.protocol, it.inside) == (entry.protocol, entry.inside):
                held.remove(it)
                yield at, it, False
        yield at, entry, True


def levels(log: Log, hold: int, keeps_parity: bool):
    """The levels of bindings by address and protocol, of those by class too, of hosts by address and protocol, and of each host."""
    spaces, classes, at_space, hosts = (defaultdict(Level) for _ in range(4))
    for at, entry, is_made in changes(log, hold):
        space, host = (entry.external[0], entry.protocol), entry.inside[0]
        mine = [spaces[space], classes[*space, class_name(entry, keeps_parity)]] + ([] if entry.is_redirect else [hosts[host]])
        for level in mine:
            level.make(entry.number, at) if is_made else level.end(entry.number)
        others = any(it.inside[0] == host for it in map(log.entries.get, spaces[space].now))
        at_space[space].make(host, at) if others else at_space[space].end(host)
    return spaces, classes, at_space, hosts


def refused_by(log: Log, hold: int, most: int, of_protocol: bool = False) -> tuple[int, int]:
    """How many new bindings a quota would have refused, or a block, which is one of each protocol for itself, and of how
    many hosts."""
    kept, hurt, many = defaultdict(set), set(), 0
    for _, entry, is_made in changes(log, hold):
        if entry.is_redirect:
            continue
        mine = kept[entry.inside[0], entry.protocol if of_protocol else None]
        if not is_made:
            mine.discard(entry.number)
        elif len(mine) < most:
            mine.add(entry.number)
        else:
            hurt.add(entry.inside[0])
            many += 1
    return many, len(hurt)
