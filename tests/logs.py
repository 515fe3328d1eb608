"""Logs of runs, read and judged by themselves."""
import csv
import io
from collections import Counter

from hostile_inputs.logged import ENDED, FIELDS, MADE, NO_PORT, OVER_QUOTA
from shared import want

PROTOCOLS = {1: "icmp", 6: "tcp", 17: "udp"}
LIVING = 0
# of rows at one time: a binding that ends leaves before others are made
ORDER = {ENDED: 0, MADE: 1, NO_PORT: 1, OVER_QUOTA: 1, LIVING: 2}


def time_of(row):
    """The time of a row; that of a redirect at the end, which has none, is after all others."""
    return float("inf") if row["observationTimeNanoseconds"] == "" else int(row["observationTimeNanoseconds"])


class Entry:
    """A binding of the log, by one of its rows."""

    def __init__(self, row):
        self.number = int(row["binding"])
        self.protocol = PROTOCOLS[int(row["protocolIdentifier"])]
        self.inside = (row["sourceIPv4Address"], int(row["sourceTransportPort"]))
        self.external = (row["postNATSourceIPv4Address"], int(row["postNAPTSourceTransportPort"]))
        self.is_redirect = row["redirect"] == "1"
        self.made, self.ended, self.until = time_of(row), None, None
        self.is_told = False
        self.counts = (int(row["packets_out"]), int(row["packets_in"]))
        self.last = int(row["flowEndNanoseconds"]) if row["flowEndNanoseconds"] else None

    def stands(self, at):
        return self.made <= at and (self.ended is None or at < self.ended)

    def end(self):
        """Its end, which may be after the last packet; None for a redirect."""
        return self.until if self.ended is None else self.ended

    def meets(self, span):
        """Whether it has a moment in common with a span, from its first moment until the one after its last."""
        first, until = span
        return self.made < until and (self.end() is None or first < self.end())

    def is_same(self, other):
        """Whether a later row is of this binding, by all that no packet changes."""
        return all(vars(self)[it] == vars(other)[it] for it in ("number", "protocol", "inside", "external", "is_redirect"))

    def is_new(self):
        """Whether its row counts no packet but the one that made it, which comes back in if it was sent to itself."""
        if self.is_redirect:
            return (self.made, self.counts, self.last) == (0, (0, 0), None)
        return self.counts in ((1, 0), (1, 1)) and self.last == self.made

    def tell(self, event, row):
        """Takes its last row, which has the counts and the last use of the whole run."""
        at, told = time_of(row), Entry(row)
        want(not self.is_told and self.is_same(told), f"end: {row}")
        is_grown = all(now >= before for now, before in zip(told.counts, self.counts)) and (told.last or 0) >= (self.last or 0)
        want(is_grown, f"fewer packets than before: {row}")
        want((at == float("inf")) == self.is_redirect, f"time: {row}")
        self.is_told, self.counts, self.last = True, told.counts, told.last
        if not self.is_redirect:
            setattr(self, "ended" if event == ENDED else "until", at)


class Log:
    """The events of a log's text, its entries by their numbers, and how many packets got none, by event and host. Its rows are judged
    by themselves: redirects first, then events in the order of time, and last what lives on, unless the log breaks off."""

    def __init__(self, text, is_whole=True):
        rows = csv.DictReader(io.StringIO(text, newline=""), strict=True)
        want(rows.fieldnames == FIELDS, f"fields: {rows.fieldnames}")
        self.rows = list(rows)
        self.entries, self.refused, self.events = {}, Counter(), []
        for row in self.rows:
            self.take(row, time_of(row), int(row["natEvent"] or LIVING))
        # a redirect, which stands at 0, is before any log
        times = [at for row, (at, event) in zip(self.rows, self.events) if event != LIVING and row["redirect"] != "1"]
        self.first, self.last = min(times, default=0), max(times, default=0)
        order = [(at, ORDER[event]) for at, event in self.events]
        want(order == sorted(order), "events are not in the order of time")
        made = [it.is_redirect for it in self.entries.values()]
        want(made == sorted(made, reverse=True), "a redirect is after another binding")
        want(not is_whole or all(it.is_told for it in self.entries.values()), "a binding has no row of its end, and none at the end")

    def take(self, row, at, event):
        self.events.append((at, event))
        want(row["note"] == "", f"note: {row}")
        want((row["natQuotaExceededEvent"] == "3") == (event == OVER_QUOTA), f"quota: {row}")
        if event == MADE:
            entry = Entry(row)
            want(entry.number == len(self.entries) + 1 and entry.is_new(), f"made: {row}")
            self.entries[entry.number] = entry
        elif event in (ENDED, LIVING):
            self.entries[int(row["binding"])].tell(event, row)
        else:
            want(not any(row[it] for it in FIELDS[4:5] + FIELDS[6:7] + FIELDS[8:]), f"shortage: {row}")
            self.refused[event, row["sourceIPv4Address"]] += 1

    def standing(self, at, protocol, external):
        """Returns the entries of an external endpoint that stand at a time."""
        return [it for it in self.entries.values() if it.protocol == protocol and it.external == external and it.stands(at)]
