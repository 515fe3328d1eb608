"""The log of a gateway's own mappings, from its pairs alone, in the format of `explain log` (docs/FORMATS.md)."""
import csv
import dataclasses
from collections.abc import Iterator
from typing import TextIO

from judging.judge import Judge
from judging.mappings import LEAST, OF_ICMP, TRANSITORY
from judging.packets import ICMP, OF_TCP, OF_UDP, QUERY, TCP, UDP, Endpoint, Packet, Plan, dotted
from judging.pairing import CONNECTION, IN, OUT, SURE, Pair, Setup, UnmatchedDeparture

FIELDS = (
    "observationTimeNanoseconds", "natEvent", "protocolIdentifier", "sourceIPv4Address", "sourceTransportPort",
    "postNATSourceIPv4Address", "postNAPTSourceTransportPort", "natQuotaExceededEvent", "binding", "redirect",
    "packets_out", "packets_in", "flowEndNanoseconds", "note",
)
MADE, ENDED = 8, 9
# what each row has in a field that only quotas use, and that nothing reads
INFERRED = "inferred"
# an endpoint that is silent for longer may have lost its number meanwhile: the least timer of its protocol
SILENT = {UDP: LEAST[OF_UDP], ICMP: LEAST[OF_ICMP], TCP: LEAST[TRANSITORY]}


@dataclasses.dataclass(slots=True)
class Entry:
    """An inside endpoint that had an external one, from its first packet to its last."""

    number: int
    protocol: int
    inside: Endpoint
    external: Endpoint
    first: int
    last: int
    sent: int = 0
    received: int = 0

    def row(self, event: int) -> tuple:
        """Returns the row of its making, with its first packet, or of its end, with all."""
        is_made = event == MADE
        time, last = (self.first, self.first) if is_made else (self.last + 1, self.last)
        counts = (int(self.sent > 0), int(self.sent == 0)) if is_made else (self.sent, self.received)
        ends = (dotted(self.inside[0]), self.inside[1], dotted(self.external[0]), self.external[1])
        return (time, event, self.protocol, *ends, INFERRED, self.number, 0, *counts, last, "")


class Log(Judge):
    """A judge that keeps entries. Between the first and the last packet of an entry its host had the number for sure:
    nobody else sent by it, or was sent to, and it was never silent for as long as a timer may be. When the gateway
    ended it no capture shows."""

    def __init__(self, given: Setup, plan: Plan):
        super().__init__(given, plan)
        self.open, self.entries, self.pairing.take = {}, [], self.take

    def take(self, items: list[Pair | UnmatchedDeparture]):
        self.gateway.take(items)
        for item in items:
            self.take_one(item)

    def take_one(self, item: Pair | UnmatchedDeparture):
        if item.departure and item.how in (SURE, CONNECTION) and item.arrival.kind in (OF_TCP, OF_UDP, QUERY):
            came, left = item.arrival, item.departure
            if item.way is not IN and left.source[0] not in self.given.prefixes:
                self.use(came, left, came.source, left.source, True)
            if item.way is not OUT:
                self.use(came, left, left.destination, came.destination, False)

    def use(self, came: Packet, left: Packet, inside: Endpoint, external: Endpoint, is_out: bool):
        """An entry is used from when a packet arrived to when it left."""
        key, times = (came.protocol, external), sorted((came.time, left.time))
        entry = self.open.get(key)
        if entry is None or entry.inside != inside or times[0] - entry.last > SILENT[came.protocol]:
            entry = self.open[key] = Entry(len(self.entries) + 1, came.protocol, inside, external, *times)
            self.entries.append(entry)
        entry.last = max(entry.last, times[1])
        entry.sent += is_out
        entry.received += not is_out

    def notes(self) -> Iterator[str]:
        yield from super().notes()
        yield "the log is inferred from pairs: an entry is sure from its first packet to its last use"

    def write(self, file: TextIO):
        """Writes all rows in order of time, ends first."""
        rows = [entry.row(event) for entry in self.entries for event in (MADE, ENDED)]
        writer = csv.writer(file, lineterminator="\n")
        writer.writerow(FIELDS)
        writer.writerows(sorted(rows, key=lambda row: (row[0], -row[1], row[8])))
