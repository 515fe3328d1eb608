"""The log of a run, worked out over the run of translating.py: when each binding is made, its end by the timers of the configuration, its
packets, and the packets that got none (RFC 6888, section 4; RFC 8158). Rows come in the order of packets: of each the bindings that ended
since the packet before, the one that it made, and whether it got none. A log may come in pieces, each of which begins as a new log."""

import datetime

from . import translating
from .translating import SECOND, Dropped, shown

FIELDS = """observationTimeNanoseconds natEvent protocolIdentifier sourceIPv4Address sourceTransportPort postNATSourceIPv4Address
    postNAPTSourceTransportPort natQuotaExceededEvent binding redirect packets_out packets_in flowEndNanoseconds note""".split()
EVENT, REPEATED = FIELDS.index("natEvent"), "repeated"
MADE, ENDED, NO_PORT, OVER_QUOTA = 8, 9, 12, 13
SHORTAGES = {"no-port": NO_PORT, "over-quota": OVER_QUOTA}


def dated(time):
    """A time in ns as a date of RFC 3339 in UTC, with nine decimals."""
    seconds, rest = divmod(time, SECOND)
    date = datetime.datetime.fromtimestamp(seconds, datetime.timezone.utc)
    return f"{date:%Y-%m-%dT%H:%M:%S}.{rest:09}Z"


class Entry:
    """A binding of a run, also after its end."""

    def __init__(self, number, binding, made):
        self.number = number
        self.binding = binding
        self.made = self.last = self.last_sent = made
        self.end = None
        self.sent = self.received = 0

    def row(self, at, event, note=""):
        """Its row of the log as it is now; the event is empty at the end of the run, and the time too of what never ends."""
        ends = [part for address, number in (self.binding.inside, self.binding.external) for part in (shown(address), number)]
        last = self.last if self.sent or self.received else ""
        counts = [self.number, int(self.binding.is_fixed), self.sent, self.received]
        return ["" if at is None else at, event, self.binding.protocol, *ends, "", *counts, last, note]


def end_of(binding, timers):
    return None if binding.is_fixed else binding.end(timers)


def refusal(at, event, protocol, host, address):
    """The row of a packet that got no binding."""
    quota = 3 if event == OVER_QUOTA else ""
    return [at, event, protocol, shown(host), "", shown(address), "", quota, *[""] * 6]


class Logger(translating.Translator):
    """A translator that keeps what its bindings were, from where its log is opened on, in pieces of the given number of seconds, if there is one."""

    def __init__(self, configured, each=None):
        super().__init__(configured)
        self.many, self.living, self.told, self.refused, self.now = 0, [], [], [], 0
        # the pieces before, and when the packet before came
        self.each, self.pieces, self.last = each, [], None

    def open(self, now, many, accounted, is_new):
        """Goes on from a time with a log of this number of entries, of these bindings of a state, and a file that may be new. An entry whose
        binding is not here ends then, and a binding without an entry gets one."""
        self.now, self.many = now, many
        self.purge(now)
        before = sorted((it.entry for it in accounted), key=lambda it: it.number)
        known, here = {it.binding.row(): it for it in before}, {it.row() for it in self.bindings}
        self.living = [it for it in before if it.binding.row() in here]
        self.told = self.opening(before) if is_new else []
        self.told += [it.row(now, ENDED) for it in before if it.binding.row() not in here]
        for binding in self.bindings:
            binding.entry = known.get(binding.row())
            if binding.entry:
                binding.entry.binding = binding
            else:
                self.begin(binding)
        self.told += [it.row(it.made, MADE) for it in self.living if it.number > many]
        self.keep_ends()

    def opening(self, entries):
        """How a new log begins, which repeats the entries that have not ended."""
        return [FIELDS, *(it.row(it.made, MADE, REPEATED) for it in entries)]

    def begin(self, binding):
        self.many += 1
        binding.entry = Entry(self.many, binding, self.now)
        self.living.append(binding.entry)

    def made(self, protocol, address, inside):
        try:
            binding = super().made(protocol, address, inside)
        except Dropped as dropped:
            self.refused.append(refusal(self.now, SHORTAGES[str(dropped)], protocol, inside[0], address))
            raise
        self.begin(binding)
        return binding

    def use(self, binding, *names):
        entry = binding.entry
        for name in names[1:]:
            setattr(entry, name, self.now)
        setattr(entry, names[0], getattr(entry, names[0]) + 1)

    def go_out(self, now, packet):
        inside = packet.end(True)
        super().go_out(now, packet)
        if not packet.is_error():
            self.use(self.found(packet.protocol, self.rules.pair(inside[0]), inside=inside), "sent", "last", "last_sent")

    def come_in(self, now, packet):
        address, number = packet.end(False)
        super().come_in(now, packet)
        if not packet.is_error():
            self.use(self.found(packet.protocol, address, number=number), "received", "last")

    def in_order(self):
        """What lives, in the order in which it ends; redirects, which never do, last."""
        return sorted(self.living, key=lambda it: (it.end is None, it.end or 0, it.number))

    def tell_ends(self):
        """Adds the rows of the bindings that ended by now."""
        self.told += [it.row(it.end, ENDED) for it in self.in_order() if it.end is not None and it.end <= self.now]
        self.living = [it for it in self.living if it.end is None or it.end > self.now]

    def keep_ends(self):
        for binding in self.bindings:
            binding.entry.end = end_of(binding, self.rules.timers)

    def take(self, now, is_outside, data):
        """Takes a packet, adds the rows that it brings, perhaps to a new piece, and keeps the ends as they are after it."""
        if self.each and self.last is not None and self.last // (self.each * SECOND) < now // (self.each * SECOND):
            self.pieces.append(csv(self.told))
            self.told = self.opening(self.living)
        self.now = self.last = now
        self.tell_ends()
        before, self.refused = self.many, []
        try:
            return super().take(now, is_outside, data)
        finally:
            self.told += [it.row(now, MADE) for it in self.living if it.number > before] + self.refused
            self.keep_ends()

    def text(self):
        """What it wrote from where it was opened on, or in its last piece, without what lives at the end, and the rows of that."""
        return csv(self.told), csv([it.row(it.end, "") for it in self.in_order()])


def csv(rows):
    return "".join(",".join(map(str, row)) + "\n" for row in rows)


def joined(pieces):
    """The text of a log in pieces, without the openings of those after the first: its fields and the rows that a piece repeats."""
    rows = []
    for piece in pieces:
        rows += [row for row in piece.splitlines(True)[1 if rows else 0 :] if not row.endswith(f",{REPEATED}\n")]
    return "".join(rows)


def without_gateway(text):
    """A log without the rows of its gateway, which have no event and no protocol."""
    return "".join(row for row in text.splitlines(True) if row.split(",")[EVENT : EVENT + 2] != ["", ""])


def logged(configured, inside, outside):
    """The log of the run over two captures: its text, and the time of the last packet."""
    logger = Logger(configured)
    logger.open(0, 0, [], is_new=True)
    clock = translating.ran(logger, 0, inside, outside)[-1]
    return "".join(logger.text()), clock
