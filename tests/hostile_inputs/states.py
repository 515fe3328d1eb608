"""The text of a state, which configurations take it, and a run that goes on from it and its log, worked out in the plainest way
(docs/FORMATS.md)."""

import functools
import re
from dataclasses import dataclass, field

from . import translating
from .logged import Entry, Logger, dated
from .packets import ICMP, TCP
from .translating import NAMES, PROTOCOLS, SECOND, Binding, Flow, Translator, shown

NUMBER = "(?:0|[1-9][0-9]{0,19})"
END = rf"({NUMBER}\.{NUMBER}\.{NUMBER}\.{NUMBER}) ({NUMBER})"
CLOCK = re.compile(f"clock ({NUMBER})")
ENDS = f"(icmp|tcp|udp) {END} {END}"
ROW = f"(binding|redirect) {ENDS}"
# with the account of its entry, or without one
BINDING = re.compile(f"{ROW} ({NUMBER})(?: ({NUMBER}) ({NUMBER}) ({NUMBER}) ({NUMBER}) ({NUMBER}) ({NUMBER}))?")
HELD = re.compile(f"held {ENDS} ({NUMBER})")
FLOW = re.compile(f"flow {END} ({NUMBER}) ([01]) ([01]) ([01]) ([01]) ([01])")
LOG = re.compile(f"log ({NUMBER}) ({NUMBER}) ({NUMBER}) ({NUMBER})")
LAST = re.compile(f"end ({NUMBER}) ({NUMBER})")
# as versions before 2 wrote a log: after the bindings, with its entries, whose ends have up to 128 bits
EARLIER = re.compile(f"log ({NUMBER}) ({NUMBER})")
ENTRY = re.compile(rf"entry ({NUMBER}) {ROW} ({NUMBER}) (0|[1-9][0-9]{{0,38}}|never)" + f" ({NUMBER})" * 4)
EARLIER_LAST = re.compile(f"end ({NUMBER}) ({NUMBER}) ({NUMBER})")
MOST, MOST_COUNT, MOST_END = 2**64 - 1, 2**61, 2**128 - 1
# of a state that has no accounts of its bindings
BEGUN = "{}: the log begins a new entry for each binding of the state, at {}: the run before had no log\n"
# of bindings that end since they do not fit
ENDED = "{}: {} of the bindings of the state end now: the configuration does not accept them\n"
# of packets that are earlier than the state
BEFORE = "{}: a packet of {} is earlier than the state's time, {}: until then packets count as if they came at that time, and no timer ends\n"


class Refused(Exception):
    """Why a state is refused, as the fault line says it."""


@dataclass
class Place:
    """How many entries a log has, and where its text ends: the number of its last piece, or 0, the bytes of the file, and the hash of
    its last row; all are 0 where it went to no file."""

    made: int = 0
    piece: int = 0
    length: int = 0
    row: int = 0


@dataclass
class State:
    clock: int = 0
    bindings: list = field(default_factory=list)
    log: Place = None


@dataclass
class Held:
    """A binding that had ended when the state was saved, and when; its number is held."""

    binding: Binding
    end: int


def place_of(made, text, piece=0):
    """Where a log of this number of entries ends that has this text."""
    last = text.splitlines()[-1] if text else b""
    return Place(made, piece, len(text), row_hash(last)) if text else Place(made)


def row_hash(row):
    """FNV-1a, of 64 bits."""
    return functools.reduce(lambda found, byte: (found ^ byte) * 1_099_511_628_211 % 2**64, row, 14_695_981_039_346_656_037)


def text_of(state):
    """The bytes of a state's text."""
    lines = [f"clock {state.clock}"]
    if state.log:
        lines.append(f"log {state.log.made} {state.log.piece} {state.log.length} {state.log.row}")
    for it in state.bindings:
        if isinstance(it, Held):
            lines.append(f"held {ends_of(it.binding)} {it.end}")
            continue
        lines.append(" ".join([row_of(it), str(it.last), *map(str, account_of(it.entry) if state.log else ())]))
        lines += map(line_of_flow, it.flows)
    lines.append(" ".join(map(str, ["end", *counts_of(state)])))
    return "".join(f"{line}\n" for line in lines).encode()


def earlier_text(rules, state):
    """The text of a state as versions before 2 wrote it."""
    lines, entries = [f"clock {state.clock}"], []
    for it in state.bindings:
        binding = revived(rules, it, state.clock) if isinstance(it, Held) else it
        lines += [f"{row_of(binding)} {binding.last}", *map(line_of_flow, binding.flows)]
        entries += [binding.entry] if binding.entry else []
    flows = sum(line.startswith("flow") for line in lines)
    counts = [len(state.bindings), flows, *([len(entries)] if state.log else [])]
    if state.log:
        lines.append(f"log {state.log.made} {state.log.length}")
        for it in sorted(entries, key=lambda it: it.number):
            end = "never" if it.binding.is_fixed else it.binding.end(rules.timers)
            number, made, *uses = account_of(it)
            lines.append(" ".join(map(str, ["entry", number, row_of(it.binding), made, end, *uses])))
    lines.append(" ".join(map(str, ["end", *counts])))
    return "".join(f"{line}\n" for line in lines).encode()


def row_of(binding):
    return f"{'redirect' if binding.is_fixed else 'binding'} {ends_of(binding)}"


def ends_of(binding):
    return f"{NAMES[binding.protocol]} {words_of(binding.inside)} {words_of(binding.external)}"


def account_of(entry):
    return [entry.number, entry.made, entry.sent, entry.received, entry.last, entry.last_sent] if entry else []


def line_of_flow(flow):
    marks = ["out" in flow.syns, "in" in flow.syns, "out" in flow.fins, "in" in flow.fins, flow.is_reset]
    return " ".join(["flow", words_of(flow.remote), str(flow.last), *(str(int(mark)) for mark in marks)])


def words_of(end):
    return f"{shown(end[0])} {end[1]}"


def number_in(text, most=MOST):
    if int(text) > most:
        raise ValueError
    return int(text)


def end_in(address, number):
    parts = [number_in(part, 255) for part in address.split(".")]
    return int.from_bytes(bytes(parts), "big"), number_in(number, 65535)


def take_line(state, line):
    """Takes the next line; returns whether it is the last."""
    if last := LAST.fullmatch(line):
        if [int(part) for part in last.groups()] != counts_of(state) or not has_accounts(state):
            raise ValueError
        return True
    if log := LOG.fullmatch(line):
        if state.log or state.bindings:
            raise ValueError
        state.log = Place(number_in(log[1], MOST_COUNT), *map(number_in, log.groups()[1:]))
    elif flow := FLOW.fullmatch(line):
        state.bindings[-1].flows.append(flow_in(*flow.groups()))
    elif held := HELD.fullmatch(line):
        *row, end = held.groups()
        state.bindings.append(Held(binding_in("binding", *row), number_in(end)))
    else:
        *row, last = BINDING.fullmatch(line).groups()[:7]
        binding = binding_in(*row[:6])
        binding.last = number_in(last)
        if account := BINDING.fullmatch(line).groups()[7:]:
            binding.entry = entry_in(binding, *account) if account[0] else None
        state.bindings.append(binding)
    return False


def take_earlier_line(state, entries, line):
    """Takes the next line after the log of one that versions before 2 wrote; returns whether it is the last."""
    if entry := ENTRY.fullmatch(line):
        number, *row, made, end, sent, received, last, last_sent = entry.groups()
        number_in("0" if end == "never" else end, MOST_END)
        entries.append(entry_in(binding_in(*row), number, made, sent, received, last, last_sent))
        return False
    *counts, many = (int(part) for part in EARLIER_LAST.fullmatch(line).groups())
    known = {key_of(it.binding): it for it in entries}
    for it in state.bindings:
        if not isinstance(it, Held):
            it.entry = known.get(key_of(it))
    joined = sum(not isinstance(it, Held) and it.entry is not None for it in state.bindings)
    if counts != counts_of(state) or not many == joined == len(entries) or not has_accounts(state):
        raise ValueError
    return True


def key_of(binding):
    return (binding.protocol, binding.external)


def has_accounts(state):
    """Whether a log can have the accounts of a state, and what is held has ended."""
    accounted = [it for it in state.bindings if not isinstance(it, Held) and it.entry]
    entries = [it.entry for it in accounted]
    made = state.log.made if state.log else 0
    are_own = len({it.number for it in entries}) == len(entries) and len({key_of(it) for it in accounted}) == len(entries)
    are_within = all(0 < it.number <= made and it.made <= state.clock for it in entries)
    return are_own and are_within and all(it.end <= state.clock for it in state.bindings if isinstance(it, Held))


def binding_in(kind, protocol, inside, number, external, other):
    return Binding(PROTOCOLS[protocol], end_in(inside, number), end_in(external, other), kind == "redirect")


def entry_in(binding, number, made, sent, received, last, last_sent):
    """The entry of an account."""
    entry = Entry(number_in(number), binding, number_in(made))
    entry.sent, entry.received = (number_in(count, MOST_COUNT) for count in (sent, received))
    entry.last, entry.last_sent = number_in(last), number_in(last_sent)
    return entry


def flow_in(address, number, last, *marks):
    flow, marks = Flow(end_in(address, number)), [mark == "1" for mark in marks]
    flow.last = number_in(last)
    flow.syns = {way for way, mark in zip(("out", "in"), marks) if mark}
    flow.fins = {way for way, mark in zip(("out", "in"), marks[2:]) if mark}
    flow.is_reset = marks[4]
    return flow


def counts_of(state):
    return [len(state.bindings), sum(len(it.flows) for it in state.bindings if not isinstance(it, Held))]


def read(data):
    """The state of a text. Raises `Refused` with the number of the first line that is none of one there, or that is missing."""
    state, entries, lines, number = State(), None, data.split(b"\n"), 0
    is_last = False
    try:
        while not is_last:
            number += 1
            line = lines[number - 1].decode()
            # what follows the last line feed is not a line
            if number == len(lines):
                raise ValueError
            if number == 1:
                state.clock = number_in(CLOCK.fullmatch(line)[1])
            elif entries is not None:
                is_last = take_earlier_line(state, entries, line)
            elif not state.log and (log := EARLIER.fullmatch(line)):
                number_in(log[2])
                state.log, entries = Place(number_in(log[1], MOST_COUNT)), []
            else:
                is_last = take_line(state, line)
    except UnicodeDecodeError:
        raise Refused(f"not-utf-8 {number}") from None
    except (ValueError, TypeError, AttributeError, IndexError):
        raise Refused(f"bad-line {number}") from None
    if lines[number:] != [b""]:
        raise Refused(f"bad-line {number + 1}")
    return state


# WHICH STATES ARE TAKEN


def revived(rules, held, clock):
    """A binding that ends when a held one did, under these timers, or None if that would live at the clock."""
    binding = held.binding
    timer = SECOND * rules.timers["tcp-transitory" if binding.protocol == TCP else NAMES[binding.protocol]]
    binding.last = max(0, held.end - timer)
    if binding.protocol == TCP:
        flow = Flow((0, 0))
        flow.last = binding.last
        binding.flows = [flow]
    return None if binding.is_live(clock, rules.timers) else binding


def loose(rules, state):
    """The bindings that are no redirects and live or are held at the state's clock, each with the flows that are left then."""
    ago = max(0, state.clock - SECOND * rules.hold)
    every = [revived(rules, it, state.clock) if isinstance(it, Held) else it for it in state.bindings]
    kept = [it for it in every if it and not it.is_fixed and it.is_live(ago, rules.timers)]
    for it in kept:
        it.flows = it.live_flows(ago, rules.timers)
    return kept


def misfits(rules, binding, clock, fixed, behind):
    """What is wrong with a binding, in the order of the checks."""
    (host, port), (external, number) = binding.inside, binding.external
    keys = {(binding.protocol, "inside", binding.inside), (binding.protocol, "external", binding.external)}
    block, remotes = rules.block_of(host), [flow.remote for flow in binding.flows]
    yield "not-inside", not rules.is_inside(host)
    yield "not-paired", external != rules.pair(host)
    yield "not-its-number", (binding.protocol != ICMP and 0 in (port, number)) or (block is not None and number not in block)
    yield "used-later", max([binding.last, *(flow.last for flow in binding.flows)]) > clock
    yield "flows-share", len(set(remotes)) < len(remotes)
    yield "redirected", bool(keys & fixed)
    yield "shared", bool(keys & behind)
    behind |= keys


def redirected(rules):
    """The endpoints of the redirects, each under its protocol."""
    ends = [[("inside", inside), ("external", external)] for _, inside, external in rules.redirects]
    return {(PROTOCOLS[it[0]], *end) for it, both in zip(rules.redirects, ends) for end in both}


def misfit(rules, state, kept):
    """Why the first binding that does not fit the configuration does not, or None."""
    fixed, behind, found = redirected(rules), set(), None
    # each with those after it
    for it in reversed(kept):
        wrong = [word for word, holds in misfits(rules, it, state.clock, fixed, behind) if holds]
        found = wrong[0] if wrong else found
    return found


def end_misfits(rules, state, kept):
    """Ends the bindings that do not fit the configuration, each with those after it that do, as if last used when 1970 began. Returns
    how many they are."""
    fixed, behind, many = redirected(rules), set(), 0
    for it in reversed(kept):
        after = set(behind)
        if any([holds for _, holds in misfits(rules, it, state.clock, fixed, after)]):
            it.last, it.flows, many = 0, [], many + 1
        else:
            behind = after
    return many


# A RUN THAT GOES ON


def taken_up(rules, state, kind=Translator, ends=False):
    """The translator of a kind that goes on from a state, and how many of its bindings end since they do not fit, if they are to. Raises
    `Refused` where the configuration does not take it."""
    kept, many, ago = loose(rules, state), 0, max(0, state.clock - SECOND * rules.hold)
    if ends:
        many = end_misfits(rules, state, kept)
        kept = [it for it in kept if it.is_live(ago, rules.timers)]
    if word := misfit(rules, state, kept):
        raise Refused(word)
    translator = kind(rules)
    translator.bindings += kept
    return translator, many


def left_by(translator, clock):
    """The state that a run leaves: at each address of the pool in turn its bindings by protocol and number."""
    translator.purge(clock)
    place, timers = translator.rules.pool.index, translator.rules.timers
    every = sorted(translator.bindings + translator.held, key=lambda it: (place(it.external[0]), it.protocol, it.external[1]))
    return State(clock, [it if it.is_live(clock, timers) else Held(it, it.end(timers)) for it in every])


def seen(rules, data):
    """What counts of the text of a state that a run left: its clock, what lives then, and until when a number is held. Of flows that
    have ended the program may forget those within the hold. Of its log all counts but where its text ends. Raises `ValueError` where
    the text is not that of its state."""
    state = read(data)
    if text_of(state) != data:
        raise ValueError("another text of this state")
    timers, lines = rules.timers, [state.clock, state.log and state.log.made]
    for it in state.bindings:
        if isinstance(it, Held):
            lines.append((it.binding.row(), it.end))
            continue
        flows = [(flow.remote, flow.last, flow.syns, flow.fins, flow.is_reset) for flow in it.live_flows(state.clock, timers)]
        lines.append((it.row(), it.last, flows, account_of(it.entry)))
    return lines


def run(rules, data, inside, outside, log=None, each=None, piece=0, ends=False):
    """What a run from a state's text, or None, leaves over two captures, by the names of outputs: the captures, the report and the text
    of the state; of a run with a log, of whose file this is the text, that of the file, the rows of what lives after it, and whether
    entries are begun of all bindings that are there. A log in pieces of this number of seconds, the first with the number after that of one
    that is there, leaves those before its last one too. Of misfits that end it leaves how many they are."""
    state = read(data) if data is not None else State()
    translator, many = taken_up(rules, state, Translator if log is None else functools.partial(Logger, each=each), ends)
    if log is not None:
        # a row that was torn is written again
        log = log[: state.log.length] if state.log else log
        accounted = [it for it in state.bindings if not isinstance(it, Held) and it.entry]
        translator.open(state.clock, state.log.made if state.log else 0, accounted, is_new=not log)
        is_anew = not accounted and any(not it.is_fixed for it in translator.bindings)
    *written, clock = translating.ran(translator, state.clock, inside, outside)
    left, named = left_by(translator, clock), dict(zip(("to-outside", "to-inside", "report"), written))
    named["ended"] = many
    if log is not None:
        rows, living = (text.encode() for text in translator.text())
        left.log = place_of(translator.many, log + rows, piece + len(translator.pieces) + 1 if each else 0)
        named |= {"before": [it.encode() for it in translator.pieces], "log": log + rows, "living": living, "is_anew": is_anew}
    return named | {"saved": text_of(left)}


def begun_line(name, data):
    """What a program says if it begins new entries for a state's text."""
    return BEGUN.format(name, dated(read(data).clock))


def ended_line(name, many):
    """What a program says of this number of bindings of a state that end since they do not fit."""
    return ENDED.format(name, many) if many else ""


def earlier_line(name, clock, times):
    """What stream says of the first packets of its captures, which have these times, after a state of this clock: it reads the inside
    capture first."""
    early = [time for time in times if time < clock]
    return BEFORE.format(name, dated(early[0]), dated(clock)) if early else ""
