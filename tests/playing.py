"""Calls of tests/calls, as tests/played --help says: the lines for `napt_calls play`, and what it answers to them."""
import dataclasses
import re
import tomllib

import texts
from hostile_inputs import captures
from hostile_inputs.configurations import text_of
from shared import TESTS, called
from texts import nanoseconds


@dataclasses.dataclass
class Call:
    """A line for the player, and its answer: a text, a number of rows, a pattern, or None if it is not compared."""
    line: int
    asked: str
    wanted: str | int | re.Pattern | None = None


def endpoint(text):
    """An endpoint as the player is told it."""
    return " ".join(map(str, texts.endpoint(text)))


def shown_end(end):
    """An address and a number as the player shows an endpoint."""
    return f"Endpoint {{ address: {end[0]}, number: {end[1]} }}"


def shown_endpoint(text):
    return shown_end(texts.endpoint(text))


# words that the code spells in another way
CODE_WORDS = {"double": "Duplicate"}


def shown_name(text):
    """A name as the player shows it: no-port is NoPort."""
    return "".join(CODE_WORDS.get(word, word.capitalize()) for word in text.split("-"))


def shown_result(wanted, shown):
    """An answer or a cause."""
    word, *rest = wanted.split()
    return f"Err({shown_name(rest[0])})" if word == "drop" else f"Ok({shown(wanted)})"


def shown_option(wanted, shown):
    """An answer or none."""
    return "None" if wanted == "none" else f"Some({shown(wanted)})"


def shown_list(items):
    return f"[{', '.join(map(str, items))}]"


def told_bytes(data):
    return " ".join(map(str, data))


def protocol_of(word):
    return "icmp" if word == "echo" else word


def flow(words):
    """Protocol, source, destination and flags of words as 'tcp SA 10.0.0.2:5000 > 198.51.100.7:80'."""
    flags = words[1] if words[0] == "tcp" else "-"
    return protocol_of(words[0]), words[-3], words[-1], flags


def shown_kind(words):
    """What a packet is and both its ends."""
    protocol, source, destination, flags = flow(words[:4] if words[0] == "error" else words)
    kind = words[0].capitalize()
    if protocol == "tcp":
        marks = zip(("fin", "syn", "rst", "ack"), "FSRA")
        marks = ", ".join(f"{name}: {str(letter in flags).lower()}" for name, letter in marks)
        kind = f"Tcp(Flags {{ {marks} }})"
    if protocol == "error":
        inner, *ends, _ = flow(words[5:])
        ends = f"source: {shown_endpoint(ends[0])}, destination: {shown_endpoint(ends[1])}"
        kind = f"ErrorOf(Inner {{ protocol: {inner.capitalize()}, {ends} }})"
    return f"{kind} {shown_endpoint(source)} {shown_endpoint(destination)}"


def shown_row(text):
    protocol, inside, external, *fixed = text.split()
    ends = f"inside: {shown_endpoint(inside)}, external: {shown_endpoint(external)}"
    return f"Row {{ protocol: {protocol.capitalize()}, {ends}, fixed: {str(bool(fixed)).lower()} }}"


def shown_rows(rows):
    return shown_list(map(shown_row, rows))


def items_of(wanted, mark=", "):
    return [] if wanted == "none" else wanted.split(mark)


def wanted_rows(wanted):
    """The bindings, or how many they are."""
    return int(wanted.split()[0]) if wanted.endswith(" rows") else shown_rows(items_of(wanted))


def wanted_redirects(wanted):
    """Redirects, as 'udp 10.0.0.3:7000 7000', or how many they are."""
    if wanted.isdigit():
        return re.compile(rf"\[(Redirect \{{[^}}]*\}}(, )?){{{wanted}}}\]")
    items = ((it[0] == "tcp", *texts.endpoint(it[1]), it[2]) for it in map(str.split, items_of(wanted)))
    return shown_list(f"Redirect {{ tcp: {str(tcp).lower()}, address: {address}, port: {port}, external: {external} }}"
        for tcp, address, port, external in items)


def shown_entry(text):
    """An entry of the log, as 'udp 10.0.0.2:5000 203.0.113.1:5000 10 to 310 in 1 last 11', which has one packet out, the
    last, where it says nothing else; a redirect, with `fixed` in place of its times, has none."""
    words = text.split()
    *binding, word, _, until = [*words, "", ""][:6]
    is_fixed = word == "fixed"
    told = dict(zip(words[4::2], words[5::2])) if is_fixed else dict(zip(words[6::2], words[7::2]))
    made = 0 if is_fixed else nanoseconds(word)
    end = "None" if is_fixed else f"Some({nanoseconds(until)})"
    last, last_sent = (nanoseconds(told[name]) if name in told else made for name in ("last", "last-out"))
    row = shown_row(" ".join([*binding, *(["fixed"] if is_fixed else [])]))
    counts = f"sent: {told.get('out', int(not is_fixed))}, received: {told.get('in', 0)}"
    return f"Entry {{ binding: {row}, made: {made}, end: {end}, {counts}, last: {last}, last_sent: {last_sent} }}"


def shown_listed(text):
    number, _, entry = text.partition(" ")
    return f"LogEntry {{ number: {number}, entry: {shown_entry(entry)} }}"


def shown_shortage(text):
    """A packet that no binding could be made for, as '2 over-quota udp 10.0.0.2'."""
    at, cause, protocol, host = text.split()
    what = f"cause: {shown_name(cause)}, protocol: {protocol.capitalize()}, host: {texts.endpoint(host)[0]}"
    return f"Shortage {{ at: {nanoseconds(at)}, {what} }}"


def step_pattern(wanted):
    """What the log gets from an input: 'ended LISTED, ..; made LISTED; refused SHORTAGE; used made out 2 into 1', or
    'nothing'."""
    told = dict(part.split(" ", 1) for part in items_of(wanted.replace("nothing", "none"), "; "))
    used = r"BindingTally \{[^}]*\}"
    if "used" in told:
        note, _, out, _, into = told["used"].split()
        used = re.escape(f"BindingTally {{ note: {note.capitalize()}, outbound: Some({out}), inbound: Some({into}) }}")
    shown = ((shown_listed, "ended"), (shown_listed, "made"), (shown_shortage, "refused"))
    return " ".join([*map(re.escape, (shown_list(map(how, items_of(told.get(name, "none")))) for how, name in shown)), used])


def capture_of(text):
    """A capture of records of a byte, as '1 0a, 4 0b and then 0000': the times and bytes, and what follows them."""
    text, _, behind = text.partition(" and then ")
    records = [(nanoseconds(time), bytes.fromhex(byte)) for time, byte in map(str.split, items_of(text))]
    return bytes(captures.savefile(records, captures.MICROSECONDS)) + bytes.fromhex(behind)


def told_captures(words):
    """Both captures, between which stands ` | `, as the player is told them."""
    inside, outside = map(capture_of, " ".join(words).split(" | "))
    return f"{len(inside)} {told_bytes(inside + outside)}"


def shown_input(text):
    side, time, clock, byte = text.split()
    times = f"time: {nanoseconds(time)}, clock: {nanoseconds(clock)}"
    return f"Input {{ side: {side.capitalize()}, {times}, bytes: [{int(byte, 16)}] }}"


def inputs_pattern(wanted):
    """Inputs, and then whether a capture is cut, as `cut inside`, or the fault of one, as `fault inside too-long 2`."""
    *items, last = items_of(wanted) or [""]
    kind, side, *fault = last.split()[:4] or ["", ""]
    end = f"CutFlags {{ inside: {str(side == 'inside').lower()}, outside: {str(side == 'outside').lower()} }}"
    if kind == "fault":
        number = "".join(f"({it})" for it in fault[1:])
        end = f"SideFault {{ side: {side.capitalize()}, fault: {shown_name(fault[0])}{number} }}"
    elif kind != "cut":
        items += [last] if last else []
        end = "CutFlags { inside: false, outside: false }"
    inputs = "".join(f"(true|false) {re.escape(shown_input(it))}; " for it in items)
    return re.compile(f"{inputs}((true|false) {re.escape(end)}; ){{2,}}")


class Run:
    """The calls of a run, in order. The method `on_CALL` takes the words after a call and its answer as a text has
    them, and returns the line for the player and what it answers; `line` and `time` are those of the text's line."""

    def __init__(self, lines):
        self.names, self.calls, self.steps, self.called, self.refused = {}, [], [], set(), []
        configs = [texts.lines_in(line.text[7:]) for line in lines if line.text.startswith("config")]
        self.config = "".join(f"{it}\n" for line in sum(configs, []) for it in texts.repeated(line))
        for line in lines:
            if not line.text.startswith("config"):
                try:
                    self.add(line)
                except (LookupError, AttributeError, ValueError) as error:
                    raise ValueError(f"{line.number}: not understood: {' '.join(line.text.split())}") from error

    def add(self, line):
        """Adds the call of a line, or gives bytes a name."""
        asked, arrow, wanted = (" ".join(it.split()) for it in line.text.partition("->"))
        call, *words = asked.split()
        if words[:1] == ["="]:
            self.names[call] = self.data(words[1:])
            return
        self.line, self.time = line.number, None
        if call == "at":
            self.time, call, words = nanoseconds(words[0]), words[1], words[2:]
        if bool(arrow) == (call in ("table", "translators", "built_in", "copy")):
            raise ValueError("an answer too many, or none")
        answer = plain(call, self, words, wanted) if call in PLAIN else getattr(self, f"on_{call}")(words, wanted)
        self.calls.append(Call(self.line, *answer))
        self.called.add(call)

    def data(self, words):
        return texts.packet(words, self.names)

    def shown_data(self, words):
        return shown_list(self.data(words))

    def read(self, side, words):
        """Makes the bytes that words say the current packet."""
        self.calls.append(Call(self.line, f"read {side} {told_bytes(self.data(words))}"))

    def on_read(self, words, wanted):
        side, *words = words
        first, *rest = wanted.split()
        shown = f"{shown_name(rest[0])} {self.shown_data(words)}" if first == "drop" else shown_kind([first, *rest])
        return f"read {side} {told_bytes(self.data(words))}", shown

    def on_outbound(self, words, wanted):
        words, block = (words[:-3], words[-2:]) if words[-3] == "in" else (words, [])
        protocol, inside, remote, flags = flow(words)
        asked = f"outbound {self.time} {protocol} {endpoint(inside)} {endpoint(remote)} {flags} {' '.join(block)}"
        parities = {"even": re.compile(r"Ok\(\d*[02468]\)"), "odd": re.compile(r"Ok\(\d*[13579]\)")}
        return asked, parities.get(wanted) or shown_result(wanted, str)

    def on_inbound(self, words, wanted):
        protocol, remote, external, flags = flow(words)
        asked = f"inbound {self.time} {protocol} {endpoint(external).split()[1]} {endpoint(remote)} {flags}"
        return asked, shown_result(wanted, shown_endpoint)

    def place(self, address):
        return str(tomllib.loads(self.config)["pool"].index(address))

    def on_translate(self, words, wanted):
        address, way, *packet = words
        if packet != ["current"]:
            self.read("inside" if way == "outgoing" else "outside", packet)
        end, *rest = wanted.split()
        if end == "drop":
            shown = f"Dropped {shown_name(rest[0])}"
        elif end == "onward":
            shown = f"Onward {self.place(rest[0])} {self.shown_data(rest[1:])}"
        else:
            shown = f"To{end.capitalize()} {self.shown_data(rest)}"
        return f"translate {self.place(address)} {self.line} {self.time} {way}", f"{self.line} {shown}"

    def on_rows(self, words, wanted):
        return f"rows {self.place(words[0])} {self.time}", wanted_rows(wanted)

    def on_route(self, words, wanted):
        self.read(words[0], words[1:])
        return f"route {words[0]}", shown_result(wanted, self.place)

    def on_onward(self, words, wanted):
        self.read("inside", words)
        return "onward", shown_option(wanted, self.place)

    def on_read_capture(self, words, wanted):
        parts = [part.split() for part in wanted.split(", ")]
        told = [(nanoseconds(part[1]), self.data(part[2:])) for part in parts if part[0] == "record"]
        if parts[0] == ["none"] or told:
            records = shown_list(f"Record {{ time: {time}, bytes: {shown_list(data)}, original: {len(data)} }}" for time, data in told)
            shown = f"Ok(Capture {{ records: {records}, cut: {str(parts[-1] == ['cut']).lower()} }})"
        else:
            fault, *number = wanted.split()
            shown = f"Err({shown_name(fault)}{''.join(f'({it})' for it in number)})"
        return f"read_capture {told_bytes(self.data(words))}", shown

    def on_write_capture(self, words, wanted):
        return f"write_capture {nanoseconds(words[0])} {told_bytes(self.data(words[1:]))}", f"Ok(()) {self.shown_data(wanted.split())}"

    def on_settings(self, words, wanted):
        self.steps = []
        text = f"{self.config}{' '.join(words)}".replace(" | ", "\n").encode()
        text = bytes.fromhex(words[1]) if words[:1] == ["bytes"] else text
        self.refused += [(wanted, text)] if wanted != "taken" else []
        return f"settings {told_bytes(text)}", "None" if wanted == "taken" else f"Some({shown_name(wanted)})"

    def on_setting(self, words, wanted):
        return words[0], SETTINGS.get(words[0], shown_name)(wanted)

    def on_step(self, words, wanted):
        self.steps.append(step_pattern(wanted))
        return f"input {words[0]} {self.time} {told_bytes(self.data(words[1:]))}", "taken"

    def on_living(self, _words, wanted):
        pattern = "".join(f"{it}; " for it in (*self.steps, re.escape(shown_list(map(shown_listed, items_of(wanted))))))
        return "logged", re.compile(f"{pattern}.*")

    def on_log(self, _words, wanted):
        pattern = "".join(f"{it}; " for it in self.steps)
        return "logged", re.compile(f"{pattern}.*; {re.escape(shown_list(map(shown_entry, items_of(wanted))))}")

    def on_merged(self, words, wanted):
        inputs = [shown_input(it) for it in items_of(wanted) if not it.startswith("cut ")]
        self.calls.append(Call(self.line, f"merge {told_captures(words)}", shown_list(inputs)))
        return self.on_streamed(words, wanted)

    def on_streamed(self, words, wanted):
        return self.on_broken(["65535", "0", *words], wanted)

    def on_broken(self, words, wanted):
        return f"streams {words[0]} {words[1]} {told_captures(words[2:])}", inputs_pattern(wanted)

    def on_alone(self, words, wanted):
        return f"stream {told_bytes(capture_of(' '.join(words)))}", inputs_pattern(wanted)

    def on_asks(self, words, wanted):
        asks = "".join({"yes": "true [^;]*; ", "no": "false [^;]*; "}[it] for it in wanted.split())
        return f"streams 65535 0 {told_captures(words)}", re.compile(f"{asks}(false [^;]*; )*")


def number_in(address):
    return str(texts.endpoint(address)[0])


def option_of(shown):
    return lambda wanted: shown_option(wanted, shown)


CHOSEN = {"kept": "true", "free": "false", "preserved": "None", "random": "Some(Seed)"}
# how settings are shown that are no names
SETTINGS = {
    "pool": lambda wanted: shown_list(map(number_in, items_of(wanted))),
    "redirects": wanted_redirects,
    "timers": lambda wanted: "Timers {{ udp: {}, established: {}, transitory: {}, icmp: {}, hold: {} }}".format(*wanted.split()),
    "choosing": lambda wanted: "NumberAssignment {{ keeps_parity: {}, seed: {} }}".format(*map(CHOSEN.get, wanted.split())),
    **dict.fromkeys(("quota", "block"), option_of(str)),
}
# what a field of a line for the player is of the word after the call at the place that the field ends with
FIELDS = {
    "word": str, "end": endpoint, "address": number_in, "number": lambda it: texts.endpoint(it)[1], "protocol": protocol_of,
    "check": lambda it: int(it, 16),
}
# of the calls that need no method what follows their names in a line for the player, and the answer: a text, what shows it,
# or None where it is bytes
PLAIN = {
    **dict.fromkeys(("local_end", "remote_end"), ("{word0}", shown_endpoint)),
    "bytes": ("", None),
    **dict.fromkeys(("set_source", "set_destination"), ("{end0}", None)),
    "revert_inner": ("{word0} {end1}", None),
    **dict.fromkeys(("fix_check", "fix_check_udp"), ("{check0} {check1} {check2}", lambda wanted: str(int(wanted, 16)))),
    "table": ("{address0} {config}", "begun"),
    "by_external": ("{time} {protocol0} {number1}", option_of(shown_endpoint)),
    "by_inside": ("{time} {protocol0} {end1}", option_of(str)),
    "bindings": ("{time}", wanted_rows),
    "translators": ("{config}", "begun"),
    **dict.fromkeys(("built_in", "copy"), ("", "made")),
    "is_inside": ("{address0}", {"yes": "true", "no": "false"}.get),
    "pair": ("{address0}", number_in),
    "pool_index": ("{address0}", option_of(str)),
    "block_of": ("{address0}", option_of(lambda it: "PortBlock {{ first: {}, size: {} }}".format(*it.split()))),
    "host_of": ("{end0}", option_of(number_in)),
}
# each call that a text may have
CALLED = {*PLAIN, *(name.removeprefix("on_") for name in vars(Run) if name.startswith("on_"))}


def plain(call, run, words, wanted):
    """A call that needs no method: the line for the player, and what it answers."""
    form, shown = PLAIN[call]
    asked = form.replace("{time}", str(run.time)).replace("{config}", told_bytes(run.config.encode()))
    asked = re.sub(r"\{([a-z]+)(\d)\}", lambda it: str(FIELDS[it[1]](words[int(it[2])])), f"{call} {asked}".rstrip())
    return asked, shown if isinstance(shown, str) else run.shown_data(wanted.split()) if shown is None else shown(wanted)


def runs_of(text):
    return [Run(lines) for _, lines in texts.runs_of(text)]


def refused_configurations():
    """Yields for each configuration of tests/calls that is refused where it stands, the name of its fault, and its text."""
    for path in sorted((TESTS / "calls").iterdir()):
        for run in runs_of(path.read_text()):
            yield from ((path.name, *it) for it in run.refused)


def readable(text):
    """An answer of the player with dotted addresses, and bytes in hex."""

    def dotted(it):
        return f"{text_of(int(it[1]))}:{it[2]}"

    def hexed(it):
        numbers = [int(number) for number in it[1].split(", ")]
        return bytes(numbers).hex(" ", 2) if max(numbers) < 256 else it[0]

    text = re.sub(r"Endpoint \{ address: (\d+), number: (\d+) \}", dotted, text)
    return re.sub(r"\[(\d+(?:, \d+)*)\]", hexed, text)


def differences(program, run):
    """Plays a run, and returns the line of each call that is not answered as it says, with what is wrong."""
    played = called([program, "play"], input="".join(f"{call.asked}\n" for call in run.calls), text=True)
    answers = played.stdout.splitlines()
    found = []
    for call, answer in zip(run.calls, answers):
        got = answer.count("Row {") if isinstance(call.wanted, int) else answer
        wanted = call.wanted
        if isinstance(wanted, re.Pattern):
            got, wanted = bool(wanted.fullmatch(answer)) or answer, True
        if wanted not in (None, got):
            found.append((call.line, f"expected {readable(str(call.wanted))}, got {readable(str(got))}"))
    if len(answers) < len(run.calls):
        found.append((run.calls[len(answers)].line, f"no answer, and status {played.returncode}"))
    elif played.returncode or played.stderr or len(answers) > len(run.calls):
        found.append((run.calls[-1].line, f"status {played.returncode}, {len(answers)} answers, {played.stderr}"))
    return found
