"""Judges a run of the program by docs/FORMATS.md: its status, its fault line, and what it wrote."""

import re
import struct

from shared import Wrong, want, want_same

from . import captures, configured, states, translating
from .packets import summed

NUMBER = "[1-9][0-9]*"
CONFIG_FAULTS = (
    "not-toml unknown-key missing bad-shape too-many bad-address double-address bad-prefix pool-inside bad-word bad-seed "
    "seed-unused bad-number timer-too-short prefixes-overlap block-too-large pair-with-block hold-with-block not-inside not-in-pool double-pair redirect-in-block "
    "double-redirect"
).split()
CAPTURE_FAULTS = ("no-header", "bad-magic", "bad-version", "bad-link", "read", "too-large", f"bad-fraction {NUMBER}", f"too-long {NUMBER}")
# the fault lines by status. Memory, threads and the gate are refused to no run here, so that no line of status 5 may come
# but that of too many packets
LINES = {
    2: "usage",
    3: f"config (?:{'|'.join(CONFIG_FAULTS)})",
    4: f"capture (?:inside|outside) (?:{'|'.join(CAPTURE_FAULTS)})",
    5: "run too-many",
    6: "file (?:config|resume|inside|outside|to-outside|to-inside|report|save)|write (?:to-outside|to-inside|report|save)",
    8: f"state (?:(?:bad-line|not-utf-8) {NUMBER}|not-inside|not-paired|not-its-number|used-later|flows-share|redirected|shared)",
}
FAULT_LINES = {status: re.compile(f"napt: (?:{line})\n".encode()) for status, line in LINES.items()}
DROPS = translating.CAUSES
ENDPOINT = r"(?:[0-9]{1,3}\.){3}[0-9]{1,3}:[0-9]{1,5}"
ROW = re.compile(f"(icmp|tcp|udp) ({ENDPOINT}) ({ENDPOINT})( fixed)?")
OUTPUT_HEADER = bytes(captures.header(b"\x4d\x3c\xb2\xa1"))


class Report:
    """The counts, the notes of cut captures and the rows of a report."""

    def __init__(self, data):
        text = data.decode("ascii", "replace")
        want(text.endswith("\n"), "the report ends within a line")
        lines = text[:-1].split("\n")
        self.counts = {}
        for name in ["packets", "to outside", "to inside"] + [f"drop {cause}" for cause in DROPS]:
            found = re.fullmatch(f"{name} (0|{NUMBER})", lines.pop(0) if lines else "")
            want(found, f"the report has no line '{name} N' in its place")
            self.counts[name] = int(found[1])
        self.cuts = []
        for side in ("inside", "outside"):
            if lines and lines[0] == f"cut {side}":
                self.cuts.append(side)
                del lines[0]
        self.rows = [ROW.fullmatch(line) for line in lines]
        want(None not in self.rows, "the report has a line that is no binding")

    def judge(self):
        counts = self.counts
        ends = counts["to outside"] + counts["to inside"] + sum(counts[f"drop {cause}"] for cause in DROPS)
        want(counts["packets"] == ends, f"{counts['packets']} packets in, {ends} ends")
        for end, name in ((2, "inside"), (3, "external")):
            ends = [(row[1], row[end]) for row in self.rows]
            want(len(set(ends)) == len(ends), f"two bindings share an {name} endpoint")


def judge_output(data):
    """A capture as it is written: its packets."""
    want(data[:24] == OUTPUT_HEADER, "an output does not begin with its header")
    read = captures.read(data)
    want(read.fault is None and not read.is_cut, "an output does not read back as a capture")
    for _, packet in read.packets:
        want(len(packet) >= 20 and packet[0] >> 4 == 4, "an output has something that is no IPv4 packet")
        want(struct.unpack_from(">H", packet, 2)[0] == len(packet), "an output has a packet of another length than it says")
        want(summed(packet[: 4 * (packet[0] & 15)]) == 0xFFFF, "an output has a header with a wrong checksum")
    return read.packets


def judge_written(data):
    """An output of whichever kind."""
    if data.startswith(b"packets "):
        Report(data).judge()
    elif data.startswith(b"clock "):
        want(states.text_of(states.read(data)) == data, "the text of a state is another")
    else:
        judge_output(data)


def judge_end(outcome):
    """The status and the line on standard error."""
    status, fault = outcome.status, outcome.fault
    want(status >= 0, f"ended by signal {-status}")
    want(status == 0 or status in FAULT_LINES, f"status {status}")
    want(fault.count(b"\n") <= 1, f"more than one line on standard error: {fault!r}")
    if status == 0:
        want(fault == b"", f"status 0 and a line on standard error: {fault!r}")
    else:
        want(FAULT_LINES[status].fullmatch(fault), f"status {status} and on standard error {fault!r}")


def judge_unwritten(outcome):
    """After a fault nothing is written; before the inputs are read no output is made."""
    status = outcome.status
    if status in (2, 3, 8):
        want(not outcome.made, f"status {status}, and {sorted(outcome.made)} was made")
    if status in (2, 3, 4, 5, 8) or outcome.fault.startswith(b"napt: file"):
        want(outcome.standard == b"", f"status {status} and something on standard output")
        for name, data in outcome.made.items():
            want(data == b"", f"status {status} and something in {name}")


def judge_run(case, outcome, inside, outside):
    """A run over both captures, with all three outputs."""
    made = outcome.made
    want(sorted(made) == sorted(case.outputs), f"{sorted(made)} was made")
    want(outcome.standard == b"", "something on standard output, though each output has a file")
    to_outside, to_inside = (judge_output(made[name]) for name in case.outputs[:2])
    report = Report(made[case.outputs[2]])
    report.judge()
    counts = report.counts
    want(counts["packets"] == len(inside.packets) + len(outside.packets), "the report counts other packets than came")
    want(counts["to outside"] == len(to_outside), "the report counts other packets than went outside")
    want(counts["to inside"] == len(to_inside), "the report counts other packets than went inside")
    cuts = [side for side, read in (("inside", inside), ("outside", outside)) if read.is_cut]
    want(report.cuts == cuts, f"cut {report.cuts} in place of {cuts}")
    return counts


def judge_exactly(case, outcome, rules, inside, outside):
    """A run whose outputs are worked out here too."""
    counts = judge_run(case, outcome, inside, outside)
    for name, wanted in zip(case.outputs, translating.run(rules, inside, outside)):
        want_same(name, outcome.made[name], wanted)
    return counts


def judge_captures(case, outcome):
    """Of a configuration that is allowed, both captures decide; the inside one is read first."""
    inside, outside = (captures.read(case.files[name]) for name in ("inside.pcap", "outside.pcap"))
    fault = next((f"{side} {read.fault}" for side, read in (("inside", inside), ("outside", outside)) if read.fault), None)
    wanted = (4, f"napt: capture {fault}\n".encode()) if fault else (0, b"")
    want((outcome.status, outcome.fault) == wanted, f"{(outcome.status, outcome.fault)} in place of {wanted}")
    if fault:
        return {}
    return judge_exactly(case, outcome, configured.configured(case.files["napt.toml"]), inside, outside)


def judge_configuration(case, outcome):
    want(outcome.status in (0, 3), f"status {outcome.status}, where only the configuration may be refused")
    inside, outside = (captures.read(case.files[name]) for name in ("inside.pcap", "outside.pcap"))
    try:
        rules = configured.configured(case.files["napt.toml"])
    except configured.Refused as refused:
        want(outcome.fault == f"napt: config {refused}\n".encode(), f"{outcome.fault!r} in place of {refused}")
        return {}
    except configured.Unread:
        return judge_run(case, outcome, inside, outside) if outcome.status == 0 else {}
    want(outcome.status == 0, f"{outcome.fault!r}, where the configuration is allowed")
    return judge_exactly(case, outcome, rules, inside, outside)


def judge_words(case, outcome):
    """Each output that was made is whole, or is empty after one that failed."""
    for name, data in outcome.made.items():
        if data or outcome.status == 0:
            judge_written(data)
    standard = outcome.standard
    if standard and not standard.startswith((b"Network address", b"napt ")):
        judge_written(standard)
    return {}


def judge(case, outcome):
    """What the run did wrong, or None; and the counts of its report."""
    try:
        judge_end(outcome)
        judge_unwritten(outcome)
        return None, KINDS[case.kind](case, outcome)
    except Wrong as wrong:
        return str(wrong), {}


KINDS = {"captures": judge_captures, "configuration": judge_configuration, "words": judge_words}
