"""Growths of memory, reads, writes and fsyncs of napt or stream that are refused, each in turn."""
import os
import re
import subprocess

from hostile_inputs.captures import is_whole
from shared import GATEWAY, INPUTS, OUTPUTS, TESTS, called, content, ran, want, words_of

MOST_TRIES = 10_000
MEMORY = {3: "config memory", 4: "capture (inside|outside) memory", 5: "run (memory|no-thread)"}
# where a growth is refused to the next piece of a log
OF_PIECES = {6: "write log"}
CALLS = {"read": ("config", "inside", "outside"), "write": (*OUTPUTS, "log"), "fsync": ("log",)}


EVERY = ("config", "inside", "outside", *OUTPUTS)
EVERY_WITH_LOG = (*EVERY, "log")
EXAMPLE = {option: GATEWAY / name for option, name in INPUTS.items()}


def built(folder):
    """The library of tests/refuse.c, to stand before the C library."""
    kit, made = os.path.dirname(ran(["rt", "doc"], text=True).strip()), folder / "refuse.so"
    words = ["-O2", "-shared", "-fPIC", "-nostdlib", "-ffreestanding", f"--ld-path={kit}/toolchain/bin/ld.lld", "-o", made]
    ran([f"{kit}/toolchain/bin/clang", *words, TESTS / "refuse.c"])
    return made


class Sweep:
    """Runs of a program over files, of which each is refused something. Of the options that are not named the standard
    streams are used, and nothing is written. The log may have pieces, by further words."""

    def __init__(self, program, folder, named, inputs=EXAMPLE, logs=("log",), more=()):
        self.program, self.name, self.folder = program, os.path.basename(program), folder
        self.refuser, self.named, self.inputs, self.more = built(folder), named, inputs, more
        self.logs = logs if "log" in named else ()
        self.outputs = (*OUTPUTS, *self.logs)
        self.whole = self.run({})[2]

    def run(self, refusal):
        """A run: its status, its line, its outputs, and what was refused, which is nothing where none was."""
        for name in ("mark", "left", *self.outputs):
            self.at(name).unlink(missing_ok=True)
        given = {"LD_PRELOAD": self.refuser, "REFUSED_MARK": self.at("mark"), **refusal}
        words = [*words_of({name: self.inputs.get(name, self.at(name)) for name in self.named}), *self.more]
        with open(self.inputs["inside"], "rb") as source, open(self.at("standard"), "wb") as target:
            how = {"stdin": source, "stdout": target, "stderr": subprocess.PIPE, "capture_output": False}
            answer = called([self.program, *words], env=given, **how)
        if "to-outside" not in self.named:
            os.rename(self.at("standard"), self.at("to-outside"))
        return answer.returncode, answer.stderr.decode(), {name: content(self.at(name)) for name in self.outputs}, content(self.at("mark"))

    def at(self, name):
        return self.folder / name

    def judge(self, what, status, outputs):
        """What holds of each run: an output is a front, and the whole where all was well."""
        want(status != 0 or outputs == self.whole, f"{what}: status 0, and not the whole outputs")
        for name, data in outputs.items():
            want(self.whole[name].startswith(data), f"{what}: {name} is no front of the whole one")
        log, whole = (b"".join(it[name] for name in self.logs) for it in (outputs, self.whole))
        want(whole.startswith(log), f"{what}: a piece is left out of the log")


class Growths(Sweep):
    """The k-th growth is refused, for each k, or each from the k-th on. The growths of all threads are counted
    together, and their order is not the same in each run, so that a sweep over k ends where three runs meet none."""

    def sweep(self, is_each_later):
        """Sweeps over the growths, and returns how many were refused."""
        growth, free, told = 1, 0, set()
        while free < 3:
            want(growth < MOST_TRIES, "the sweep over growths does not end")
            refusal = {"REFUSED_GROWTH": str(growth), **({"REFUSED_ON": "1"} if is_each_later else {})}
            told.add(self.try_growth(f"refused growth {growth}", refusal))
            growth, free = (growth + 1, 0) if self.at("mark").exists() else (growth, free + 1)
        want(f"{self.name}: run no-thread\n" in told, "no thread was refused")
        return growth - 1

    def try_growth(self, what, refusal):
        """A run; returns its line."""
        status, line, outputs, _ = self.run(refusal)
        self.judge(what, status, outputs)
        if status != 0:
            told = MEMORY | (OF_PIECES if self.more else {})
            want(self.at("mark").exists(), f"{what}: status {status} without a refusal")
            want(status in told and re.fullmatch(f"{self.name}: {told[status]}\n", line), f"{what}: status {status}, {line!r}")
            self.judge_refused(what, outputs)
        return line

    def judge_refused(self, what, outputs):
        """What holds if a growth was refused: the report is not begun, and a capture ends after a record."""
        want(outputs["report"] == b"", f"{what}: a report is begun")
        want(is_whole(outputs["to-outside"]) and is_whole(outputs["to-inside"]), f"{what}: a part of a packet is written")


class AllOrNothing(Growths):
    """The same of a program that writes nothing where a growth is refused."""

    def judge_refused(self, what, outputs):
        want(not any(outputs.values()), f"{what}: something is written")


class Calls(Sweep):
    """The k-th read or write is refused, for each k."""

    def sweep(self, name):
        """Sweeps over the calls of this name, and returns how many were refused."""
        call, roles = 1, set()
        while self.try_call(name, call, roles):
            want(call < MOST_TRIES, f"the sweep over calls of {name} does not end")
            call += 1
        want(roles == set(CALLS[name]) & set(self.named), f"only {roles} were refused a {name}")
        return call - 1

    def try_call(self, name, call, roles):
        """A run; returns whether a call was refused."""
        what = f"refused {name} {call}"
        status, line, outputs, mark = self.run({"REFUSED_NAME": name, "REFUSED_CALL": str(call), "REFUSED_LEFT": self.at("left")})
        self.judge(what, status, outputs)
        want(self.at("left").read_bytes() == b"", f"{what}: {content(self.at('left'))!r} threads are left")
        if not self.at("mark").exists():
            want((status, line) == (0, ""), f"{what}: status {status}, {line!r} without a refusal")
            return False
        role = os.path.splitext(os.path.basename(mark.decode()))[0].replace("napt", "config")
        lines = {"config": (6, "file config"), "inside": (4, "capture inside read"), "outside": (4, "capture outside read")}
        wanted, told = lines.get(role, (6, f"write {role}"))
        want((status, line) == (wanted, f"{self.name}: {told}\n"), f"{what} of {role}: status {status}, {line!r}")
        want(role == "report" or outputs["report"] == b"", f"{what} of {role}: a report is begun")
        if name == "fsync":
            there = {it: outputs[it] for it in self.logs if self.at(it).exists()}
            want(there == {it: self.whole[it] for it in self.logs[:call]}, f"{what}: a piece is not whole, or the next one is there")
        roles.add(role)
        return True


def swept(program, room, *choices, **more):
    """Sweeps over growths with each choice of options, and over calls with the last one. Returns how many were refused."""
    folder = room / "refused"
    folder.mkdir()
    growths = 0
    for options in choices:
        growths += sum(Growths(program, folder, options, **more).sweep(is_each_later) for is_each_later in (False, True))
    return growths, sum(Calls(program, folder, choices[-1], **more).sweep(name) for name in ("read", "write"))
