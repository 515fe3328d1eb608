"""The command line of judge."""
import argparse
import gc
import pathlib
import re
import shutil
import sys
import tempfile

from judging import report
from judging.judge import Judge
from judging.lifetimes import ADDRESS, ADDRESS_PORT, INDEPENDENT
from judging.log import Log
from judging.packets import SIDES, Prefixes
from judging.pairing import Setup
from judging.replay import Replay
from judging.rules import REQUIREMENTS
from reading.captures import BAD_WORDS, STANDARD_INPUT, Fault
from reading.program import Words, address, files_of, prefix, run_program, say

# the number is the first in CHANGES
VERSION = "0.1.0\nnot proved: tested by tests/judge"
KINDS = {"independent": INDEPENDENT, "address": ADDRESS, "address-port": ADDRESS_PORT}
COMMANDS = {None: Judge, "log": Log, "replay": Replay}


def key_of(text: str) -> list[str]:
    """Returns what names a requirement, whatever its spelling: 4787-1, RFC4787 REQ-1 and '4787 REQ-1' are one."""
    return re.sub(r"rfc|req|[^0-9a-z.]+", " ", text.lower()).split()


def selected(names: list[str]) -> list[str]:
    """Returns the names of the requirements that words stand for: an RFC for all of it, a number for its parts too."""
    found = []
    for key, name in ((key_of(it), it) for it in names):
        more = [it.name for it in REQUIREMENTS if key and key_of(it.name)[: len(key)] == key]
        if not more:
            raise Fault(BAD_WORDS, f"{name!r} is no requirement, as '4787 REQ-1' is one (see docs/JUDGE.md)")
        found += more
    return list(dict.fromkeys(found))


def parsed(words: list[str], called: str) -> argparse.Namespace:
    parser, command = Words(called), words[0] if words[:1] and words[0] in COMMANDS else None
    for side in SIDES:
        parser.add_argument(f"--{side}", metavar="FILE", nargs="+", action="extend", required=True)
        parser.add_argument(f"--{side}-interface", metavar="NAME")
    parser.add_argument("--inside-prefix", metavar="PREFIX", nargs="+", action="extend", type=prefix, required=True)
    parser.add_argument("--pool", metavar="ADDRESS", nargs="+", action="extend", type=address)
    parser.set_defaults(command=command, only=None, filter=None, json=False)
    if command != "log":
        parser.add_argument("--json", action="store_true")
        parser.add_argument("--only", metavar="REQ", nargs="+", action="extend")
        parser.add_argument("--filter", choices=KINDS)
    if command == "replay":
        parser.add_argument("--explain", metavar="PROGRAM")
    given = parser.parse_args(words[1:] if command else words)
    if (given.inside_interface is None) != (given.outside_interface is None):
        parser.error("--inside-interface and --outside-interface are two names, given together")
    return given


def read_twice(paths: list[str], room: str) -> list[str]:
    """Returns the paths of captures, each read twice: standard input is kept in a file."""
    kept = pathlib.Path(room) / "standard-input"
    if STANDARD_INPUT in paths:
        with open(kept, "wb") as file:
            shutil.copyfileobj(sys.stdin.buffer, file)
    return [str(kept) if it == STANDARD_INPUT else it for it in paths]


def run(given: argparse.Namespace, program: str):
    """Judges, and writes to standard output."""
    is_one_file = bool(files_of(given.inside).keys() & files_of(given.outside).keys()) and not given.inside_interface
    names = selected(given.only) if given.only else [it.name for it in REQUIREMENTS]
    with tempfile.TemporaryDirectory(prefix="judge-") as room:
        files = [read_twice(getattr(given, side), room) for side in SIDES]
        pool, interfaces = given.pool and set(map(int, given.pool)), (given.inside_interface, given.outside_interface)
        prefixes, kind = Prefixes(given.inside_prefix), KINDS.get(given.filter)
        what = Setup(*files, prefixes, pool, kind, interfaces, is_one_file)
        more = [given.explain or explain_of(program)] if given.command == "replay" else []
        judge = COMMANDS[given.command](what, what.plan(), *more).run()
    for line in judge.notes():
        say(program, line)
    if given.command == "log":
        judge.write(sys.stdout)
        return
    rows, files = [judge.rows[name] for name in names], {side: getattr(given, side) for side in SIDES}
    for line in report.lines(rows, files) if given.json else report.table(rows):
        print(line)


def explain_of(program: str) -> str:
    """Returns the program that knows the definition: beside this one, or on the path."""
    name = "napt-explain" if program == "napt-judge" else "explain"
    beside = pathlib.Path(sys.argv[0]).resolve().parent / name
    return str(beside) if beside.exists() else shutil.which("napt-explain") or name


def main(words: list[str], program: str, called: str, text: str) -> int:
    """Runs the words of a call, and returns the status. `text` is the help."""
    # nothing that is kept refers to itself: looking for that takes a third of the time
    gc.disable()
    text = text.replace("./judge", called)
    return run_program(words, program, VERSION, text, lambda words: run(parsed(words, called), program))
