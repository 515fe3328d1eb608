"""What programs that read captures share: how they begin and end, and the words of a command line."""
import argparse
import contextlib
import ipaddress
import os
import re
import signal
import sys
from collections.abc import Callable

from reading.captures import BAD_OUTPUT, BAD_WORDS, Fault, file_of, shown


class Words(argparse.ArgumentParser):
    """A parser whose fault names the help of the program, which is called as `prog`."""

    def __init__(self, called: str):
        super().__init__(prog=called, add_help=False, allow_abbrev=False)

    def error(self, message: str):
        raise Fault(BAD_WORDS, f"{message} (see {self.prog} --help)")


def prefix(text: str) -> ipaddress.IPv4Network:
    what = "is no prefix, as 10.0.0.0/8 is one"
    with contextlib.suppress(ValueError):
        if re.fullmatch(r"[0-9.]+/(0|[1-9][0-9]?)", text):
            what = "has bits past its length that are not 0" if ipaddress.IPv4Interface(text) else what
            return ipaddress.IPv4Network(text)
    raise argparse.ArgumentTypeError(f"{text!r} {what}")


def address(text: str) -> ipaddress.IPv4Address:
    try:
        return ipaddress.IPv4Address(text)
    except ValueError as error:
        raise argparse.ArgumentTypeError(f"{text!r} is no address, as 203.0.113.1 is one") from error


def files_of(paths: list[str]) -> dict[tuple, str]:
    """Returns the paths of captures by what tells each from other files. One that is named twice is refused."""
    named = {}
    for path in paths:
        if (file := file_of(path)) in named:
            again = f"{shown(path)} is the capture {shown(named[file])} again"
            raise Fault(BAD_WORDS, f"{again}: its packets would be there twice")
        if file:
            named[file] = path
    return named


def say(program: str, line: object):
    print(f"{program}: {line}", file=sys.stderr)


def run_program(words: list[str], program: str, version: str, text: str, work: Callable[[list[str]], None]) -> int:
    """Runs a program, which is known as `program`, and returns its status. `text` is its help, and `work` takes the words
    of any other call."""
    if "--help" in words or "-h" in words:
        print(text, end="")
        return 0
    if words in (["--version"], ["-V"]):
        # in one write, since a reader may want the first line alone
        sys.stdout.write(f"{program} {version}\n")
        return 0
    for ends in (signal.SIGTERM, signal.SIGHUP):
        signal.signal(ends, lambda number, _: sys.exit(128 + number))
    try:
        work(words)
        sys.stdout.flush()
    except Fault as fault:
        say(program, fault)
        return fault.status
    except BrokenPipeError:
        os.dup2(os.open(os.devnull, os.O_WRONLY), 1)
    except OSError as error:
        say(program, f"{error.filename or 'standard output'}: {error.strerror}")
        return BAD_OUTPUT
    except KeyboardInterrupt:
        return 128 + signal.SIGINT
    return 0
