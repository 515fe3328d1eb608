"""Figures and pictures of runs of napt: sizes, plan and draw."""

import argparse
import sys
import warnings
from collections.abc import Sequence

import pandas as pd

from .configurations import Configuration, ConfigurationError
from .logs import Log, LogError, read_log
from .pictures import draw, suffix_of, save
from .plan import enough, for_people, plan
from .programs import Captures, ProgramError
from .runs import Run, log_of, run
from .sizes import Sizes

NAME = "napt-analysis"
# the number is the first in CHANGES
VERSION = "0.1.0\nnot proved: tested by tests/analysis"
TOP = 10  # hosts
# the statuses of napt for a configuration, for a capture or a log, and for a file
BAD_CONFIGURATION, BAD_LOG, BAD_FILE = 3, 4, 6
EPILOG = """The status is that of napt if it refuses a file. Of plan it is 1 if no packet leaves. docs/ANALYSIS.md of the sources has
examples, and describes the same calls in Python."""


def parser() -> argparse.ArgumentParser:
    """Returns the parser of the command line."""
    top = argparse.ArgumentParser(NAME, description=__doc__, epilog=EPILOG)
    top.add_argument("-V", "--version", action=_Version, nargs=0, help="show the version and exit")
    commands = top.add_subparsers(required=True, metavar="COMMAND")
    captures = _captures_options()
    over_run = argparse.ArgumentParser(add_help=False, parents=[captures])
    over_run.add_argument("--log", metavar="FILE", nargs="+", help="the log of a run, or its pieces in order, in place of captures")
    over_run.add_argument("--config", metavar="FILE", required=True, help="configuration in TOML")

    about = "print how much was used at once, and what quotas and blocks would have refused"
    sizes = commands.add_parser("sizes", parents=[over_run], help=about, description=about.capitalize())
    sizes.set_defaults(command=print_sizes)

    about = "print a table with a row for the run under each of several configurations"
    planned = commands.add_parser("plan", parents=[captures], help=about, description=about.capitalize())
    planned.add_argument("configurations", metavar="FILE", nargs="+", help="configurations in TOML")
    form = planned.add_mutually_exclusive_group()
    form.add_argument("--csv", action="store_true", help="print the table in CSV, with all columns")
    form.add_argument("--markdown", action="store_true", help="print the table in Markdown")
    planned.set_defaults(command=print_plan)

    about = "draw a run: its bindings, hairpins and drops over time"
    drawn = commands.add_parser("draw", parents=[over_run], help=about, description=about.capitalize())
    drawn.add_argument("picture", metavar="FILE", type=_picture, help="file to write; its suffix, .svg, .png or .pdf, chooses the format")
    drawn.add_argument("--resume", metavar="FILE", help="state from which the run goes on")
    drawn.add_argument("--from", dest="start", type=float, metavar="SECONDS", help="start this long after the first packet")
    drawn.add_argument("--until", type=float, metavar="SECONDS", help="end this long after the first packet")
    drawn.add_argument("--clock", action="store_true", help="show times of day (UTC) in place of seconds since the first packet")
    drawn.add_argument("--host", metavar="ADDRESS[:PORT]", help="only the packets and bindings with this address or endpoint")
    drawn.set_defaults(command=write_picture)
    return top


def _captures_options() -> argparse.ArgumentParser:
    captures = argparse.ArgumentParser(add_help=False)
    captures.add_argument("--inside", metavar="FILE", help="capture of what inside hosts send")
    others = captures.add_mutually_exclusive_group()
    others.add_argument("--outside", metavar="FILE", help="capture of what comes from the outside (default: no packets)")
    others.add_argument("--replies", metavar="FILE", help="capture of replies as inside hosts received them, which follow the run")
    return captures


def _picture(path: str) -> str:
    """Returns the path of a picture, if there is a format for its suffix."""
    try:
        suffix_of(path)
    except ValueError as error:
        raise argparse.ArgumentTypeError(str(error)) from None
    return path


class _Version(argparse.Action):
    """Prints the version as the other programs do, and ends."""

    def __call__(self, parser: argparse.ArgumentParser, *_: object) -> None:
        # in one write, since a reader may want the first line alone
        sys.stdout.write(f"{NAME} {VERSION}\n")
        parser.exit()


def main(words: Sequence[str] | None = None) -> int:
    """Does what the command line asks for, and returns the exit status. Warnings and errors are printed, one a line."""
    options = parser().parse_args(words)
    if bool(options.inside) == bool(getattr(options, "log", None)):
        parser().error("expected a capture (--inside), or in its place a log (--log)")
    if getattr(options, "until", None) is not None and options.until <= (options.start or 0):
        parser().error("--until: expected a time after that of --from")
    with warnings.catch_warnings():
        warnings.simplefilter("always")
        warnings.showwarning = lambda message, *_: print(f"{NAME}: {message}", file=sys.stderr)
        try:
            return options.command(options)
        except ProgramError as error:
            print(error, file=sys.stderr)
            return error.status
        except (ConfigurationError, LogError, OSError) as error:
            print(f"{NAME}: {error}", file=sys.stderr)
            return {ConfigurationError: BAD_CONFIGURATION, LogError: BAD_LOG}.get(type(error), BAD_FILE)


def print_sizes(options: argparse.Namespace) -> int:
    """Prints the tables of `Sizes`, each below its title."""
    log = read_log(*options.log) if options.log else log_of(_captures(options), options.config)
    sizes = Sizes(log, Configuration.read(options.config))
    used = sizes.classes[sizes.classes.most > 0]
    hosts = ", ".join(f"{percent} % at most {sizes.of_hosts(percent)}" for percent in (50, 95, 99, 100))
    tables = {
        "bindings at once, by address and protocol": sizes.addresses,
        "bindings at once, by class of numbers": used.assign(share=used.share.map("{:.2%}".format)),
        f"bindings at once, by host, of {len(sizes.hosts)}: {hosts}": sizes.hosts.head(TOP),
        "new bindings that a quota would have refused": sizes.quotas,
        "new bindings that blocks would have refused": sizes.blocks,
        "packets that the run refused a binding": sizes.refusals,
        f"bindings by the seconds that they lived at most; {sizes.living} have not ended": sizes.lifetimes.to_frame(),
    }
    for title, table in tables.items():
        if len(table):
            print(f"{title}\n{_filled(table).to_string()}\n")
    return 0


def print_plan(options: argparse.Namespace) -> int:
    """Prints a plan as a table, in CSV or in Markdown. The status is 1 if no packet leaves under any configuration."""
    table = plan(options.configurations, _captures(options))
    if options.csv:
        print(table.to_csv(), end="")
    elif options.markdown:
        print(_markdown(for_people(table)))
    else:
        print(_filled(for_people(table)).to_string())
        print(f"without no_port and over_quota: {', '.join(enough(table)) or 'none'}")
    return 0 if table.to_outside.any() else 1


def write_picture(options: argparse.Namespace) -> int:
    """Writes the picture of a run."""
    configuration = Configuration.read(options.config)
    if options.log:
        found = Run.of_log(read_log(*options.log))
        found = found.of_host(options.host) if options.host else found
    else:
        found = run(_captures(options), options.config, options.host)
    save(draw(found, configuration, start=options.start, until=options.until, clock=options.clock), options.picture)
    return 0


def _captures(options: argparse.Namespace) -> Captures:
    return Captures(options.inside, options.outside, options.replies, getattr(options, "resume", None))


def _filled(table: pd.DataFrame) -> pd.DataFrame:
    """Returns a table for people, with `-` for what is missing."""
    return table.astype(object).where(table.notna(), "-")


def _markdown(table: pd.DataFrame) -> str:
    rows = _filled(table.reset_index())
    lines = [list(rows.columns), ["---"] * len(rows.columns), *rows.values.tolist()]
    return "\n".join("| " + " | ".join(map(str, line)) + " |" for line in lines)


if __name__ == "__main__":
    sys.exit(main())
