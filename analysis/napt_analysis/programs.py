"""Calls of the program that makes what is read here: `explain` of the repository, or the installed `napt-explain`."""

import os
import shutil
import subprocess
import warnings
from collections.abc import Iterable
from dataclasses import dataclass
from pathlib import Path

REPOSITORY = Path(__file__).resolve().parents[2]


class ProgramError(Exception):
    """A program refused its arguments or its input: its exit status, and what it printed about that."""

    def __init__(self, status: int, message: str) -> None:
        super().__init__(status, message)  # so that it can be pickled for another process
        self.status = status
        self.message = message.strip()

    def __str__(self) -> str:
        return self.message


class CaptureWarning(UserWarning):
    """What captures cannot show of the figures that are made of them, as `explain` prints it."""


@dataclass(frozen=True)
class Captures:
    """What the interfaces of a gateway showed, and the state from which a run goes on.

    `inside` is what inside hosts sent, `outside` what came from outside as the gateway got it, and `replies`, in place
    of `outside`, what inside hosts got: these follow the run (docs/FORMATS.md).
    """

    inside: str | Path
    outside: str | Path | None = None
    replies: str | Path | None = None
    resume: str | Path | None = None

    def arguments(self) -> list[str]:
        """The options of `explain` that name the files."""
        return [word for name, path in vars(self).items() if path is not None for word in (f"--{name}", str(path))]


def explain(*arguments: str | Path) -> tuple[str, list[str]]:
    """Runs `explain`, and returns its output and its warnings. Raises `ProgramError` if it fails."""
    done = subprocess.run([_program(), *arguments], stdin=subprocess.DEVNULL, capture_output=True, text=True)
    if done.returncode != 0:
        raise ProgramError(done.returncode, done.stderr)
    return done.stdout, _warnings_in(done.stderr)


def log_run(captures: Captures, config: str | Path, folder: Path, *beside: str) -> list[str]:
    """Writes the log of napt's run over captures into a folder, as `log.csv`, and beside it a file for each option of
    `beside`, `report` or `packets`. Returns the warnings."""
    options = [word for name in beside for word in (f"--{name}", folder / name)]
    return explain("log", "--as-napt", "--config", config, "--to", folder / "log.csv", *captures.arguments(), *options)[1]


def warn(messages: Iterable[str], stacklevel: int = 3) -> None:
    """Issues a `CaptureWarning` for each message, at the caller's caller."""
    for message in messages:
        warnings.warn(message, CaptureWarning, stacklevel=stacklevel)


def _program() -> str:
    """Returns the path of `explain`: the one that NAPT_EXPLAIN names, that of the repository, or the installed one."""
    found = os.environ.get("NAPT_EXPLAIN") or shutil.which("explain", path=str(REPOSITORY)) or shutil.which("napt-explain")
    if found is None:
        raise FileNotFoundError("napt-explain is not installed")
    return found


def _warnings_in(printed: str) -> list[str]:
    """The warnings on standard error; an indented line continues the one before."""
    texts: list[str] = []
    for line in printed.splitlines():
        if line.startswith(" ") and texts:
            texts[-1] += f"\n{line}"
        elif line.startswith("explain: ") and "without proof" not in line:
            texts.append(line.removeprefix("explain: "))
    return texts
