"""The same captures under several configurations: which of them would do?"""

import sys
import tempfile
from collections.abc import Iterable, Iterator, Sequence
from concurrent.futures import ProcessPoolExecutor
from dataclasses import asdict
from pathlib import Path

import pandas as pd

from .configurations import Configuration
from .logs import read_log
from .programs import Captures, log_run, warn
from .sizes import Sizes

CAUSES = ["no-port", "over-quota", "no-binding", "filtered", "truncated"]
KEYS = [name for name in Configuration.__dataclass_fields__ if name != "inside"]
FULLEST = ["fullest_protocol", "fullest_address", "fullest_class", "fullest_bindings", "fullest_numbers"]
WHOLE = ["quota", "block", "fullest_bindings", "fullest_numbers"]  # they may be missing


def plan(configurations: Sequence[str | Path], captures: Captures, processes: int | None = None) -> pd.DataFrame:
    """Runs napt over the captures under each configuration, side by side, and returns a row for each, by its path.

    Columns: the keys of the configuration (`pool` is the number of its addresses); packets that left (`to_outside`,
    `to_inside`) and that were dropped, by cause; the most `bindings` at once; what half of the hosts (`median`) and 99 of 100
    (`percentile_99`) had at most at once; `refused_hosts`; and the class of numbers of which the greatest share was used,
    with its `fullest_bindings` at once of `fullest_numbers`.

    Standard error shows the progress if it is a terminal. Issues a `CaptureWarning` for what the captures cannot show under a
    configuration, and raises `ProgramError` for what napt refuses.
    """
    paths = [str(path) for path in configurations]
    with ProcessPoolExecutor(processes) as pool:
        rows = list(_with_progress(pool.map(_planned, paths, [captures] * len(paths)), len(paths)))
    for path, (_, messages) in zip(paths, rows):
        warn(f"under {path}: {message}" for message in messages)
    table = pd.DataFrame([row for row, _ in rows], index=pd.Index(paths, name="configuration"))
    return table.astype({name: "Int64" for name in WHOLE})


def enough(table: pd.DataFrame) -> list[str]:
    """Returns the configurations of a plan under which packets leave and no binding is refused."""
    return list(table.index[(table.to_outside > 0) & (table.no_port == 0) & (table.over_quota == 0)])


def for_people(table: pd.DataFrame) -> pd.DataFrame:
    """Returns a plan without the keys in which its configurations agree, but for `quota` and `block`, and without drops as
    `truncated` if there are none. Its last column is the fullest class in words."""
    same = [name for name in KEYS if name not in ("quota", "block") and table[name].nunique() == 1]
    unused = ["truncated"] if not table.truncated.any() else []
    words = [_fullest_in_words(row) for _, row in table.iterrows()]
    return table.drop(columns=[*same, *unused, *FULLEST]).assign(fullest=words)


def read_report(path: str | Path) -> dict[str, int]:
    """Reads the counts of a report: `packets`, `to outside`, `to inside`, and those dropped, by cause."""
    counts = {}
    for line in Path(path).read_text("utf-8").splitlines():
        name, _, count = line.rpartition(" ")
        if not count.isdecimal():
            break
        counts[name.removeprefix("drop ")] = int(count)
    return counts


def _planned(path: str, captures: Captures) -> tuple[dict, list[str]]:
    """Returns the row of a configuration, and the warnings under it."""
    with tempfile.TemporaryDirectory() as name:
        folder = Path(name)
        messages = log_run(captures, path, folder, "report")
        counts, log = read_report(folder / "report"), read_log(folder / "log.csv")
    configuration = Configuration.read(path)
    sizes = Sizes(log, configuration)
    row = {name: value for name, value in asdict(configuration).items() if name != "inside"}
    row |= {"pool": len(configuration.pool), "to_outside": counts["to outside"], "to_inside": counts["to inside"]}
    row |= {cause.replace("-", "_"): counts[cause] for cause in CAUSES}
    row |= {"bindings": sizes.most, "median": sizes.of_hosts(50), "percentile_99": sizes.of_hosts(99)}
    row["refused_hosts"] = log.refusals.host.nunique()
    fullest = sizes.fullest()
    values = [None] * len(FULLEST) if fullest is None else fullest[["protocol", "address", "number_class", "most", "numbers"]]
    return row | dict(zip(FULLEST, values)), messages


def _fullest_in_words(row: pd.Series) -> str:
    if pd.isna(row.fullest_bindings):
        return "-"
    hundredths = 10_000 * row.fullest_bindings // row.fullest_numbers  # rounded down: 100 % is all of them
    part = f"{row.fullest_bindings} of {row.fullest_numbers} {row.fullest_class}"
    return f"{hundredths / 100:.2f} %: {part}, {row.fullest_protocol} at {row.fullest_address}"


def _with_progress(rows: Iterable, count: int) -> Iterator:
    """Yields the rows, and shows at a terminal how many there are so far."""
    is_shown = sys.stderr.isatty()
    for done, row in enumerate(rows, 1):
        if is_shown:
            bar = "#" * (30 * done // count)
            print(f"\r[{bar:30}] {done} of {count} runs", end="\n" if done == count else "", file=sys.stderr, flush=True)
        yield row
