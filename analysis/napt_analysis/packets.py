"""The packets of a run as a table."""

from pathlib import Path

import pandas as pd

from .logs import Log

CAUSES = (
    "truncated not-ipv4 bad-header bad-checksum fragment unsupported bad-inner bad-port spoofed not-ours no-binding filtered"
    " over-quota no-port"
).split()
SIDES = ["inside", "outside"]


def read_packets(path: str | Path) -> pd.DataFrame:
    """Reads what `explain log --packets` writes (docs/FORMATS.md): a row for each packet.

    - `number`, from 1, `time` (UTC) and `side` (inside or outside): where and when it arrived
    - `cause`: why it was dropped, missing if it was not
    - `out`, `into`: the numbers of the bindings through which it went out and came in, 0 if there is none
    - `is_hairpin`: whether it came from the inside and went back in
    """
    kinds = {"side": pd.CategoricalDtype(SIDES), "cause": pd.CategoricalDtype(CAUSES), "outcome": "category"}
    rows = pd.read_csv(path, dtype=kinds).rename(columns={"binding_out": "out", "binding_in": "into"})
    rows["time"] = pd.to_datetime(rows.time, utc=True)
    rows["is_hairpin"] = (rows.side == "inside") & (rows.outcome == "to-inside")
    return rows.fillna({"out": 0, "into": 0}).astype({"out": int, "into": int}).drop(columns="outcome")


def refused_packets(log: Log) -> pd.DataFrame:
    """Returns the packets that a log alone has: those that were refused a binding. Their numbers are not known, and 0."""
    refused = log.refusals
    packets = pd.DataFrame({"number": 0, "time": refused.time, "side": pd.Categorical(["inside"] * len(refused), SIDES)})
    return packets.assign(cause=pd.Categorical(refused.cause, CAUSES), out=0, into=0, is_hairpin=False)
