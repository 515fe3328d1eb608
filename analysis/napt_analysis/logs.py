"""The log of a run as tables.

A log is what `explain log` and `stream --log` write (docs/FORMATS.md): one file, or its pieces.
"""

from __future__ import annotations

import io
from dataclasses import dataclass, replace
from pathlib import Path

import pandas as pd

PROTOCOLS = {1: "icmp", 6: "tcp", 17: "udp"}
MADE, ENDED = 8, 9
REFUSED = {12: "no-port", 13: "over-quota"}
PART = 50_000  # rows

COLUMNS = {
    "observationTimeNanoseconds": "time",
    "natEvent": "event",
    "protocolIdentifier": "protocol",
    "sourceIPv4Address": "host",
    "sourceTransportPort": "host_number",
    "postNATSourceIPv4Address": "address",
    "postNAPTSourceTransportPort": "number",
    "binding": "binding",
    "redirect": "redirect",
    "packets_out": "sent",
    "packets_in": "received",
    "flowEndNanoseconds": "last_packet",
}
TIMES = ("observationTimeNanoseconds", "flowEndNanoseconds")
NO_TIME = str(pd.NaT.value)
# in a log of the version before, which also has times as dates
DATES = ("time", "last_use")
OF_A_BINDING = ["protocol", "host", "host_number", "address", "number", "redirect", "made"]


class LogError(Exception):
    """A file is no log, or has a row that cannot be read."""


@dataclass(frozen=True)
class Log:
    """The bindings of a run, and the requests for one that it refused.

    `bindings` has a row for each binding, by its number in the log:

    - `protocol` (icmp, tcp, udp), `host` and `host_number`: the inside endpoint
    - `address` and `number`: the external endpoint
    - `redirect`: whether it is a redirect, which is there from the start and never ends
    - `made`, `ended`: UTC; `ended` is when it ends if no more packets come, if `is_over` is False,
      and NaT for a redirect, or if the log breaks off before
    - `sent`, `received`, `last_packet`: packets out and in, and the time of the last of them

    `refusals` has a row for each packet that got no binding: `time`, `protocol`, `host`, `address`
    and `cause` (no-port, over-quota).

    `first` and `last` are the times of the first and the last event.
    """

    bindings: pd.DataFrame
    refusals: pd.DataFrame
    first: pd.Timestamp
    last: pd.Timestamp

    def of_host(self, host: str) -> Log:
        """Returns the bindings of an address or an endpoint, inside or external, and what was refused to that address."""
        address, _, number = host.partition(":")
        inside, external = self.bindings.host == address, self.bindings.address == address
        if number:
            inside &= self.bindings.host_number == int(number)
            external &= self.bindings.number == int(number)
        return replace(self, bindings=self.bindings[inside | external], refusals=self.refusals[self.refusals.host == address])


def read_log(*paths: str | Path) -> Log:
    """Reads a log, or the pieces of one in their order. Raises `LogError` for a file that is none."""
    events = pd.concat([_events(path) for path in paths], ignore_index=True)
    for column in ("host", "address"):
        events[column] = events[column].astype("category")
    happened = events.loc[events.event.notna() & (events.redirect != 1), "time"]
    return Log(_bindings(events), _refusals(events), happened.min(), happened.max())


def _events(path: str | Path) -> pd.DataFrame:
    """Reads a file in parts, since its times as texts take most of the memory. As numbers, next to empty ones, they would be
    rounded. Rows without a protocol are about the gateway, and are left out."""
    kinds = {"sourceIPv4Address": "category", "postNATSourceIPv4Address": "category", **dict.fromkeys(TIMES, str)}
    protocols = pd.CategoricalDtype(sorted(PROTOCOLS.values()))
    parts = []
    try:
        for part in pd.read_csv(_without_dates(path), usecols=list(COLUMNS), dtype=kinds, chunksize=PART):
            part = part.rename(columns=COLUMNS)
            part = part[part.protocol.notna()]
            for column in ("time", "last_packet"):
                part[column] = pd.to_datetime(part[column].fillna(NO_TIME).astype("int64"), utc=True)
            parts.append(part.assign(protocol=part.protocol.map(PROTOCOLS).astype(protocols)))
    except ValueError as error:
        raise LogError(f"{path} is not a log of napt: {error}") from None
    return pd.concat(parts, ignore_index=True)


def _without_dates(path: str | Path) -> str | Path | io.StringIO:
    """Returns the path or, for a log of the version before, its text without the dates. A run of today may have added rows
    to it that have none."""
    names = list(pd.read_csv(path, nrows=0).columns)
    if not set(DATES) <= set(names):
        return path
    with open(path, encoding="utf-8") as file:
        rows = [row.rstrip("\n").split(",") for row in file]
    dated = [names.index(name) for name in DATES]
    kept = [[field for place, field in enumerate(row) if place not in dated] if len(row) == len(names) else row[:-1] for row in rows]
    return io.StringIO("".join(",".join(row) + "\n" for row in kept))


def _bindings(events: pd.DataFrame) -> pd.DataFrame:
    """Returns a row for each binding: how it was made, and what its latest row says.

    A piece begins with the bindings that live on from the one before, so that they are made once more.
    """
    rows = events[events.binding.notna()]
    rows = rows.astype({name: int for name in ("binding", "host_number", "number", "sent", "received")})
    made = rows[rows.event == MADE].drop_duplicates("binding").set_index("binding")
    latest = rows.drop_duplicates("binding", keep="last").set_index("binding").reindex(made.index)

    bindings = made.rename(columns={"time": "made"})[OF_A_BINDING].astype({"redirect": bool})
    bindings["ended"] = latest.time.where(latest.event != MADE)
    bindings["is_over"] = latest.event == ENDED
    bindings[["sent", "received", "last_packet"]] = latest[["sent", "received", "last_packet"]]
    return _replaced(bindings.sort_index())


def _replaced(bindings: pd.DataFrame) -> pd.DataFrame:
    """Ends each binding whose end the log lacks where the next one of its external endpoint is made."""
    later = bindings.groupby(["protocol", "address", "number"], observed=True).made.shift(-1)
    replaced = bindings.ended.isna() & later.notna()
    bindings["ended"] = bindings.ended.where(~replaced, later)
    bindings["is_over"] |= replaced
    return bindings


def _refusals(events: pd.DataFrame) -> pd.DataFrame:
    refused = events[events.event.isin(REFUSED)]
    refusals = refused[["time", "protocol", "host", "address"]].reset_index(drop=True)
    causes = pd.CategoricalDtype(list(REFUSED.values()))
    return refusals.assign(cause=refused.event.map(REFUSED).astype(causes).to_numpy())
