"""A run of napt as tables: its log, and its packets."""

from __future__ import annotations

import json
import tempfile
from dataclasses import dataclass, replace
from pathlib import Path

import pandas as pd

from .logs import Log, read_log
from .packets import read_packets, refused_packets
from .programs import Captures, explain, log_run, warn


@dataclass(frozen=True)
class Run:
    """The log of a run, its packets (`read_packets`), and the times of its first and its last packet. It may be the part
    of a run that concerns a `host`."""

    log: Log
    packets: pd.DataFrame
    first: pd.Timestamp
    last: pd.Timestamp
    host: str | None = None

    @classmethod
    def of_log(cls, log: Log) -> Run:
        """Returns the run of a log alone, which names only those packets that were refused a binding."""
        return cls(log, refused_packets(log), log.first, max(log.last, log.bindings.last_packet.max()))

    def of_host(self, host: str, dropped: set[int] | None = None) -> Run:
        """Returns the bindings of an address or an endpoint, inside or external, and the packets that went through them.

        Rows of packets do not name hosts: of the packets that were dropped, those with the numbers `dropped` are in it, or
        without these numbers those that the log names.
        """
        log = self.log.of_host(host)
        passed = self.packets.out.isin(log.bindings.index) | self.packets.into.isin(log.bindings.index)
        packets = self.packets[passed | self.packets.number.isin(dropped or ())]
        if dropped is None:
            packets = pd.concat([packets, refused_packets(log)])
        return replace(self, log=log, packets=packets, host=host)


def log_of(captures: Captures, config: str | Path) -> Log:
    """Runs napt over captures, and returns its log. Issues a `CaptureWarning` for what the captures cannot show of figures,
    and raises `ProgramError` for what napt refuses."""
    with tempfile.TemporaryDirectory() as name:
        folder = Path(name)
        warn(log_run(captures, config, folder, "report"))
        return read_log(folder / "log.csv")


def run(captures: Captures, config: str | Path, host: str | None = None) -> Run:
    """Runs napt over captures, and returns its log and its packets, or those of a host or an endpoint.

    Issues a `CaptureWarning` for what the captures cannot show, and raises `ProgramError` for what napt refuses.
    """
    with tempfile.TemporaryDirectory() as name:
        folder = Path(name)
        warn(log_run(captures, config, folder, "packets"))
        log, packets = read_log(folder / "log.csv"), read_packets(folder / "packets")
    whole = Run(log, packets, packets.time.min(), packets.time.max())
    if host is None:
        return whole
    lines, _ = explain("show", "--json", "--dropped", "--host", host, "--config", config, *captures.arguments())
    return whole.of_host(host, {json.loads(line)["number"] for line in lines.splitlines()})
