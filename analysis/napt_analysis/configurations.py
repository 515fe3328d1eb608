"""The keys of a configuration that figures depend on."""

from __future__ import annotations

import ipaddress
import tomllib
from dataclasses import dataclass
from pathlib import Path

TIMERS = {"udp": 300, "tcp-established": 7440, "tcp-transitory": 240, "icmp": 60}
OPTIONAL = ("filter", "refresh", "parity", "numbers", "hold", "quota", "block")


class ConfigurationError(Exception):
    """A file is no configuration. Only what figures need is looked at: napt itself names each fault."""


@dataclass(frozen=True)
class Configuration:
    """The keys of a configuration of napt (docs/FORMATS.md), with their defaults. Times are in seconds."""

    pool: tuple[str, ...] = ("203.0.113.1",)
    inside: tuple[str, ...] = ("10.0.0.0/8", "172.16.0.0/12", "192.168.0.0/16")
    filter: str = "independent"
    refresh: str = "outbound"
    parity: str = "kept"
    numbers: str = "preserved"
    udp: int = TIMERS["udp"]
    tcp_established: int = TIMERS["tcp-established"]
    tcp_transitory: int = TIMERS["tcp-transitory"]
    icmp: int = TIMERS["icmp"]
    hold: int = 0
    quota: int | None = None
    block: int | None = None

    @classmethod
    def read(cls, path: str | Path) -> Configuration:
        """Reads a configuration. Raises `ConfigurationError` if the file is none, and `OSError` if it cannot be read."""
        try:
            keys = tomllib.loads(Path(path).read_text("utf-8"))
            timers = TIMERS | keys.get("timers", {})
            return cls(
                pool=tuple(keys["pool"]),
                inside=tuple(keys["inside"]),
                **{name.replace("-", "_"): seconds for name, seconds in timers.items()},
                **{name: keys[name] for name in OPTIONAL if name in keys},
            )
        except (KeyError, TypeError, ValueError) as error:
            raise ConfigurationError(f"the configuration {path} is refused: {error}") from None

    def host_count(self) -> int:
        """Returns how many inside hosts its prefixes have, each counted once."""
        prefixes = ipaddress.collapse_addresses(ipaddress.IPv4Network(prefix) for prefix in self.inside)
        return sum(prefix.num_addresses for prefix in prefixes)
