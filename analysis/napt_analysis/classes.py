"""The classes of external numbers: those among which a binding gets its number (docs/FORMATS.md, How numbers are chosen)."""

import numpy as np
import pandas as pd

BELOW, FROM = "ports below 1024", "ports from 1024 on"
NUMBERS = {
    "identifiers": 65_536,
    f"even {BELOW}": 511,
    f"odd {BELOW}": 512,
    f"even {FROM}": 32_256,
    f"odd {FROM}": 32_256,
    BELOW: 1_023,
    FROM: 64_512,
}


def classes(parity: str) -> dict[str, list[str]]:
    """Returns the classes of each protocol."""
    kinds = [""] if parity == "free" else ["even ", "odd "]
    ports = [kind + side for side in (BELOW, FROM) for kind in kinds]
    return {"icmp": ["identifiers"], "tcp": ports, "udp": ports}


def class_of(bindings: pd.DataFrame, parity: str) -> pd.Series:
    """Returns the class of each binding's external number."""
    names = np.where(bindings.number < 1024, BELOW, FROM).astype(object)
    if parity != "free":
        names = np.where(bindings.number % 2 == 0, "even ", "odd ").astype(object) + names
    names = np.where(bindings.protocol == "icmp", "identifiers", names)
    return pd.Series(names, bindings.index, name="number_class").astype(pd.CategoricalDtype(list(NUMBERS)))
