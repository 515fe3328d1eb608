"""What a run used at once, and what quotas and blocks would have refused it."""

import ipaddress
from functools import cached_property

import numpy as np
import pandas as pd

from .classes import NUMBERS, class_of, classes
from .configurations import Configuration
from .levels import at_once, holders, released, steps
from .logs import Log

QUOTAS = [8 << place for place in range(13)]
BLOCKS = [64 << place for place in range(7)]
BLOCK_NUMBERS = 64_512  # of an address that blocks share: those from 1024 on
LIVED = [60, 120, 240, 300, 600, 1800, 3600, 7440]  # seconds


class Sizes:
    """The figures of the run that a log is of. Each table is a DataFrame, and is made when it is first asked for.

    "At once" counts a binding from when it is made until its number is free again: until it ends and, with a `hold`, is no
    longer held. At equal times numbers become free before others are used. Times are UTC.
    """

    def __init__(self, log: Log, configuration: Configuration) -> None:
        self.log = log
        self.configuration = configuration
        bindings = log.bindings
        self.bindings = bindings.assign(
            released=released(bindings, configuration.hold),
            number_class=class_of(bindings, configuration.parity),
        )

    @cached_property
    def addresses(self) -> pd.DataFrame:
        """By address and protocol: the `most` bindings at once, redirects included, the time `first_at` which there were as
        many, and the most `hosts` at once with one."""
        by = ["address", "protocol"]
        hosts = at_once(holders(self._steps, by), by).most.rename("hosts")
        spaces = pd.MultiIndex.from_product([self.configuration.pool, self._classes], names=by)
        found = _at(spaces, at_once(self._steps, by).join(hosts))
        return found.fillna({"most": 0, "hosts": 0}).astype({"most": int, "hosts": int})

    @cached_property
    def classes(self) -> pd.DataFrame:
        """By address, protocol and class of numbers: the `most` bindings at once, how many `numbers` the class has, and the
        `share` of them (0 to 1). Within a class a number is mapped (RFC 4787, REQ-3 (a) and REQ-4; RFC 5508, section 3.1)."""
        by = ["address", "protocol", "number_class"]
        pool, kinds = self.configuration.pool, self._classes
        spaces = [(address, protocol, name) for address in pool for protocol in kinds for name in kinds[protocol]]
        found = _at(pd.MultiIndex.from_tuples(spaces, names=by), at_once(self._steps, by)[["most"]])
        found = found.fillna(0).astype(int)
        found["numbers"] = found.index.get_level_values("number_class").map(NUMBERS)
        return found.assign(share=found.most / found.numbers)

    @cached_property
    def hosts(self) -> pd.DataFrame:
        """By inside host, those with the most first: the `most` bindings at once over all protocols, without redirects, which
        is what a `quota` counts, and the time `first_at` which there were as many."""
        found = at_once(self._own_steps, ["host"])
        found.index = found.index.astype(object)
        found["order"] = [int(ipaddress.IPv4Address(host)) for host in found.index]
        return found.sort_values(["most", "order"], ascending=[False, True]).drop(columns="order")

    @cached_property
    def quotas(self) -> pd.DataFrame:
        """By quota, up to the first that no host exceeds: how many new bindings it would have `refused`, and of how many
        `hosts`. Hosts that are refused are not modelled as trying again."""
        counted = _counted(self._own_steps, ["host"])
        greatest = counted.most.max() if len(counted) else 0
        tried = [quota for quota in QUOTAS if quota == QUOTAS[0] or quota // 2 < greatest]
        rows = [(quota, *_refused(counted, quota)) for quota in tried]
        return pd.DataFrame(rows, columns=["quota", "refused", "hosts"]).set_index("quota")

    @cached_property
    def blocks(self) -> pd.DataFrame:
        """By the numbers in a block: how many hosts have room at an address (`hosts_per_address`), how many new bindings such a
        block would have `refused`, of each protocol by itself, and of how many `hosts`; and how many `addresses` all hosts of
        the prefixes of `inside` need."""
        counted = _counted(self._own_steps, ["host", "protocol"])
        hosts = self.configuration.host_count()
        rows = []
        for block in BLOCKS:
            each = BLOCK_NUMBERS // block
            rows.append((block, each, *_refused(counted, block), -(-hosts // each)))
        columns = ["block", "hosts_per_address", "refused", "hosts", "addresses"]
        return pd.DataFrame(rows, columns=columns).set_index("block")

    @cached_property
    def refusals(self) -> pd.DataFrame:
        """By cause: how many `packets` the run itself refused a binding, and of how many `hosts`."""
        return self.log.refusals.groupby("cause", observed=True).host.agg(packets="size", hosts="nunique")

    @cached_property
    def lifetimes(self) -> pd.Series:
        """How many bindings, without redirects, ended within this many seconds, and not within those of the row before."""
        ended = self.bindings[self.bindings.is_over]
        bounds = [pd.Timedelta(0), *(pd.Timedelta(seconds=seconds) for seconds in LIVED), pd.Timedelta.max]
        spans = pd.cut(ended.ended - ended.made, bounds, labels=[*LIVED, "longer"])
        return spans.value_counts(sort=False).rename("bindings")

    @cached_property
    def most(self) -> int:
        """The most bindings at once, over all addresses and protocols, redirects included."""
        return int(self._steps.step.cumsum().max()) if len(self._steps) else 0

    @property
    def living(self) -> int:
        """How many bindings, without redirects, have not ended."""
        return int((~self.bindings.is_over & ~self.bindings.redirect).sum())

    def of_hosts(self, percent: int) -> int:
        """Returns the least number of bindings at once that at least `percent` of a hundred hosts did not exceed."""
        most = self.hosts.most
        return int(np.percentile(most, percent, method="inverted_cdf")) if len(most) else 0

    def fullest(self) -> pd.Series | None:
        """Returns the class of which the greatest share was used, the first of equal ones; None if there are no bindings."""
        used = self.classes[self.classes.most > 0]
        return None if used.empty else used.reset_index().loc[int(used.share.argmax())]

    @property
    def _classes(self) -> dict[str, list[str]]:
        return classes(self.configuration.parity)

    @cached_property
    def _steps(self) -> pd.DataFrame:
        return steps(self.bindings)

    @cached_property
    def _own_steps(self) -> pd.DataFrame:
        """The steps of the bindings that hosts made themselves, which a quota counts."""
        return self._steps[~self._steps.redirect]


def _at(rows: pd.MultiIndex, found: pd.DataFrame) -> pd.DataFrame:
    """Returns what was found for each of these rows, in their order."""
    found.index = found.index.set_levels([level.astype(object) for level in found.index.levels])
    return found.reindex(rows)


def _counted(own: pd.DataFrame, by: list[str]) -> pd.DataFrame:
    """Returns the steps with the most of their group at once, as `_refused` takes them."""
    groups = own.groupby(by, observed=True)
    live = groups.step.cumsum()
    group = groups.ngroup()
    most = live.groupby(group).transform("max")
    host = own.host.cat.codes
    return pd.DataFrame({"binding": own.index, "host": host, "group": group, "step": own.step, "most": most})


def _refused(counted: pd.DataFrame, quota: int) -> tuple[int, int]:
    """Returns how many bindings a quota for each group would have refused, and of how many hosts.

    A binding that is refused has no number, so that a later one of the same host may be allowed.
    """
    over = counted[counted.most > quota]
    held = dict.fromkeys(over.group.unique(), 0)
    refused, without, hosts = 0, set(), set()
    for binding, host, group, step in over[["binding", "host", "group", "step"]].itertuples(index=False):
        if step == 1 and held[group] < quota:
            held[group] += 1
        elif step == 1:
            refused += 1
            without.add(binding)
            hosts.add(host)
        elif binding in without:
            without.remove(binding)
        else:
            held[group] -= 1
    return refused, len(hosts)
