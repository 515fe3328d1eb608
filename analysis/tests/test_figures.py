"""Figures of the example and of random runs, held against those that a second program works out of the log's text."""

import random

import pytest
from conftest import TOP
from hostile_inputs import captures
from hostile_inputs.configured import configured
from hostile_inputs.logged import NO_PORT, OVER_QUOTA, logged
from logs import Log
from random_runs import CHANGES, config_of, random_run
from second import SECOND, Level, levels, refused_by

from napt_analysis import Configuration, Sizes, read_log
from napt_analysis.classes import classes

RUNS = 60
SPANS = [60, 120, 240, 300, 600, 1800, 3600, 7440]
HOSTS = 2**24  # of 10.0.0.0/8
PORTS = 64_512  # of an address, that blocks share


def random_captures(seed: int) -> tuple[str, list]:
    """A configuration, and the captures of both sides."""
    dice = random.Random(seed)
    inputs = random_run(dice)
    sides = ([it[1:] for it in inputs if it[0] == side] for side in ("inside", "outside"))
    return config_of(dice.choice(CHANGES)), [captures.read(captures.savefile(it)) for it in sides]


def example_captures() -> tuple[str, list]:
    folder = TOP / "examples/gateway"
    return (folder / "napt.toml").read_text(), [captures.read((folder / f"{it}.pcap").read_bytes()) for it in ("inside", "outside")]


@pytest.fixture(params=["example", *range(RUNS)], ids=str)
def both(request, tmp_path) -> tuple[Sizes, Log]:
    """The figures of a run, and its log as the second program reads it."""
    config, sides = example_captures() if request.param == "example" else random_captures(request.param)
    text, _ = logged(configured(config.encode()), *sides)
    (tmp_path / "napt.toml").write_text(config)
    (tmp_path / "log.csv").write_text(text)
    return Sizes(read_log(tmp_path / "log.csv"), Configuration.read(tmp_path / "napt.toml")), Log(text)


def test_figures(both):
    sizes, log = both
    check_levels(sizes, log)
    check_refused(sizes, log)
    check_lives(sizes, log)


def check_levels(sizes: Sizes, log: Log) -> None:
    hold, parity = sizes.configuration.hold, sizes.configuration.parity
    spaces, of_class, at_space, hosts = levels(log, hold, parity == "kept")
    for space, row in sizes.addresses.iterrows():
        assert (row.most, row.hosts) == (spaces[space].most, at_space[space].most), space
        assert not row.most or row.first_at.value == spaces[space].at, space
    kinds = classes(parity)
    assert list(sizes.classes.index) == [(*space, name) for space in sizes.addresses.index for name in kinds[space[1]]]
    for place, row in sizes.classes.iterrows():
        assert row.most == of_class[place].most and row.share == row.most / row.numbers, place
    ranked = sorted(hosts.items(), key=lambda it: (-it[1].most, list(map(int, it[0].split(".")))))
    assert [(host, most, at.value) for host, most, at in sizes.hosts.itertuples(name=None)] == [(it, level.most, level.at) for it, level in ranked]
    check_percentiles(sizes, [level.most for level in hosts.values()])
    greatest = max(of_class, key=lambda it: of_class[it].most / sizes.classes.numbers[it], default=None)
    found = sizes.fullest()
    assert (found is None) == (greatest is None)
    assert found is None or found.share == of_class.get(greatest, Level()).most / sizes.classes.numbers[greatest]


def check_percentiles(sizes: Sizes, numbers: list[int]) -> None:
    for percent in (50, 95, 99, 100):
        enough = (least for least in sorted(numbers) if sum(it <= least for it in numbers) * 100 >= percent * len(numbers))
        assert sizes.of_hosts(percent) == next(enough, 0)


def check_refused(sizes: Sizes, log: Log) -> None:
    """By quotas from 8 on, up to the first that is enough, by blocks, and by the run itself."""
    hold = sizes.configuration.hold
    greatest = sizes.of_hosts(100)
    assert list(sizes.quotas.index) == [8 << shift for shift in range(1 + (max(0, greatest - 1) >> 3).bit_length())]
    for quota, *refused in sizes.quotas.itertuples(name=None):
        assert tuple(refused) == refused_by(log, hold, quota)
    assert list(sizes.blocks.index) == [64 << shift for shift in range(7)]
    for block, each, *refused, addresses in sizes.blocks.itertuples(name=None):
        assert (each, addresses) == (PORTS // block, -(-HOSTS // (PORTS // block)))
        assert tuple(refused) == refused_by(log, hold, block, of_protocol=True)
    for cause, event in (("over-quota", OVER_QUOTA), ("no-port", NO_PORT)):
        by_host = {host: many for (kind, host), many in log.refused.items() if kind == event}
        row = tuple(sizes.refusals.loc[cause]) if cause in sizes.refusals.index else (0, 0)
        assert row == (sum(by_host.values()), len(by_host))


def check_lives(sizes: Sizes, log: Log) -> None:
    lived = [it.ended and it.ended - it.made for it in log.entries.values() if not it.is_redirect]
    ended = [it for it in lived if it is not None]
    counts = [sum(before * SECOND < it <= span * SECOND for it in ended) for before, span in zip([-1, *SPANS], SPANS)]
    assert sizes.lifetimes.to_list() == [*counts, sum(it > SPANS[-1] * SECOND for it in ended)]
    assert sizes.living == lived.count(None)
