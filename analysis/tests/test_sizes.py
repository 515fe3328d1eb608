"""Figures of random bindings, held against counting at each moment."""

import pandas as pd
from conftest import logs
from hypothesis import given
from hypothesis import strategies as st

from napt_analysis import Configuration, Sizes, read_log
from napt_analysis.classes import NUMBERS, class_of, classes
from napt_analysis.levels import released

POOL = Configuration(pool=("203.0.113.1", "203.0.113.2"), inside=("10.0.0.0/29",))


def most_at_once(bindings: pd.DataFrame) -> int:
    """The most bindings that there are at a moment at which one is made."""
    lives = [((bindings.made <= made) & (bindings.released > made)).sum() for made in bindings.made]
    return max(lives, default=0)


@given(logs(), st.integers(0, 5))
def test_most_at_once(log, hold):
    configuration = Configuration(pool=POOL.pool, inside=POOL.inside, hold=hold)
    sizes = Sizes(log, configuration)
    bindings = log.bindings.assign(released=released(log.bindings, hold))
    assert sizes.most == most_at_once(bindings)
    for host, row in sizes.hosts.iterrows():
        assert row.most == most_at_once(bindings[bindings.host == host])


def test_a_number_is_held_until_its_own_endpoint_gets_it_anew(example):
    bindings = read_log(example).bindings
    assert released(bindings, 5)[3] - bindings.ended[3] == pd.Timedelta(seconds=5)
    again = bindings.loc[[3]].set_axis([4]).assign(made=bindings.ended[3] + pd.Timedelta(seconds=2))
    assert released(pd.concat([bindings, again]), 5)[3] == again.made[4]


def test_every_number_has_a_class():
    numbers = pd.DataFrame({"number": range(1, 65536), "protocol": "tcp"})
    for parity in ("kept", "free"):
        found = class_of(numbers, parity).value_counts()
        assert {name: found[name] for name in classes(parity)["tcp"]} == {name: NUMBERS[name] for name in classes(parity)["tcp"]}
