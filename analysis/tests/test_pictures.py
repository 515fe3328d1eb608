"""Pictures are drawn, in each format, and show what lives and what passes."""

import pandas as pd
import pytest
from conftest import EXAMPLE_FOLDER, logs
from hypothesis import given

from napt_analysis import Captures, Configuration, Run, draw, read_log, run, save
from napt_analysis.pictures import living_at

pytestmark = pytest.mark.filterwarnings("error")  # as of a layout that has no room
CONFIG = EXAMPLE_FOLDER / "napt.toml"
CONFIGURATION = Configuration.read(CONFIG)
CAPTURES = Captures(EXAMPLE_FOLDER / "inside.pcap", EXAMPLE_FOLDER / "outside.pcap")


@pytest.fixture(scope="module")
def whole() -> Run:
    return run(CAPTURES, CONFIG)


def labels_of(figure) -> list[str]:
    return [label.get_text() for axes in figure.axes for label in axes.get_yticklabels()]


def test_packets_name_their_bindings(whole):
    assert whole.packets.out.to_list() == [2, 0, 3, 2, 0, 0, 1, 0, 0]
    assert whole.packets.into.to_list() == [0, 2, 0, 3, 0, 1, 0, 0, 0]
    assert whole.packets.is_hairpin.to_list() == [number == 4 for number in range(1, 10)]
    assert whole.packets.cause.dropna().to_list() == ["spoofed", "no-binding"]


@pytest.mark.parametrize("suffix", ["svg", "png", "pdf"])
@pytest.mark.parametrize("part", [{}, {"clock": True}, {"start": 1, "until": 4}, {"start": 20, "until": 30}])
def test_formats(whole, tmp_path, suffix, part):
    pictures = [tmp_path / f"{name}.{suffix}" for name in ("one", "two")]
    for picture in pictures:
        save(draw(whole, CONFIGURATION, **part), picture)
    one, two = (picture.read_bytes() for picture in pictures)
    assert len(one) > 1000 and one == two


def test_other_formats(whole, tmp_path):
    with pytest.raises(ValueError, match="picture.jpg: expected one of the suffixes .pdf, .png, .svg"):
        save(draw(whole, CONFIGURATION), tmp_path / "picture.jpg")
    assert not list(tmp_path.iterdir())


def test_few_bindings(whole):
    figure = draw(whole, CONFIGURATION)
    bars = ["udp 10.0.0.2:5000 → :5000", "tcp 10.0.0.3:80 → :8080", "udp 10.0.0.3:7000 → :7000"]
    assert labels_of(figure) == [*bars, "spoofed (1)", "no-binding (1)"]
    assert figure.axes[-1].get_xlabel() == "time since the first packet (s)"
    assert figure._suptitle.get_text() == "9 packets through 3 bindings, from 1970-01-01 00:00:01 UTC"
    marks = [len(line.get_xdata()) for axes in figure.axes for line in axes.lines]
    assert marks == [2, 1, 2, 2, 1, 1] and len(figure.artists) == 1


@pytest.mark.parametrize(
    ("host", "packets", "labels"),
    [
        ("10.0.0.2", 3, ["udp 10.0.0.2:5000 → :5000"]),
        ("10.0.0.3:80", 2, ["tcp 10.0.0.3:80 → :8080"]),
        ("203.0.113.1", 4, ["udp 10.0.0.2:5000 → :5000", "no-binding (1)"]),
        ("10.9.9.9", 0, []),
    ],
)
def test_a_host(host, packets, labels):
    of_host = run(CAPTURES, CONFIG, host)
    assert len(of_host.packets) == packets
    assert labels_of(draw(of_host, CONFIGURATION)) == labels


def test_a_log_alone(example, tmp_path):
    for alone in (found := Run.of_log(read_log(example)), found.of_host("10.0.0.3")):
        figure = draw(alone, CONFIGURATION)
        save(figure, tmp_path / "picture.png")
        assert labels_of(figure)[-1] == "over-quota (1)"


def test_many_bindings(whole, monkeypatch, tmp_path):
    monkeypatch.setattr("napt_analysis.pictures.MOST_BARS", 1)
    figure = draw(whole, CONFIGURATION)
    save(figure, tmp_path / "picture.svg")
    assert [axes.get_title("left") for axes in figure.axes] == [
        "203.0.113.1: at most 1 at once, 0.0 % of udp even ports from 1024 on",
        "203.0.113.2: at most 2 at once, 0.0 % of tcp even ports from 1024 on",
        "packets: 9",
        "hairpins: 1",
        "dropped, spoofed: 1",
        "dropped, no-binding: 1",
    ]


@given(logs())
def test_what_lives_in_each_bin(log):
    bins = pd.Series(pd.date_range(pd.Timestamp(0, tz="UTC"), pd.Timestamp(30, unit="s", tz="UTC"), 11))
    found = living_at(log.bindings, bins).sum(axis=1)
    for place, (begin, end) in enumerate(zip(bins, bins[1:])):
        moments = [begin, *log.bindings.made[(log.bindings.made >= begin) & (log.bindings.made < end)]]
        lives = [((log.bindings.made <= it) & (log.bindings.ended > it)).sum() for it in moments]
        assert found[place] == max(lives)
