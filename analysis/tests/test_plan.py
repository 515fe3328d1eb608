"""Plans over `explain`: a thousand long connections of a hundred hosts, captured at another address."""

import io

import pandas as pd
import pytest
from hostile_inputs import captures, packets

from napt_analysis import Captures, CaptureWarning, Configuration, ProgramError, Sizes, enough, log_of, plan
from napt_analysis.__main__ import main

LONG, HOSTS, EACH, QUOTA = 1000, 100, 10, 4
PLANS = {
    "one": 'pool = ["203.0.113.1"]\n',
    "two": 'pool = ["203.0.113.1", "203.0.113.2"]\n',
    "few": f'pool = ["203.0.113.1"]\nquota = {QUOTA}\n',
    "free": 'pool = ["203.0.113.1"]\nparity = "free"\n',
}


@pytest.fixture(scope="module")
def lan(tmp_path_factory) -> Captures:
    """Each host opens its connections a second apart, each from a port of its own, and gets two answers to its own endpoint."""
    sent, replies = [], []
    for number in range(LONG):
        host, remote = (0x0A000002 + number % HOSTS, 20000 + number), (0xC6336407, 443)
        at = number * captures.SECOND
        for later, flags in ((0, packets.SYN), (10_000_000, packets.ACK)):
            sent.append((at + later, bytes(packets.tcp(host, remote, flags))))
            answer = packets.SYN | packets.ACK if flags == packets.SYN else packets.ACK
            replies.append((at + later + 1_000_000, bytes(packets.tcp(remote, host, answer))))
    folder = tmp_path_factory.mktemp("lan")
    for name, pairs in (("inside", sent), ("replies", replies)):
        (folder / f"{name}.pcap").write_bytes(captures.savefile(pairs))
    return Captures(folder / "inside.pcap", replies=folder / "replies.pcap")


@pytest.fixture
def configurations(tmp_path) -> list[str]:
    paths = [tmp_path / f"{name}.toml" for name in PLANS]
    for path, text in zip(paths, PLANS.values()):
        path.write_text(f'{text}inside = ["10.0.0.0/8"]\n')
    return [str(path) for path in paths]


def check(table: pd.DataFrame) -> None:
    """Of a quota the first connections of each host go through, and of the others neither packets nor replies. Where parity is
    free, odd ports share a class with even ones."""
    kept, lost = HOSTS * QUOTA, 2 * (LONG - HOSTS * QUOTA)
    assert table.to_outside.to_list() == table.to_inside.to_list() == [2 * LONG, 2 * LONG, 2 * LONG - lost, 2 * LONG]
    assert table.over_quota.to_list() == table.no_binding.to_list() == [0, 0, lost, 0]
    assert table.bindings.to_list() == [LONG, LONG, kept, LONG]
    assert table["median"].to_list() == table.percentile_99.to_list() == [EACH, EACH, QUOTA, EACH]
    assert table.refused_hosts.to_list() == [0, 0, HOSTS, 0]
    assert table.fullest_bindings.to_list() == [LONG // 2, LONG // 2, kept // 2, LONG]
    assert table.fullest_numbers.to_list() == [32256, 32256, 32256, 64512]
    assert set(table.fullest_protocol) == {"tcp"}
    assert table.pool.to_list() == [1, 2, 1, 1]
    assert (table[["no_port", "filtered", "truncated", "hold"]] == 0).all(axis=None)


def test_plan(lan, configurations):
    with pytest.warns(CaptureWarning) as warned:
        table = plan(configurations, lan)
    assert list(table.index) == configurations
    check(table)
    assert enough(table) == [configurations[place] for place in (0, 1, 3)]
    assert f"under {configurations[2]}: 1200 of 2000 replies find no binding" in str([it.message for it in warned])


def test_commands(lan, configurations, capsys):
    words = ["plan", *configurations, *lan.arguments()]
    assert main([*words, "--csv"]) == 0
    table = pd.read_csv(io.StringIO(capsys.readouterr().out), index_col="configuration")
    check(table)
    assert main([*words, "--markdown"]) == 0
    lines = capsys.readouterr().out.splitlines()
    assert len(lines) == 2 + len(PLANS) and lines[2].endswith("| 1.55 %: 500 of 32256 even ports from 1024 on, tcp at 203.0.113.1 |")
    assert main(words) == 0
    *rows, last = capsys.readouterr().out.splitlines()
    assert len(rows) == 2 + len(PLANS)
    assert last == "without no_port and over_quota: " + ", ".join(configurations[place] for place in (0, 1, 3))


@pytest.mark.filterwarnings("ignore::napt_analysis.CaptureWarning")
def test_sizes_of_both_pools(lan, configurations):
    for path, addresses in zip(configurations, (1, 2)):
        sizes = Sizes(log_of(lan, path), Configuration.read(path))
        assert sizes.addresses.most.xs("tcp", level="protocol").to_list() == [LONG // addresses] * addresses
        assert [sizes.of_hosts(percent) for percent in (50, 95, 99, 100)] == [EACH] * 4


def test_what_a_program_refuses(lan, tmp_path, capsys):
    faulty = tmp_path / "faulty.toml"
    faulty.write_text(PLANS["one"] + 'filter = "faulty"\n')
    with pytest.raises(ProgramError) as refused:
        plan([faulty], lan)
    assert refused.value.status == 3
    assert main(["plan", str(faulty), *lan.arguments()]) == 3
    assert "explain: config missing" in capsys.readouterr().err
