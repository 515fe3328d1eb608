"""The command line, over a log and over the captures of the example."""

import re
import subprocess

import pytest
from conftest import EXAMPLE_FOLDER, TOP

from napt_analysis.__main__ import main

CONFIG = str(EXAMPLE_FOLDER / "napt.toml")
CAPTURES = ["--inside", str(EXAMPLE_FOLDER / "inside.pcap"), "--outside", str(EXAMPLE_FOLDER / "outside.pcap")]


def test_sizes_of_a_log(example, capsys):
    assert main(["sizes", "--log", str(example), "--config", CONFIG]) == 0
    printed = capsys.readouterr()
    assert "bindings at once, by host, of 2: 50 % at most 1" in printed.out
    assert re.search(r"^over-quota +1 +1$", printed.out, re.MULTILINE)
    assert not printed.err


def test_sizes_of_captures(capsys):
    assert main(["sizes", "--config", CONFIG, *CAPTURES]) == 0
    printed = capsys.readouterr()
    assert "203.0.113.2 tcp      even ports from 1024 on" in printed.out
    living = "2 of 2 bindings are live when the captures end, after 8 s: the greatest number at once may be higher"
    assert printed.err == f"napt-analysis: {living}\n"


@pytest.mark.parametrize("words", [["--clock"], ["--host", "10.0.0.3"], ["--from", "1", "--until", "4"]])
def test_draw(example, tmp_path, words):
    picture = tmp_path / "picture.svg"
    for source in (["--log", str(example)], CAPTURES):
        assert main(["draw", str(picture), "--config", CONFIG, *source, *words]) == 0
        assert picture.stat().st_size > 1000


@pytest.mark.parametrize(
    ("words", "message"),
    [
        (["sizes", "--config", CONFIG], "expected a capture (--inside), or in its place a log (--log)"),
        (["sizes", "--config", CONFIG, "--log", "log.csv", *CAPTURES], "expected a capture (--inside), or in its place a log (--log)"),
        *(
            (["draw", f"a{suffix}", "--config", CONFIG, *CAPTURES], f"a{suffix}: expected one of the suffixes .pdf, .png, .svg\n")
            for suffix in ("", ".jpg", ".pgf", ".tiff", ".word")
        ),
        (["draw", "a.svg", "--config", CONFIG, *CAPTURES, "--from", "2", "--until", "2"], "--until: expected a time after that of --from"),
        (["plan", CONFIG, *CAPTURES, "--replies", "r.pcap"], "not allowed with argument"),
    ],
)
def test_mistakes(words, message, capsys):
    with pytest.raises(SystemExit) as stopped:
        main(words)
    assert stopped.value.code == 2
    assert message in capsys.readouterr().err


@pytest.mark.parametrize(
    ("words", "status", "message"),
    [
        (["--config", CONFIG, "--log", "nowhere.csv"], 6, "No such file or directory: 'nowhere.csv'"),
        (["--config", "nowhere.toml", "--log", "EXAMPLE"], 6, "No such file or directory: 'nowhere.toml'"),
        (["--config", CONFIG, "--log", CONFIG], 4, f"{CONFIG} is not a log of napt: "),
        (["--config", "EXAMPLE", "--log", "EXAMPLE"], 3, "is refused: "),
        (["--config", CONFIG, "--inside", CONFIG], 4, "is refused: bad-magic"),
    ],
)
def test_refusals(example, words, status, message, capsys):
    assert main(["sizes", *(str(example) if word == "EXAMPLE" else word for word in words)]) == status
    printed = capsys.readouterr()
    assert message in printed.err and not printed.out


def test_script():
    done = subprocess.run([TOP / "analysis/napt-analysis", "--help"], capture_output=True, text=True)
    assert done.returncode == 0 and done.stdout.startswith("usage: napt-analysis ")


@pytest.mark.parametrize("word", ["--version", "-V"])
def test_version(word):
    done = subprocess.run([TOP / "analysis/napt-analysis", word], capture_output=True, text=True)
    version = (TOP / "CHANGES").read_text().splitlines()[2]
    assert (done.returncode, done.stdout, done.stderr) == (0, f"napt-analysis {version}\nnot proved: tested by tests/analysis\n", "")
