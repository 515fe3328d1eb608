"""Command lines: the options of `napt --help`, and words that are none."""

OPTIONS = ("--config", "--inside", "--outside", "--to-outside", "--to-inside", "--report", "--save", "--resume")
INPUTS = ("napt.toml", "inside.pcap", "outside.pcap")
OUTPUTS = ("to-outside.pcap", "to-inside.pcap", "report.txt")
VALUED = dict(zip(OPTIONS, (*INPUTS, *OUTPUTS, "saved", "state")))
OTHERS = (
    b"", b"-", b"--", b"---", b"-h", b"--help", b"-V", b"--version", b"-i", b"-hx", b"--x", b"--x=1", b"--inside=", b"--=", b"--insid",
    b"--INSIDE", b"--inside ", b"x", b" ", b"=", b"\xff", b"--\xff", b"--inside=\xff", b"\n", b"--help=1", b"-\xff", b"help",
    b"x" * 5000, b"--" + b"x" * 5000, b"--config=napt.toml", b"--config=--", b"--report=-", "é".encode(),
    b"--report=missing/report.txt", b"--to-outside=.", b"--inside=missing.pcap",
)
VALUES = (b".", b"missing.pcap", b"missing/x", b"/dev/null", b"-", b"--", b"-x", b"", b"\xff", b"x" * 300)
FULL_DISK = b"/dev/full"


def usual():
    """All options but those of states, each with its file."""
    return [word.encode() for pair in list(VALUED.items())[:6] for word in pair]


def drawn(draw):
    words = []
    for option, value in draw.sample(list(VALUED.items()), draw.randrange(9)):
        others = (*VALUES, FULL_DISK) if value in OUTPUTS else VALUES
        word = draw.choice(others) if draw.random() < 0.15 else value.encode()
        if draw.random() < 0.3:
            words.append(option.encode() + b"=" + word)
        else:
            words += [option.encode(), word]
    for _ in range(draw.choice((0, 1, 1, 2))):
        kind = draw.randrange(4)
        if kind == 0 or not words:
            words.insert(draw.randrange(len(words) + 1), draw.choice(OTHERS))
        elif kind == 1:
            words.insert(draw.randrange(len(words) + 1), draw.choice(words))
        elif kind == 2:
            del words[draw.randrange(len(words))]
        else:
            words[draw.randrange(len(words))] = draw.choice(OTHERS)
    return words
