"""Large configurations: each is answered or refused with its fault line, in seconds and in memory in proportion to its text."""

import sys

from shared import content, write_files

from . import captures, running

TEN_MEGABYTES = 10_000_000
MOST_SECONDS = 20
# the address space that a run is given: a number of bytes, and a number for each byte of the text
FEW_BYTES = 64 << 20
MOST_FOR_A_BYTE = 32
LIMITED = 'ulimit -v "$0" && exec "$@"'

ALLOWED = b'pool = ["203.0.113.1"]\ninside = ["10.0.0.0/8"]\n'
PAIR = b'[[pair]]\nhost = "10.%d.%d.%d"\nexternal = "203.0.113.1"\n'


def pairs(count):
    return b"".join(PAIR % (n >> 16, n >> 8 & 255, n & 255) for n in range(count))


def texts():
    """(name, text, the fault that it must get, or None)"""
    long = TEN_MEGABYTES
    yield "a comment", ALLOWED + b"#" + b"x" * long + b"\n", None
    yield "empty lines", ALLOWED + b"\n" * long, None
    yield "100,000 pairs", ALLOWED + pairs(100_000), "too-many"
    yield "256 pairs and a comment", ALLOWED + pairs(256) + b"#" + b"x" * long, None
    yield "many addresses", b"pool = [" + b'"203.0.113.1", ' * (long // 15) + b']\ninside = ["10.0.0.0/8"]\n', "too-many"
    yield "many keys", ALLOWED + b"".join(b"k%d = 1\n" % n for n in range(800_000)), "unknown-key"
    yield "many tables", ALLOWED + b"".join(b"[t%d]\n" % n for n in range(1_000_000)), "unknown-key"
    yield "a long string", b'pool = ["' + b"x" * long + b'"]\ninside = ["10.0.0.0/8"]\n', "bad-address"
    yield "a long key", ALLOWED + b"x" * long + b" = 1\n", "unknown-key"
    yield "a long number", ALLOWED + b"ring = " + b"9" * long + b"\n", "not-toml"
    for opens, closes in ((b"[", b"]"), (b"{x=", b"}"), (b"[{x=", b"}]")):
        half = long // (2 * len(opens))
        yield f"nested {opens.decode()}", b"pool = " + opens * half + closes * half + b"\n", "not-toml"
    yield "only [", b"[" * long, "not-toml"
    yield "a long path of keys", b"x." * (long // 2) + b"x = 1\n", "not-toml"
    yield "a long path of a table", b"[" + b"x." * (long // 2) + b"x]\n", "not-toml"
    yield "NUL bytes", b"\0" * long, "not-toml"
    yield "NUL bytes after it", ALLOWED + b"\0" * long, "not-toml"
    yield "no UTF-8", ALLOWED + b"\xff" * long, "not-toml"
    yield "no UTF-8 at the end", ALLOWED + b"#" + b"x" * long + b"\xc3", "not-toml"


def complaint_of(program, text, fault):
    write_files(".", {"napt.toml": text, "inside.pcap": bytes(captures.header(b"\xd4\xc3\xb2\xa1"))})
    limit = FEW_BYTES + MOST_FOR_A_BYTE * len(text)
    words = ["-c", LIMITED, str(limit // 1024), program, "--config", "napt.toml"]
    status, is_late = running.ended("/bin/sh", words, "inside.pcap", MOST_SECONDS)
    if is_late:
        return f"no end within {MOST_SECONDS} s"
    wanted = (3, f"napt: config {fault}\n".encode()) if fault else (0, b"")
    found = (status, content(running.FAULT))
    return None if found == wanted else f"{found} in place of {wanted}, in {limit} bytes of memory"


def is_well(program):
    for name, text, fault in texts():
        complaint = complaint_of(program, text, fault)
        if complaint:
            print(f"hostile: a configuration with {name}: {complaint}", file=sys.stderr)
            return False
    return True
