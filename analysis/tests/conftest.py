"""What tests share: places, the example's log, and random bindings."""

import sys
from pathlib import Path

import pandas as pd
import pytest
from hypothesis import HealthCheck, settings
from hypothesis import strategies as st

TOP = Path(__file__).resolve().parents[2]
EXAMPLE_FOLDER = TOP / "examples/gateway"
sys.path[:0] = [str(TOP / "analysis"), str(TOP / "tests")]

from napt_analysis import Log  # noqa: E402

settings.register_profile("napt", deadline=None, max_examples=30, suppress_health_check=[HealthCheck.too_slow])
settings.load_profile("napt")

EXAMPLE = """\
observationTimeNanoseconds,natEvent,protocolIdentifier,sourceIPv4Address,sourceTransportPort,\
postNATSourceIPv4Address,postNAPTSourceTransportPort,natQuotaExceededEvent,binding,redirect,packets_out,packets_in,\
flowEndNanoseconds,note
0,8,6,10.0.0.3,80,203.0.113.2,8080,,1,1,0,0,,
1000000000,8,17,10.0.0.2,5000,203.0.113.1,5000,,2,0,1,0,1000000000,
3000000000,8,17,10.0.0.3,7000,203.0.113.2,7000,,3,0,1,0,3000000000,
3000000001,13,17,10.0.0.3,,203.0.113.2,,3,,,,,,
303000000000,9,17,10.0.0.3,7000,203.0.113.2,7000,,3,0,1,1,4000000000,
304000000001,,17,10.0.0.2,5000,203.0.113.1,5000,,2,0,2,1,4000000001,
,,6,10.0.0.3,80,203.0.113.2,8080,,1,1,1,1,7000000000,
"""


@pytest.fixture
def example(tmp_path: Path) -> Path:
    path = tmp_path / "log.csv"
    path.write_text(EXAMPLE)
    return path


@st.composite
def logs(draw: st.DrawFn) -> Log:
    """A log of few hosts at two addresses, whose bindings live up to 9 s."""
    rows = []
    lives = st.tuples(st.integers(0, 20), st.integers(1, 9), st.sampled_from(["icmp", "tcp", "udp"]), st.integers(2, 5))
    for made, lived, protocol, host in sorted(draw(st.lists(lives, max_size=40))):
        number = draw(st.sampled_from([80, 81, 1024, 1025, 5000]))
        rows.append((protocol, f"10.0.0.{host}", number, f"203.0.113.{1 + host % 2}", number, False, made, made + lived))
    names = ["protocol", "host", "host_number", "address", "number", "redirect", "made", "ended"]
    bindings = pd.DataFrame(rows, columns=names, index=pd.RangeIndex(1, len(rows) + 1, name="binding"))
    for name in ("made", "ended"):
        bindings[name] = pd.to_datetime(bindings[name], unit="s", utc=True)
    bindings = bindings.astype({"redirect": bool, "protocol": "category", "host": "category", "address": "category"})
    bindings = bindings.assign(is_over=True, sent=1, received=1, last_packet=bindings.made)
    refusals = pd.DataFrame({"time": [], "protocol": [], "host": [], "address": [], "cause": []})
    return Log(bindings, refusals, bindings.made.min(), bindings.ended.max())
