"""Figures and pictures of runs of napt, as DataFrames and Figures, from what its programs write.

In a notebook:

    from napt_analysis import Captures, Configuration, Sizes, draw, plan, read_log, run

    configuration = Configuration.read("napt.toml")
    log = read_log("log.csv")                        # of `explain log` or `stream --log`
    Sizes(log, configuration).classes                # a DataFrame
    draw(run(Captures("inside.pcap", "outside.pcap"), "napt.toml"), configuration)       # a Figure
    plan(["small.toml", "large.toml"], Captures("inside.pcap", replies="replies.pcap"))  # a DataFrame

docs/ANALYSIS.md of the sources shows it at work.
"""

import logging

# At its first use on a machine matplotlib warns that it builds a cache of the fonts.
logging.getLogger("matplotlib.font_manager").setLevel(logging.ERROR)

from .configurations import Configuration, ConfigurationError
from .logs import Log, LogError, read_log
from .packets import read_packets, refused_packets
from .pictures import draw, save
from .plan import enough, plan
from .programs import Captures, CaptureWarning, ProgramError
from .runs import Run, log_of, run
from .sizes import Sizes

__all__ = [
    "CaptureWarning",
    "Captures",
    "Configuration",
    "ConfigurationError",
    "Log",
    "LogError",
    "ProgramError",
    "Run",
    "Sizes",
    "draw",
    "enough",
    "log_of",
    "plan",
    "read_log",
    "read_packets",
    "refused_packets",
    "run",
    "save",
]
