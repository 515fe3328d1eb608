"""Pictures of a run: its bindings over time, the hairpins between them, and the packets that were dropped."""

from __future__ import annotations

from dataclasses import dataclass, replace
from pathlib import Path

import matplotlib.dates as dates
import numpy as np
import pandas as pd
from matplotlib import rc_context
from matplotlib.axes import Axes
from matplotlib.figure import Figure
from matplotlib.lines import Line2D
from matplotlib.patches import ConnectionPatch, Patch
from matplotlib.ticker import MaxNLocator, StrMethodFormatter

from .classes import NUMBERS, class_of
from .configurations import Configuration
from .levels import at_once, steps
from .runs import Run

MOST_BARS = 30  # bindings; of more the number is drawn
BINS = 500
WIDTH = 8.0  # inches: 8 points can be read on a page of this width
STYLE = {"fontsize": 8}
# the suffixes of pictures, which every matplotlib writes by itself, and what has the date in each
DATES = {".pdf": "CreationDate", ".png": None, ".svg": "Date"}

# the colours of Okabe and Ito, which colour-blind readers can distinguish
COLOURS = {"udp": "#0072B2", "tcp": "#009E73", "icmp": "#E69F00", "redirect": "#CC79A7"}
DROPPED, HAIRPIN, PACKETS = "#D55E00", "#000000", "#7F7F7F"


@dataclass(frozen=True)
class View:
    """The part of a run that a picture shows, and its axis: seconds since `zero`, or the time of day (UTC)."""

    zero: pd.Timestamp
    start: pd.Timestamp
    end: pd.Timestamp
    is_clock: bool

    @classmethod
    def of(cls, run: Run, start: float | None, until: float | None, clock: bool) -> View:
        """Returns the part from `start` to `until`, in seconds since the first packet; by default all packets, and a little
        after the last."""
        passed = (run.last - run.first) or pd.Timedelta(seconds=1)
        begin = run.first + pd.Timedelta(seconds=start or 0)
        end = run.first + (passed * 17 / 16 if until is None else pd.Timedelta(seconds=until))
        return cls(run.first, begin, end, clock)

    def at(self, times: pd.Series) -> pd.Series:
        """Returns where times are on the axis."""
        return times if self.is_clock else (times - self.zero).dt.total_seconds()

    def bins(self) -> pd.Series:
        """Returns the bounds of `BINS` equal parts of its time."""
        return pd.Series(pd.date_range(self.start, self.end, BINS + 1))

    def label(self, axes: Axes) -> None:
        """Puts the times below the last axes."""
        axes.set_xlim(*self.at(pd.Series([self.start, self.end])))
        if self.is_clock:
            axes.xaxis.set_major_formatter(dates.ConciseDateFormatter(axes.xaxis.get_major_locator()))
        else:
            axes.xaxis.set_major_formatter(StrMethodFormatter("{x:,.10g}"))
        axes.xaxis.get_offset_text().set_fontsize(8)
        axes.set_xlabel("time of day (UTC)" if self.is_clock else "time since the first packet (s)", **STYLE)


def draw(
    run: Run,
    configuration: Configuration,
    *,
    start: float | None = None,
    until: float | None = None,
    clock: bool = False,
) -> Figure:
    """Draws a run: a bar for each binding if at most 30 are shown, otherwise the number of live bindings over time, and the
    packets per second. `start` and `until` are in seconds since the first packet; `clock` gives the axis times of day."""
    view = View.of(run, start, until, clock)
    bindings = run.log.bindings
    ends = bindings.ended.fillna(view.end + pd.Timedelta(seconds=1))
    lives = (bindings.made <= view.end) & (ends > view.start)
    shown = bindings.assign(ended=ends)[bindings.redirect | lives]
    packets = run.packets[run.packets.time.between(view.start, view.end)]
    pool = [address for address in configuration.pool if run.host is None or (shown.address == address).any()]
    drawn = _draw_each if len(shown) <= MOST_BARS else _draw_counts
    figure = drawn(shown, packets, replace(configuration, pool=tuple(pool or configuration.pool[:1])), view)
    figure.suptitle(_title(run, packets, shown, view), x=0.01, ha="left", fontsize=10, fontweight="bold")
    return figure


def save(figure: Figure, path: str | Path) -> None:
    """Writes a picture in the format of the path's suffix, .pdf, .png or .svg: the same bytes for the same picture, without a
    date. Raises `ValueError` for another suffix."""
    dated = DATES[suffix_of(path)]
    with rc_context({"svg.hashsalt": "napt"}):
        figure.savefig(path, dpi=150, metadata={dated: None} if dated else None)


def suffix_of(path: str | Path) -> str:
    """Returns the suffix of a picture's path. Raises `ValueError` if no picture has it."""
    if (suffix := Path(path).suffix) not in DATES:
        raise ValueError(f"{path}: expected one of the suffixes {', '.join(DATES)}")
    return suffix


def _title(run: Run, packets: pd.DataFrame, shown: pd.DataFrame, view: View) -> str:
    whole = len(run.log.bindings)
    bindings = f"{len(shown):,}" if len(shown) == whole else f"{len(shown):,} of {whole:,}"
    title = f"{len(packets):,} packets through {bindings} bindings, from {view.start:%Y-%m-%d %H:%M:%S} UTC"
    return f"{title}, of {run.host}" if run.host else title


# EACH BINDING


def _draw_each(shown: pd.DataFrame, packets: pd.DataFrame, configuration: Configuration, view: View) -> Figure:
    causes = _causes(packets)
    lanes = [shown[shown.address == address].sort_values("made", kind="stable") for address in configuration.pool]
    rows = [*(max(len(lane), 1) for lane in lanes), *([len(causes)] if len(causes) else [])]
    figure, all_axes = _axes_of([1.3 + row for row in rows], 0.25)
    places: dict[int, tuple[Axes, int]] = {}
    for address, lane, axes in zip(configuration.pool, lanes, all_axes):
        _draw_lane(axes, address, lane, packets, view)
        places |= {number: (axes, row) for row, number in enumerate(lane.index)}
    _draw_hairpins(figure, packets, places, view)
    if len(causes):
        _draw_drops(all_axes[-1], packets, causes, view)
    view.label(all_axes[-1])
    _add_legend(all_axes[0], _legend_of_bars(shown, packets))
    return figure


def _kinds(bindings: pd.DataFrame) -> pd.Series:
    return bindings.protocol.astype(str).where(~bindings.redirect, "redirect")


def _draw_lane(axes: Axes, address: str, bindings: pd.DataFrame, packets: pd.DataFrame, view: View) -> None:
    """Draws a bar for each binding of an address: thick up to its last packet, thin up to its end."""
    made = bindings.made.where(~bindings.redirect, view.start).clip(lower=view.start)
    used = bindings.last_packet.fillna(made).where(~bindings.redirect, view.end).clip(view.start, view.end)
    ended = bindings.ended.clip(upper=view.end)
    colours = _kinds(bindings).map(COLOURS)
    rows = np.arange(len(bindings))
    axes.hlines(rows, view.at(used), view.at(ended), colours, linewidth=2.5, alpha=0.4)
    axes.hlines(rows, view.at(made), view.at(used), colours, linewidth=5)
    row_of = pd.Series(rows, bindings.index)
    for way, marker, beside in (("out", "^", -0.34), ("into", "v", 0.34)):
        passed = packets[packets[way].isin(bindings.index)]
        places = view.at(passed.time), passed[way].map(row_of) + beside
        (marks,) = axes.plot(*places, marker, color="black", markersize=3.5, clip_on=False)
        marks.set_in_layout(False)
    axes.set_yticks(rows, _labels(bindings))
    axes.set_ylim(max(len(bindings), 1) - 0.4, -0.6)
    _tidy(axes, address)


def _labels(bindings: pd.DataFrame) -> list[str]:
    ends = bindings[["protocol", "host", "host_number", "number"]].itertuples(index=False)
    return [f"{protocol} {host}:{host_number} → :{number}" for protocol, host, host_number, number in ends]


def _draw_hairpins(figure: Figure, packets: pd.DataFrame, places: dict[int, tuple[Axes, int]], view: View) -> None:
    """Draws an arrow for each hairpin, from the bar through which it goes out to the one through which it comes in."""
    hairpins = packets[packets.is_hairpin & packets.out.isin(places) & packets.into.isin(places)]
    for at, out, into in zip(view.at(hairpins.time), hairpins.out, hairpins.into):
        (one, from_row), (other, to_row) = places[out], places[into]
        column = one.convert_xunits(at)
        ends = (column, from_row), (column, to_row)
        arrow = ConnectionPatch(*ends, one.transData, other.transData, arrowstyle="-|>", color=HAIRPIN, linewidth=1.2)
        arrow.set_in_layout(False)
        figure.add_artist(arrow)


def _draw_drops(axes: Axes, packets: pd.DataFrame, causes: pd.Series, view: View) -> None:
    """Draws a row of crosses for each cause."""
    for row, cause in enumerate(causes.index):
        times = packets.loc[packets.cause == cause, "time"]
        axes.plot(view.at(times), np.full(len(times), row), "x", color=DROPPED, markersize=5, markeredgewidth=1.6)
    axes.set_yticks(range(len(causes)), [f"{cause} ({many:,})" for cause, many in causes.items()])
    axes.set_ylim(len(causes) - 0.4, -0.6)
    _tidy(axes, "dropped packets")


def _legend_of_bars(bindings: pd.DataFrame, packets: pd.DataFrame) -> list[Line2D]:
    kinds = set(_kinds(bindings))
    entries = [Line2D([], [], color=colour, linewidth=5, label=kind) for kind, colour in COLOURS.items() if kind in kinds]
    entries.append(Line2D([], [], color=PACKETS, linewidth=2.5, alpha=0.4, label="after its last packet"))
    marks = {"^": "packet out", "v": "packet in"} | ({r"$\downarrow$": "hairpin"} if packets.is_hairpin.any() else {})
    for marker, label in marks.items():
        entries.append(Line2D([], [], color="black", marker=marker, linestyle="", markersize=5, label=label))
    return entries


# HOW MANY


def _draw_counts(shown: pd.DataFrame, packets: pd.DataFrame, configuration: Configuration, view: View) -> Figure:
    """Draws for each address how many bindings live, by protocol, and below them how many packets come in a second."""
    bins = view.bins()
    edges = view.at(bins)
    pool, rates = configuration.pool, _rates(packets, bins)
    figure, all_axes = _axes_of([1.9 if len(pool) <= 4 else 1.1] * len(pool) + [0.8] * len(rates), 0.62)
    for address, axes in zip(pool, all_axes):
        _draw_living(axes, address, shown[shown.address == address], bins, edges, configuration)
    most = max(axes.get_ylim()[1] for axes in all_axes[: len(pool)])
    for axes in all_axes[: len(pool)]:
        axes.set_ylim(0, most)
    for (name, many, colour), axes in zip(rates, all_axes[len(pool):]):
        _draw_rate(axes, name, many, colour, bins, edges)
    view.label(all_axes[-1])
    kinds = set(_kinds(shown))
    _add_legend(all_axes[0], [Patch(color=colour, label=kind) for kind, colour in COLOURS.items() if kind in kinds])
    return figure


def _draw_living(
    axes: Axes, address: str, bindings: pd.DataFrame, bins: pd.Series, edges: pd.Series, configuration: Configuration
) -> None:
    living = living_at(bindings, bins)
    bottom = np.zeros(len(living))
    for kind, many in living.items():
        top = bottom + many
        axes.stairs(top, edges, baseline=bottom, fill=True, color=COLOURS[kind])
        bottom = top
    axes.set_ylim(0, max(bottom.max(), 1) * 1.05)
    axes.set_ylabel("bindings", **STYLE)
    axes.yaxis.set_major_locator(MaxNLocator(3, integer=True))
    axes.yaxis.set_major_formatter(StrMethodFormatter("{x:,.0f}"))
    _tidy(axes, f"{address}: at most {bottom.max():,.0f} at once{fullest_in_words(bindings, configuration)}")


def living_at(bindings: pd.DataFrame, bins: pd.Series) -> pd.DataFrame:
    """Returns how many bindings of each kind live in each bin, at that moment of it at which the most do.

    A bin is from one of the times up to the next.
    """
    turns = steps(bindings.assign(released=bindings.ended))
    marks = pd.DataFrame({"time": bins, "step": 0})  # what lives where a bin begins
    at = pd.concat([turns.assign(kind=_kinds(turns))[["time", "step", "kind"]], marks])
    at = at.sort_values(["time", "step"], kind="stable").reset_index(drop=True)
    levels = pd.DataFrame({kind: (at.step * (at.kind == kind)).cumsum() for kind in COLOURS})
    bin_of = np.searchsorted(bins, at.time, side="right") - 1
    # of several that end at one moment only the last leaves what lives then
    is_shown = (bin_of >= 0) & (bin_of < len(bins) - 1) & (at.step >= 0)
    most = levels.sum(axis=1)[is_shown].groupby(bin_of[is_shown]).idxmax()
    return levels.loc[most].reset_index(drop=True)


def fullest_in_words(bindings: pd.DataFrame, configuration: Configuration) -> str:
    """Returns the share of the fullest class of numbers, or block of a host, that was in use at once, rounded down."""
    turns = steps(bindings.assign(released=bindings.ended, number_class=class_of(bindings, configuration.parity)))
    if configuration.block:
        most = at_once(turns[turns.number >= 1024], ["protocol", "host"]).most
        share = most / configuration.block
    else:
        most = at_once(turns, ["protocol", "number_class"]).most
        share = most / most.index.get_level_values("number_class").map(NUMBERS).astype(int)
    if share.empty:
        return ""
    protocol, owner = share.idxmax()
    name = f"the {protocol} block of {owner}" if configuration.block else f"{protocol} {owner}"
    return f", {np.floor(1000 * share.max()) / 10} % of {name}"


def _rates(packets: pd.DataFrame, bins: pd.Series) -> list[tuple[str, np.ndarray, str]]:
    """Returns how many packets there are in each bin: all, hairpins, and those dropped, by cause."""
    rows = [("packets", packets, PACKETS)]
    if packets.is_hairpin.any():
        rows.append(("hairpins", packets[packets.is_hairpin], HAIRPIN))
    rows += [(f"dropped, {cause}", packets[packets.cause == cause], DROPPED) for cause in _causes(packets).index]
    bounds = bins.astype("int64")
    return [(name, np.histogram(rows.time.astype("int64"), bounds)[0], colour) for name, rows, colour in rows]


def _draw_rate(axes: Axes, name: str, many: np.ndarray, colour: str, bins: pd.Series, edges: pd.Series) -> None:
    seconds = (bins[1] - bins[0]).total_seconds()
    axes.stairs(many / seconds, edges, fill=True, color=colour)
    axes.set_ylim(bottom=0)
    axes.set_ylabel("per s", **STYLE)
    axes.yaxis.set_major_locator(MaxNLocator(2))
    axes.yaxis.set_major_formatter(StrMethodFormatter("{x:,.4g}"))
    _tidy(axes, f"{name}: {many.sum():,}")


# BOTH


def _axes_of(heights: list[float], unit: float) -> tuple[Figure, np.ndarray]:
    """Returns axes, one below the other, over one time; `unit` inches are one unit of height."""
    figure = Figure((WIDTH, unit * sum(heights) + 1.2), layout="constrained")
    return figure, figure.subplots(len(heights), sharex=True, squeeze=False, height_ratios=heights)[:, 0]


def _causes(packets: pd.DataFrame) -> pd.Series:
    """Returns the causes for which packets were dropped, and how many were."""
    many = packets.cause.value_counts(sort=False)
    return many[many > 0]


def _tidy(axes: Axes, title: str) -> None:
    axes.set_title(title, loc="left", fontsize=9, pad=3)
    axes.grid(axis="x", color="#DDDDDD", linewidth=0.6)
    axes.set_axisbelow(True)
    axes.tick_params(labelsize=8)
    axes.spines[["top", "right"]].set_visible(False)


def _add_legend(axes: Axes, entries: list) -> None:
    """Adds a legend above the first axes and their title."""
    place = {"loc": "lower left", "bbox_to_anchor": (0, 1), "borderaxespad": 2, "borderpad": 0}
    axes.legend(handles=entries, ncols=8, frameon=False, handlelength=1.4, columnspacing=1.4, **place, **STYLE)
