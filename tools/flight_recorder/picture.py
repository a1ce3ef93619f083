"""A flight as a picture: the parameters' curves under one another on one axis of time."""

import itertools
import logging
import pathlib

import matplotlib
import numpy as np
from matplotlib.axes import Axes
from matplotlib.figure import Figure
from matplotlib.ticker import FixedLocator, FuncFormatter

from .arrays import Array
from .clock import SECOND, Event
from .curves import PART, Flight, Points, own_name
from .faults import Fault
from .naming import Happening, clock_text, happenings, is_discrete, label_of, own_clock, seen, states_of

WIDTH = 11.0  # inches
ROW = 1.15  # inches of a curve
BAND = 0.3  # inches of one that is 0 or 1
HEAD = 0.85  # inches for the title, the numbers and the axis
LINE = 0.155  # inches of a line of the list
MOST_LINES = 60
MOST_SIGNS = 150  # of a line
CLOSE = 1 / 90  # of the axis, between numbers that are written one above the other
LEVELS = 3
MOST_CURVES = 100
DATE, DAY_TIME, MILLI = len("2026-05-04"), len("10:00:00.000Z"), len(".000Z")
TICKS = 8  # on the axis of time, about
STEPS = (1, 2, 5, 10, 15, 30, 60, 120, 300, 600, 900, 1800, 3600, 7200, 14400, 28800, 86400)  # seconds between them
NARROWEST = 1 / 600  # of the axis, for a span to be seen
RED, GREY, VIOLET = "#d9534f", "#6c757d", "#8e44ad"
COLOURS = {Event.GAP: RED, Event.BREAK: RED, Event.HOLE: RED} | dict.fromkeys(
    (Event.SESSION, Event.RUN, Event.BACK, Event.WRAP), GREY
) | {Event.DOUBTFUL: VIOLET, Event.CLOCK: "#2a9d8f", Event.EVENT: "#d98c21"}
PART_COLOUR = "#e67e22"
EXCEED_COLOUR = "#b8860b"
CURVE_COLOUR = "#1f4e79"
TOGETHER_COLOURS = (CURVE_COLOUR, "#c0504d", "#4f8a3c", "#7a5195", "#d98c21", "#2a9d8f")
BAND_COLOUR = "#c9d6e4"  # of a discrete that is 0
STATE_COLOURS = (BAND_COLOUR, CURVE_COLOUR, "#e0b184", "#9cc5a1", "#b39cc5", "#c58f8f", "#8fb8c5", "#c5bf8f")
NO_WORD = "#eeeeee"  # of a value without a word
SHORT = 11  # signs of a band's name
SIGN = 1 / 130  # of the axis, that a sign of a word takes


def save(flight: Flight, path: pathlib.Path, title: str) -> None:
    """Writes a picture, in the format of the path's ending."""
    logging.getLogger("matplotlib").setLevel(logging.ERROR)
    matplotlib.rcParams["svg.hashsalt"] = "flight"
    figure = figure_of(flight, title)
    plain = {"Date": None} if path.suffix == ".svg" else {"CreationDate": None} if path.suffix == ".pdf" else {}
    figure.savefig(path, metadata=plain)


def figure_of(flight: Flight, title: str = "") -> Figure:
    """The picture."""
    count = max(1, len(flight.curves))
    if count > MOST_CURVES:
        raise Fault(f"{count} parameters are too many for a picture, which has up to {MOST_CURVES}: choose with --only")
    groups = flight.groups() or [[]]
    with_states = [len(group) == 1 and bool(states_of(flight, group[0])) for group in groups]
    bands = [states or len(group) == 1 and is_discrete(flight.curves[group[0]]) for states, group in zip(with_states, groups)]
    events = happenings(flight, flight.end * NARROWEST)
    lines = listed(flight, events)
    axis = 0.42 if flight.utc is None else 0.57
    below = axis + LINE * (len(lines) + 1 if lines else 0)
    inches = [BAND if band else ROW for band in bands]
    height = 0.5 + below + sum(inches)
    figure = Figure(figsize=(WIDTH, height), dpi=100)
    figure.subplots_adjust(left=0.09, right=0.98, top=1 - 0.5 / height, bottom=below / height, hspace=0.12)
    ratios = {"height_ratios": inches}
    all_axes = figure.subplots(len(groups), 1, sharex=True, squeeze=False, gridspec_kw=ratios)[:, 0]
    for axes, group, is_band, has_states in zip(all_axes, groups, bands, with_states):
        if has_states:
            _draw_states(axes, group[0], flight)
        elif is_band:
            _draw_band(axes, group[0], flight.curves[group[0]])
        else:
            _draw_group(axes, {name: flight.curves[name] for name in group})
        _name(axes, group, flight, is_band)
        _shade(axes, flight)
    _mark(list(all_axes), groups, events, flight)
    _time_axis(all_axes[-1], flight)
    for at, line in enumerate(lines):
        place = (below - axis - LINE * (at + 0.5)) / height
        figure.text(0.05, place, line, fontsize=7, va="top", family="monospace", parse_math=False)
    if title:
        figure.suptitle(title, x=0.09, y=1 - 0.04 / height, ha="left", va="top", fontsize=11)
    return figure


def listed(flight: Flight, events: list[Happening]) -> list[str]:
    """The lines of the list below a picture: each number once."""
    lines: dict[int, str] = {}
    for one in events:
        lines.setdefault(one.number, f"{one.number:>3}  {own_clock(flight, one.place):<12}  {one.text}")
    texts = [line if len(line) <= MOST_SIGNS else line[: MOST_SIGNS - 2] + ".." for line in lines.values()]
    if len(texts) > MOST_LINES:
        texts = texts[:MOST_LINES] + [f"     and {len(texts) - MOST_LINES} more"]
    return texts


def broken(points: Points) -> tuple[Array, Array]:
    """A curve's seconds and values, with a break wherever a stretch ends."""
    cuts = np.flatnonzero(np.diff(points.stretch)) + 1
    return np.insert(points.time / SECOND, cuts, np.nan), np.insert(points.value, cuts, np.nan)


def _draw_group(axes: Axes, curves: dict[str, Points]) -> None:
    """Draws the curves of one axis."""
    own = {name: points for name, points in curves.items() if own_name(name) == name}
    for (name, points), colour in zip(own.items(), itertools.cycle(TOGETHER_COLOURS)):
        _draw(axes, name, points, colour)
    for name, points in curves.items():
        if name not in own:
            _draw(axes, name, points, PART_COLOUR if name.endswith(PART) else VIOLET)
    names = {own_name(name) for name in curves}
    if len(curves) > 1:
        lines = [line for line in axes.get_lines() if line.get_label() in curves]
        axes.legend(handles=lines, fontsize=7, loc="upper right" if len(names) == len(curves) else "upper left", framealpha=0.6)
    axes.tick_params(labelsize=7)
    axes.grid(True, linewidth=0.3, alpha=0.6)
    axes.margins(y=0.1)


def _draw(axes: Axes, name: str, points: Points, colour: str) -> None:
    """Draws a curve; a point without others beside it is a dot."""
    seconds, values = broken(points)
    style = "steps-post" if is_discrete(points) else "default"
    axes.plot(seconds, values, color=colour, linewidth=0.8, drawstyle=style, label=name)
    changes = np.diff(points.stretch) != 0
    alone = np.append(changes, True) & np.append(True, changes)
    if alone.any():
        axes.plot(points.time[alone] / SECOND, points.value[alone], ".", color=colour, markersize=2)


def bars(points: Points) -> tuple[list[tuple[float, float]], list[tuple[float, float]]]:
    """Where a discrete was sampled, and where it was 1: the beginning of each bar and its length, in seconds."""
    ends = np.append(np.diff(points.stretch) != 0, True)
    change = ends | np.append(np.diff(points.value) != 0, True)
    until = np.where(ends, points.time, np.append(points.time[1:], points.time[-1:]))
    last = np.flatnonzero(change)
    first = np.insert(last + 1, 0, 0)[: len(last)]
    pieces = np.stack((points.time[first], until[last] - points.time[first]), axis=1) / SECOND
    is_one = points.value[first] == 1
    last = np.flatnonzero(ends)
    first = np.insert(last + 1, 0, 0)[: len(last)]
    whole = np.stack((points.time[first], points.time[last] - points.time[first]), axis=1) / SECOND
    return _pairs(whole), _pairs(pieces[is_one])


def _pairs(numbers: Array) -> list[tuple[float, float]]:
    return [(float(begin), float(length)) for begin, length in numbers]


def _draw_band(axes: Axes, name: str, points: Points) -> None:
    """Draws a discrete as a thin band: light where it is 0, dark where it is 1."""
    whole, ones = bars(points)
    axes.broken_barh(whole, (0, 1), facecolors=BAND_COLOUR, edgecolors=BAND_COLOUR, linewidth=0.6, label=name)
    axes.broken_barh(ones, (0, 1), facecolors=CURVE_COLOUR, edgecolors=CURVE_COLOUR, linewidth=0.6, label=f"{name} is 1")
    _as_band(axes)


def _as_band(axes: Axes) -> None:
    axes.set_ylim(0, 1)
    axes.set_yticks([])
    axes.tick_params(labelsize=7)


def _name(axes: Axes, group: list[str], flight: Flight, is_band: bool) -> None:
    """Names the curves of an axis, with their units, and their titles within."""
    of = list(dict.fromkeys(label_of(flight, own_name(name)) for name in group))
    label = "\n".join(of) if is_band or len(of) != 1 else of[0].replace(" [", "\n[").replace(" (", "\n(")
    axes.set_ylabel(label, rotation=0, ha="right", va="center", fontsize=9 if len(label) <= SHORT or not is_band else 7, parse_math=False)
    titles = list(dict.fromkeys(title for name in group if (title := flight.of(name).title)))
    if titles and not is_band:
        axes.text(0.004, 0.96, "; ".join(titles), transform=axes.transAxes, fontsize=7, color=GREY, va="top", label="title", parse_math=False)


def runs(points: Points) -> tuple[Array, Array, Array]:
    """The runs of one value: where each begins, how long it is until the next one or the last sample of its stretch, in seconds, and
    its value."""
    ends = np.append(np.diff(points.stretch) != 0, True)
    change = ends | np.append(np.diff(points.value) != 0, True)
    until = np.where(ends, points.time, np.append(points.time[1:], points.time[-1:]))
    last = np.flatnonzero(change)
    first = np.insert(last + 1, 0, 0)[: len(last)]
    return points.time[first] / SECOND, (until[last] - points.time[first]) / SECOND, points.value[first]


def _draw_states(axes: Axes, name: str, flight: Flight) -> None:
    """Draws a band in which each state has its colour, with its word where it has room, or in a legend."""
    words = states_of(flight, name)
    begin, length, value = runs(flight.curves[name])
    unsaid = []
    for state, colour in zip(words, itertools.cycle(STATE_COLOURS)):
        its = np.flatnonzero(value == state)
        is_said = _draw_state(axes, begin[its], length[its], colour, words[state], flight.end / SECOND)
        unsaid += [] if is_said or not len(its) else [axes.collections[-1]]
    if unsaid:
        legend = axes.legend(handles=unsaid, fontsize=6, loc="center right", ncol=len(unsaid), framealpha=0.85, handlelength=0.7, borderpad=0.2)
        for text in legend.get_texts():
            text.set_parse_math(False)
    others = np.flatnonzero(~np.isin(value, list(words)))
    if len(others):
        _draw_state(axes, begin[others], length[others], NO_WORD, "", flight.end / SECOND)
    _as_band(axes)


def _draw_state(axes: Axes, begin: Array, length: Array, colour: str, word: str, end: float) -> bool:
    """Draws the bars of a state, and answers whether its word stands in one of them."""
    bars_of = _pairs(np.stack((begin, length), axis=1))
    axes.broken_barh(bars_of, (0, 1), facecolors=colour, edgecolors=colour, linewidth=0.6, label=word or "no word")
    wide = [(first, size) for first, size in bars_of if word and size > end * SIGN * (len(word) + 2)]
    for first, size in wide:
        ink = "white" if colour == CURVE_COLOUR else "black"
        axes.text(first + size / 2, 0.5, word, ha="center", va="center", fontsize=7, color=ink, parse_math=False)
    return bool(wide)


def _shade(axes: Axes, flight: Flight) -> None:
    """Shades gaps and the room before recordings."""
    for span in seen(flight.spans, flight.end * NARROWEST):
        hatch = None if span.known else "///"
        axes.axvspan(
            span.begin / SECOND,
            span.end / SECOND,
            color=COLOURS[span.event],
            alpha=0.22,
            hatch=hatch,
            linewidth=0,
            label=span.event.value,
        )


def _mark(all_axes: list[Axes], groups: list[list[str]], events: list[Happening], flight: Flight) -> None:
    """Numbers what is in the list, above the curves. Where an exceedance began there is a line behind the curves that were
    sampled there, dashed where it may have been elsewhere, so that it covers nothing."""
    newest, level = -np.inf, 0
    for one in events:
        place = one.place / SECOND
        level = (level + 1) % LEVELS if one.place - newest < flight.end * CLOSE else 0
        newest = one.place
        colour = COLOURS.get(one.event, EXCEED_COLOUR)
        text = f"{one.number}" if one.certain else f"{one.number}?"
        head = all_axes[0]
        head.annotate(
            text, (place, 1.0), (0, 3 + 7 * level), xycoords=head.get_xaxis_transform(), textcoords="offset points",
            ha="center", fontsize=7, color=colour,
        )  # fmt: skip
        if one.event is Event.EXCEED:
            style = "-" if one.certain else "--"
            for axes, group in zip(all_axes, groups):
                if not one.parameters or set(group) & set(one.parameters):
                    axes.axvline(
                        place, color=EXCEED_COLOUR, linewidth=1.0, linestyle=style, label="exceed", zorder=0.5, alpha=0.7
                    )


def _time_axis(axes: Axes, flight: Flight) -> None:
    """The axis of time: each recording has its own, from its first time on."""
    axes.set_xlim(0, max(flight.end, SECOND) / SECOND)
    wanted = flight.end / SECOND / TICKS
    step = next((step for step in STEPS if step >= wanted), STEPS[-1] * int(wanted // STEPS[-1] + 1))
    ticks = time_ticks(flight, wanted, step)
    axes.xaxis.set_major_locator(FixedLocator([place for place, _ in ticks]))
    labels = {place: _with_utc(flight, place, text) for place, text in ticks}
    axes.xaxis.set_major_formatter(FuncFormatter(lambda place, _: labels.get(place, "")))
    several = " of each recording" if len(flight.recordings) > 1 else ""
    below = "" if flight.utc is None else "; below it the time of day, UTC"
    axes.set_xlabel(f"time{several}, h:mm:ss{below}{_date(flight)}", fontsize=8)


def _with_utc(flight: Flight, place: float, text: str) -> str:
    """The label of a tick, with the time of day below it where that is known."""
    utc = flight.utc_text(round(place * SECOND))
    return f"{text}\n{utc[-DAY_TIME:-MILLI]}" if utc else text


def _date(flight: Flight) -> str:
    """The date at the beginning, if it is known."""
    utc = flight.utc_text(0)
    return f", from {utc[:DATE]}" if len(utc) > DAY_TIME else ""


def time_ticks(flight: Flight, wanted: float, step: int) -> list[tuple[float, str]]:
    """Places of the axis at whole steps of each recording's own time, with their labels; where a recording's first one is
    too close to those before, they are left out."""
    ticks: list[tuple[float, str]] = []
    for recording in flight.recordings:
        shift = (recording.put - recording.first) / SECOND
        while ticks and ticks[-1][0] > recording.put / SECOND - wanted / 2:
            ticks.pop()
        first = -(-recording.first // (step * SECOND))
        for multiple in range(first, recording.end // (step * SECOND) + 1):
            ticks.append((multiple * step + shift, clock_text(multiple * step)))
    return ticks
