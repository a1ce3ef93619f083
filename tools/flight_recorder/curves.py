"""A listing as curves, in bounded memory: points are thinned so that each stretch of time keeps its extremes.

Recordings are put one after another on one axis of time, in ticks, with some room before each.
"""

from dataclasses import dataclass, field
from typing import Mapping

import numpy as np

from .arrays import Array
from .clock import FRAME, SECOND, Between, Event, Timed
from .description import SCALED, Described, Description
from .exceedings import Finder
from .listing import Exceedance, Names
from .told import DERIVED
from .utc import Utc

LEAST = 256  # points of a curve that are kept in any case
ROOMS = 50  # the room between recordings is this part of the axis,
MOST_ROOM = 5  # and all rooms together are this part at the most
FULL_CIRCLE = 360
ANGLES = ((0, FULL_CIRCLE), (-FULL_CIRCLE // 2, FULL_CIRCLE // 2))  # what angles in degrees are between
MOST_OF_CIRCLE = 300  # degrees that values spread over, for them to be taken for an angle's
PART, DOUBTFUL = " (part)", " (doubtful)"  # after the name of a curve of what was read out of gaps, or is doubtful
MOST_DECIMALS = 6  # that are shown of what was worked out
CUT = 4  # points that a stretch of time is thinned to, at the most: the first, the least, the greatest and the last


@dataclass
class Points:
    """Points of a curve: when each was sampled, its value, and the stretch that it is of."""

    time: Array
    value: Array
    stretch: Array

    def __len__(self) -> int:
        return len(self.time)

    def only(self, which: Array) -> "Points":
        """Some of them."""
        return Points(self.time[which], self.value[which], self.stretch[which])


def thinned(points: Points, width: int) -> Points:
    """Of each stretch of time of so many ticks, counted from 0, the first, the least, the greatest and the last point. What was
    thinned by the same width stays as it is, and what was by half of it becomes the same."""
    if not len(points):
        return points
    span = points.time // width
    first = np.flatnonzero(np.diff(span, prepend=span[0] - 1))
    last = np.append(first[1:], len(span)) - 1
    by_value = np.lexsort((points.value, span))
    return points.only(np.unique(np.concatenate((first, last, by_value[first], by_value[last]))))


def circle_of(points: Points) -> int | None:
    """The full circle of values that are an angle's in degrees, as far as they show it."""
    if not len(points):
        return None
    least, greatest = float(points.value.min()), float(points.value.max())
    if greatest - least <= MOST_OF_CIRCLE:
        return None
    return FULL_CIRCLE if any(low <= least and greatest <= high for low, high in ANGLES) else None


def broken_at_wraps(points: Points, circle: float) -> Points:
    """A curve of angles, broken where it goes over the full circle: each part is as a stretch of its own."""
    wraps = np.abs(np.diff(points.value, prepend=points.value[:1])) > circle / 2
    breaks = np.insert(np.diff(points.stretch) != 0, 0, False) if len(points) else wraps
    return Points(points.time, points.value, np.cumsum(wraps | breaks))


def _decimals(values: Array) -> int:
    """How many decimals show values that were worked out."""
    return next((count for count in range(MOST_DECIMALS) if np.allclose(np.round(values, count), values, rtol=0, atol=1e-9)), MOST_DECIMALS)


def own_name(name: str) -> str:
    """The parameter of a curve."""
    return name.removesuffix(PART).removesuffix(DOUBTFUL)


class Curve:
    """A parameter's points, thinned as they come."""

    def __init__(self) -> None:
        self.parts: list[Points] = []
        self.held = 0  # points in the parts
        self.count = 0  # points that came
        self.width = 0  # ticks that it is thinned by
        self.decimals = 0
        self.lacking: list[Array] = []  # times from which on there is no value, where samples have some and some have none

    def add(self, points: Points, decimals: int) -> None:
        """Takes points, which are later than those before."""
        self.parts.append(points)
        self.held += len(points)
        self.count += len(points)
        self.decimals = max(self.decimals, decimals)

    def lack(self, time: Array, there: Array) -> None:
        """Takes which samples have a value."""
        begins = ~there & np.insert(there[:-1], 0, True) if len(there) else there
        self.lacking.append(time[begins])

    def broken(self, points: Points) -> Points:
        """Points, broken where samples have no value: each part is as a stretch of its own."""
        if not any(len(part) for part in self.lacking):
            return points
        before = np.searchsorted(np.concatenate(self.lacking), points.time)
        breaks = (np.diff(before, prepend=before[:1]) != 0) | (np.diff(points.stretch, prepend=points.stretch[:1]) != 0)
        return Points(points.time, points.value, np.cumsum(breaks))

    def points(self, most: int) -> Points:
        """Its points, thinned to at most so many, which alone are held then. All are thinned alike, whenever they came."""
        columns = zip(*((part.time, part.value, part.stretch) for part in self.parts))
        whole = Points(*(np.concatenate(column) for column in columns))
        whole = thinned(whole, self.width) if self.width else whole
        while len(whole) > most:
            spread = (int(whole.time[-1]) - int(whole.time[0])) * CUT // most
            self.width = max(2 * self.width, 1 << max(0, spread.bit_length() - 2))
            whole = thinned(whole, self.width)
        self.parts, self.held = [whole], len(whole)
        return whole


def share(counts: list[int], total: int) -> int:
    """How many points each curve may have, so that all have about `total`: what curves with few leave, the others have."""
    left = total
    for done, count in enumerate(sorted(counts)):
        even = left // (len(counts) - done)
        if count > even:
            return max(LEAST, even)
        left -= count
    return max(LEAST, total)


@dataclass(frozen=True)
class Span:
    """Something on the axis of time that isn't a sample: from one tick to another, or at one."""

    event: Event
    begin: int
    end: int
    known: bool
    text: str


@dataclass(frozen=True)
class Exceeding:
    """An exceedance on the axis: where it may have begun, and the parameters that were sampled there."""

    exceedance: Exceedance
    times: tuple[int, ...]
    parameters: tuple[str, ...]
    doubtful: bool = False


@dataclass
class Recording:
    """A recording: its first time and where its newest frame ends, by its own time, and where its first time is put."""

    first: int
    end: int
    put: int

    @property
    def put_end(self) -> int:
        """Where its end is put."""
        return self.put + self.end - self.first


@dataclass
class Flight:
    """All that is drawn of a listing, with times on one axis."""

    curves: dict[str, Points]
    decimals: dict[str, int]
    counts: dict[str, int]
    spans: list[Span]
    exceedings: list[Exceeding]
    recordings: list[Recording]
    together: list[list[str]] = field(default_factory=list)
    described: dict[str, Described] = field(default_factory=dict)
    utc: Utc | None = None

    def of(self, name: str) -> Described:
        """What is said of a curve."""
        return self.described.get(name, Described())

    def place_of(self, place: int) -> tuple[int, int]:
        """The recording, counted from 0, that a place of the axis is of, and the time of it there."""
        number = max((at for at, one in enumerate(self.recordings) if one.put <= place), default=0)
        one = self.recordings[number]
        return number, place - one.put + one.first

    def utc_text(self, place: int) -> str:
        """The time of day at a place of the axis, or nothing."""
        return self.utc.text(*self.place_of(place)) if self.utc and self.recordings else ""

    def groups(self) -> list[list[str]]:
        """The names of the curves of each axis: those that are together, at the place of the first of them, and the others."""
        of = {name: names for names in self.together for name in names}
        groups: list[list[str]] = []
        for name in self.curves:
            group = of.get(name, [name])
            if group not in groups:
                groups.append(group)
        return groups

    def put_together(self, wanted: list[list[str]]) -> None:
        """Puts curves on one axis, each with that of its parts."""
        beside = {own_name(names[0]): names for names in self.together}
        groups = [[each for name in names for each in beside.pop(name, [name])] for names in wanted]
        self.together = groups + list(beside.values())

    @property
    def end(self) -> int:
        """Where the axis ends."""
        last = [recording.put_end for recording in self.recordings] + [span.end for span in self.spans]
        return max(last, default=0)


class Collector:
    """Collects what is drawn, piece by piece."""

    def __init__(
        self,
        names: Names,
        only: set[str] | None,
        total: int,
        exceedances: list[Exceedance],
        circles: Mapping[str, float] | None = None,
        description: Description | None = None,
    ) -> None:
        self.names = names
        self.description = description or Description()
        self.circles = circles or {}
        self.only = only
        self.total = total
        self.curves: dict[tuple[int, str], Curve] = {}  # by the parameter's number, or one after these, and the curve's name
        self.recordings: list[Recording] = []
        self.recording_of = [0]  # by stretch
        self.between: list[Between] = []
        self.leading: dict[int, int] = {}  # where gaps before a recording's first row begin
        self.apart: dict[str, Curve] = {}  # what was read out of gaps, and doubtful samples; a point's stretch is its recording
        self.finder = Finder(exceedances)

    def add(self, timed: Timed) -> None:
        """Takes a piece."""
        self.between += timed.between
        for one in timed.between:
            if one.event is Event.GAP and one.begin is not None:
                self.leading.setdefault(one.recording, one.begin)
        if not len(timed.time):
            return
        time = self._put(timed)
        self.finder.look(timed)
        order = np.argsort(timed.piece.name, kind="stable")
        for rows in np.split(order, np.flatnonzero(np.diff(timed.piece.name[order])) + 1):
            name = int(timed.piece.name[rows[0]])
            if self.only is None or self.names.names[name] in self.only:
                points = Points(time[rows], timed.piece.value[rows], timed.stretch[rows])
                curve = self.curves.setdefault((name, self.names.names[name]), Curve())
                curve.add(points, int(timed.piece.decimals[rows].max()))
                self._take_doubtful(timed, rows, time)
                self._take_scaled(name, points)
        self._take_derived(timed, time)
        self._thin()

    def _take_scaled(self, number: int, points: Points) -> None:
        """Takes what points are by a scale of points, if the parameter has one."""
        scale = self.description.of(self.names.names[number]).points
        if scale is not None:
            values = scale.of(points.value)
            worked = Points(points.time, values, points.stretch)
            self._take_worked((number, self.names.names[number] + SCALED), worked, np.isfinite(values))

    def _take_derived(self, timed: Timed, time: Array) -> None:
        """Takes the derived values of a piece."""
        for number, name in enumerate(self.description.derived):
            if timed.worked is not None and (self.only is None or name in self.only):
                rows, values = timed.worked[number].rows, timed.worked[number].values[0]
                worked = Points(time[rows], values.numbers.astype(np.float64), timed.stretch[rows])
                self._take_worked((len(self.names) + number, name + DERIVED), worked, values.there)

    def _take_worked(self, key: tuple[int, str], points: Points, there: Array) -> None:
        """Takes points that were worked out, as far as they have values."""
        curve = self.curves.setdefault(key, Curve())
        curve.lack(points.time, there)
        has = np.flatnonzero(there)
        if len(has):
            curve.add(points.only(has), _decimals(points.value[has]))

    def _take_doubtful(self, timed: Timed, rows: Array, time: Array) -> None:
        """Takes the doubtful samples among these, of one parameter, once more."""
        if timed.doubtful is not None and timed.doubtful[rows].any():
            rows = rows[timed.doubtful[rows]]
            name = self.names.names[int(timed.piece.name[rows[0]])] + DOUBTFUL
            points = Points(time[rows], timed.piece.value[rows], timed.recording[rows].astype(np.int64))
            self.apart.setdefault(name, Curve()).add(points, int(timed.piece.decimals[rows].max()))

    def _thin(self) -> None:
        """Thins the curves with more than their share, where all have half as many points again as they may."""
        if sum(curve.held for curve in self.curves.values()) > self.total * 3 // 2:
            most = share([curve.held for curve in self.curves.values()], self.total)
            for curve in self.curves.values():
                if curve.held > most:
                    curve.points(most)

    def _put(self, timed: Timed) -> Array:
        """The places of a piece's rows on the axis, without the room between recordings."""
        cuts = np.flatnonzero(np.diff(timed.recording)) + 1
        put = np.empty(len(timed.time), dtype=np.int64)
        for rows in np.split(np.arange(len(timed.time)), cuts):
            number, own = int(timed.recording[rows[0]]), timed.time[rows]
            while len(self.recordings) <= number:
                after = self.recordings[-1].put_end if self.recordings else 0
                first = int(own[0]) // FRAME * FRAME
                first = min(first, self.leading.get(len(self.recordings), first))
                self.recordings.append(Recording(first, first, after))
            recording = self.recordings[number]
            recording.end = max(recording.end, (int(own.max()) // FRAME + 1) * FRAME)
            put[rows] = own - recording.first + recording.put
        new = np.flatnonzero(np.diff(timed.stretch, prepend=len(self.recording_of) - 1))
        for stretch, recording_number in zip(timed.stretch[new].tolist(), timed.recording[new].tolist()):
            self.recording_of += [recording_number] * (stretch + 1 - len(self.recording_of))  # those before may be cut away
        return put

    def end(self, between: list[Between]) -> Flight:
        """All of it."""
        self.between += between
        for one in self.between:
            self._take_parts(one)
        length = sum(recording.end - recording.first for recording in self.recordings)
        room = length // max(ROOMS, MOST_ROOM * len(self.recordings))
        for number, recording in enumerate(self.recordings):
            recording.put += number * room
        room_of = np.array(self.recording_of, dtype=np.int64) * room
        most = share([curve.held for curve in self.curves.values()], self.total)
        flight = Flight({}, {}, {}, self._spans(room), self._exceedings(), self.recordings)
        for number, name in sorted(key for key, curve in self.curves.items() if curve.parts):
            curve = self.curves[number, name]
            points = curve.points(most)
            room_before, points = room_of[points.stretch], curve.broken(points)
            points.time = points.time + room_before
            circle = self.circles.get(name, circle_of(points))
            points = broken_at_wraps(points, circle) if circle else points
            flight.curves[name], flight.decimals[name], flight.counts[name] = points, curve.decimals, curve.count
        for own in sorted(self.apart, reverse=True):  # parts first
            curve = self.apart[own]
            points = self._in_pieces(curve.points(most), room)
            flight.curves[own], flight.decimals[own], flight.counts[own] = points, curve.decimals, curve.count
        for name in flight.curves:
            own = own_name(name)
            flight.described[name] = self._described(own.removesuffix(DERIVED) if own.endswith(DERIVED) else own)
        beside = {name: [name + kind for kind in (PART, DOUBTFUL) if name + kind in self.apart] for name in self.names.names}
        flight.together = [[name] * (name in flight.curves) + own for name, own in beside.items() if own]
        return flight

    def _described(self, name: str) -> Described:
        """What is said of a curve by its name. A scale of points takes values to the unit, and states are of the values before."""
        one = self.description.of(name.removesuffix(SCALED))
        if name.endswith(SCALED):
            return Described(one.unit, one.title)
        return Described("", one.title, one.states) if one.points else one

    def _take_parts(self, one: Between) -> None:
        """Takes what was read out of a gap."""
        if one.placed is None:
            return
        parts = one.placed.parts
        rows: dict[str, list[tuple[int, int, str]]] = {}
        for number, recording, time in one.placed:
            if time >= 0 and (self.only is None or parts.name[number] in self.only):
                rows.setdefault(parts.name[number], []).append((recording, time, parts.value[number]))
        for name, each in rows.items():
            put = np.array([time + self._shift(recording, time) for recording, time, _ in each], dtype=np.int64)
            values = np.array([float(value) for _, _, value in each])
            recordings = np.array([recording for recording, _, _ in each], dtype=np.int64)
            decimals = max(len(value.partition(".")[2]) for _, _, value in each)
            self.apart.setdefault(name + PART, Curve()).add(Points(put, values, recordings), decimals)

    def _shift(self, number: int, time: int) -> int:
        """What makes a time of a recording a place on the axis, without the room between recordings."""
        while len(self.recordings) <= number:
            after = self.recordings[-1].put_end if self.recordings else 0
            first = time // FRAME * FRAME
            self.recordings.append(Recording(first, first, after))
        recording = self.recordings[number]
        if number == len(self.recordings) - 1:
            recording.end = max(recording.end, (time // SECOND + 1) * SECOND)
        return recording.put - recording.first

    def _in_pieces(self, points: Points, room: int) -> Points:
        """Points on the axis, in pieces of which none goes over a time without samples."""
        order = np.lexsort((points.time, points.stretch))
        time, recording = points.time[order], points.stretch[order]
        breaks = (np.diff(time, prepend=time[:1]) > FRAME) | (np.diff(recording, prepend=recording[:1]) != 0)
        return Points(time + recording * room, points.value[order], np.cumsum(breaks))

    def _spans(self, room: int) -> list[Span]:
        """What is between samples, on the axis; a new recording has the room before it."""
        spans = []
        for one in self.between:
            if one.event is Event.EXCEED or one.recording >= len(self.recordings):
                continue
            recording = self.recordings[one.recording]
            if one.event.begins_recording and (one.event is not Event.WRAP or one.begin == recording.first):
                begin = recording.put - (room if one.recording else 0)
                spans.append(Span(one.event, begin, recording.put, True, one.text))
            elif one.begin is not None:
                begin = one.begin - recording.first + recording.put
                end = begin if one.end is None else begin + one.end - one.begin
                spans.append(Span(one.event, begin, end, one.known, one.text))
        return spans

    def _exceedings(self) -> list[Exceeding]:
        """The exceedances of the file, and those of the listing itself."""
        found = [
            Exceeding(
                one.exceedance,
                tuple(self._on_axis(*begin) for begin in one.begins()),
                one.parameters(self.names),
                any(place.doubtful for place in one.places),
            )
            for one in self.finder.found()
        ]
        for one in self.between:
            if one.exceedance and one.begin is not None:
                found.append(Exceeding(one.exceedance, (self._on_axis(one.recording, one.begin),), ()))
        return found

    def _on_axis(self, recording: int, time: int) -> int:
        """The place of a time of a recording on the axis."""
        return time - self.recordings[recording].first + self.recordings[recording].put
