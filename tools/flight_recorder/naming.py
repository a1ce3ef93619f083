"""How a flight's times, spans and curves are named and told apart, in pictures and in pages."""

import re
from dataclasses import dataclass

import numpy as np

from .clock import SECOND, Event
from .curves import Exceeding, Flight, Points, Span

OTHERS = ", and others"


def is_discrete(points: Points) -> bool:
    """Whether a curve has the values 0 and 1 alone, and so goes in steps."""
    return bool(np.isin(points.value, (0, 1)).all())


def states_of(flight: Flight, name: str) -> dict[float, str]:
    """The words for the values of a curve, where each of its values has one or is drawn as one without."""
    return {float(value): word for value, word in flight.of(name).states.items()}


def label_of(flight: Flight, name: str) -> str:
    """A curve's name with its unit."""
    unit = flight.of(name).unit
    return f"{name} [{unit}]" if unit else name


@dataclass(frozen=True)
class Shade:
    """One span or several that are seen as one: from one tick to another, a short name, and what there is to say."""

    event: Event
    begin: int
    end: int
    known: bool
    name: str
    text: str


def seen(spans: list[Span], narrowest: float) -> list[Shade]:
    """Spans, made wide enough to be seen; those of one kind that then touch are one, but for events, of which each counts."""
    answer: list[Shade] = []
    last: dict[Event, int] = {}
    for span in sorted(spans, key=lambda one: one.begin):
        end = max(span.end, span.begin + int(narrowest))
        at = last.get(span.event)
        if at is not None and span.begin < answer[at].end and span.event is not Event.EVENT:
            whole = answer[at]
            text = whole.text if whole.text.endswith(OTHERS) else whole.text + OTHERS
            name = f"{span.event.value}s"
            answer[at] = Shade(span.event, whole.begin, max(whole.end, end), whole.known and span.known, name, text)
        else:
            last[span.event] = len(answer)
            answer.append(Shade(span.event, span.begin, end, span.known, span_name(span), span.text))
    return answer


def span_name(span: Span) -> str:
    """A short name of a span."""
    if span.event is Event.SESSION:
        return span.text.split(" from ")[0]
    if span.event in (Event.BACK, Event.WRAP):
        return re.split("[,:]", span.text)[0]
    if span.event is Event.DOUBTFUL:
        return f"({span.event.value})"
    if span.event in (Event.CLOCK, Event.EVENT):
        return span.event.value
    if span.event in (Event.RUN, Event.HOLE):
        return span.text.split(": ")[-1]
    if not span.known:
        return f"{span.event.value}, unknown length"
    return f"gap {(span.end - span.begin) / SECOND:.3g} s"


def clock_text(seconds: float) -> str:
    """A time of a recording, as hours, minutes and seconds."""
    whole = int(seconds)
    text = f"{whole // 3600}:{whole // 60 % 60:02d}:{whole % 60:02d}"
    return text if abs(seconds - whole) < 1e-6 else text + f"{seconds - whole:.3f}"[1:].rstrip("0")


@dataclass(frozen=True)
class Happening:
    """What is numbered in a picture and in the list below it: where it begins on the axis, and what there is to say."""

    number: int
    place: int
    event: Event
    certain: bool
    text: str
    parameters: tuple[str, ...] = ()


def happenings(flight: Flight, narrowest: float) -> list[Happening]:
    """What is between samples, and the exceedances, in the order of the axis. An exceedance that may stand at several places has
    one number, and is there several times."""
    shades = [(shade.begin, shade.event, True, _shade_text(shade), ()) for shade in seen(flight.spans, narrowest)]
    exceeds = [
        (place, Event.EXCEED, len(one.times) == 1, _exceeding_text(one), one.parameters)
        for one in flight.exceedings
        for place in one.times
    ]
    numbers: dict[tuple[Event, str], int] = {}
    answer = []
    for place, event, certain, text, parameters in sorted([*shades, *exceeds], key=lambda each: each[0]):
        number = len(numbers) + 1
        if not certain:
            number = numbers.setdefault((event, text), number)
        else:
            numbers[(event, f"{number} {text}")] = number
        answer.append(Happening(number, place, event, certain, text, parameters))
    return answer


def _shade_text(shade: Shade) -> str:
    return shade.text if shade.text.startswith(shade.name) else f"{shade.name}: {shade.text}"


def _exceeding_text(one: Exceeding) -> str:
    exceedance = one.exceedance
    where = f" of {' or '.join(one.parameters)}" if one.parameters else ""
    sure = "" if len(one.times) == 1 else f", at one of {len(one.times)} places"
    doubt = " (doubtful)" if one.doubtful else ""
    return f"{exceedance.name}{where}{doubt}: {exceedance.length} samples, peak {exceedance.peak}{sure}"


def own_clock(flight: Flight, place: int) -> str:
    """A place of the axis as the time of its recording."""
    if not flight.recordings:
        return clock_text(place / SECOND)
    number, time = flight.place_of(place)
    text = clock_text(max(0, round(time / SECOND, 3)))
    utc = flight.utc_text(place)
    text = f"{text} ({utc})" if utc else text
    return text if len(flight.recordings) == 1 else f"recording {number + 1}, {text}"
