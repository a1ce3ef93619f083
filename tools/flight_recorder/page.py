"""A flight as a page: one file with its charts, its data and the library that draws them, which opens without a network."""

import base64
import html
import json
import pathlib
import re
import zlib
from typing import Any

import numpy as np

from .arrays import Array
from .clock import SECOND
from .curves import Flight, Points
from .faults import MissingPackage
from .naming import happenings, is_discrete, own_clock, seen, states_of

LIBRARY = pathlib.Path("/usr/share/javascript/dygraphs")  # where Debian puts it
HERE = pathlib.Path(__file__).parent
MOST_BITS = 31  # of a time in the page's data
NARROWEST = 1 / 50_000  # of the axis, for a span of its own
MOST_WHOLE = 1 << 30  # of values that are kept as whole numbers
POLICY = "default-src 'none'; script-src 'unsafe-inline'; style-src 'unsafe-inline'; img-src data:"
PAGE = """\
<!doctype html>
<html lang="en">
<head>
<meta charset="utf-8">
<meta http-equiv="Content-Security-Policy" content="{policy}">
<meta name="viewport" content="width=device-width">
<title>{title}</title>
<style>{style}</style>
</head>
<body>
{body}
</body>
</html>
"""
CHARTS = """\
<header><h1>{title}</h1><p id="help">Drag to zoom, shift-drag to move, double-click for the whole flight.</p><p id="where"></p></header>
<main><nav id="parameters"></nav><section><div id="charts"></div><ol id="events"></ol></section></main>
<script type="application/json" id="flight">{data}</script>
{curves}
<script>{library}</script>
<script>{script}</script>"""


def save(flight: Flight, path: pathlib.Path, title: str) -> None:
    """Writes the page."""
    path.write_text(page_of(flight, title), encoding="utf-8")


def page_of(flight: Flight, title: str = "") -> str:
    """The page."""
    name = title or "Flight"
    return PAGE.format(policy=POLICY, title=html.escape(name), style=style_of_charts(), body=charts_of(flight, name))


def style_of_charts() -> str:
    """The style of the charts."""
    return _library("dygraph.min.css") + (HERE / "page.css").read_text()


def charts_of(flight: Flight, title: str) -> str:
    """The charts with their data and their scripts, which stand once in a page."""
    return CHARTS.format(
        title=html.escape(title),
        data=json.dumps(data_of(flight), separators=(",", ":")).replace("<", "\\u003c"),
        curves="\n".join(_points_of(flight)),
        library=_library("dygraph.min.js"),
        script=(HERE / "page.js").read_text(),
    )


def _library(name: str) -> str:
    """A file of the library, without its note of where its source is."""
    try:
        text = (LIBRARY / name).read_text(encoding="utf-8")
    except FileNotFoundError:
        raise MissingPackage("libjs-dygraphs") from None
    return re.sub(r"(?m)^(//# sourceMappingURL=.*|/\*# sourceMappingURL=.*\*/)$", "", text)


def data_of(flight: Flight) -> dict[str, Any]:
    """What the page's script reads: times are whole numbers of ticks, of which a second has `second`."""
    shift = _shift(flight)
    return {
        "second": SECOND >> shift,
        "end": flight.end >> shift,
        "recordings": [[one.put >> shift, one.first >> shift] for one in flight.recordings],
        "utc": _utc(flight),
        "spans": [
            {
                "event": span.event.value,
                "begin": span.begin >> shift,
                "end": span.end >> shift,
                "known": span.known,
                "name": span.name,
                "text": span.text,
            }
            for span in seen(flight.spans, flight.end * NARROWEST)
        ],
        "events": [
            {
                "number": one.number,
                "place": one.place >> shift,
                "event": one.event.value,
                "certain": one.certain,
                "clock": own_clock(flight, one.place),
                "text": one.text,
                "parameters": list(one.parameters),
            }
            for one in happenings(flight, flight.end * NARROWEST)
        ],
        "groups": flight.groups(),
        "curves": [_curve(flight, name, points) for name, points in flight.curves.items()],
    }


def _utc(flight: Flight) -> dict[str, Any] | None:
    """The time of day: whether dates are known, and for each recording the seconds at its time 0 and how fast they go, or nothing."""
    if flight.utc is None:
        return None
    of = [flight.utc.fits.get(number) for number in range(len(flight.recordings))]
    return {"dates": flight.utc.has_dates, "fits": [None if one is None else [one.offset, 1 + one.rate] for one in of]}


def _shift(flight: Flight) -> int:
    """The bits that a time of the page lacks."""
    return max(0, flight.end.bit_length() - MOST_BITS)


def _curve(flight: Flight, name: str, points: Points) -> dict[str, Any]:
    """What the page knows of a curve before it is shown."""
    return {
        "name": name,
        "decimals": flight.decimals[name],
        "count": flight.counts[name],
        "kept": len(points),
        "steps": is_discrete(points),
        "isWhole": _whole(points, flight.decimals[name]) is not None,
        "unit": flight.of(name).unit,
        "title": flight.of(name).title,
        "states": [[value, word] for value, word in states_of(flight, name).items()],
    }


def _whole(points: Points, decimals: int) -> Array | None:
    """Values as whole numbers of their last decimal, where they are small enough."""
    scaled = np.rint(points.value * 10**decimals)
    return scaled.astype(np.int64) if len(points) and float(np.abs(scaled).max()) < MOST_WHOLE else None


def _points_of(flight: Flight) -> list[str]:
    """The points of each curve: its times, its values and where among them stretches begin. The page reads them once it shows the
    curve, so it opens as quickly with many."""
    texts = []
    for number, (name, points) in enumerate(flight.curves.items()):
        whole = _whole(points, flight.decimals[name])
        values = _packed(points.value, "<f8") if whole is None else _packed(_steps(whole), "<i4")
        cuts = np.flatnonzero(np.diff(points.stretch)) + 1
        parts = [_packed(_steps(points.time >> _shift(flight)), "<i4"), values, _packed(cuts, "<i4")]
        texts.append(f'<script type="text/plain" id="curve-{number}">{" ".join(parts)}</script>')
    return texts


def _steps(numbers: Array) -> Array:
    """Each number less the one before it."""
    return np.diff(numbers, prepend=0)


def _packed(numbers: Array, kind: str) -> str:
    """Numbers as text, by the bytes that they have in memory, made shorter."""
    return base64.b64encode(zlib.compress(numbers.astype(kind).tobytes(), 6)).decode()
