"""A grid of a table as a page: one file, which opens without a network, to lay beside the document of the manufacturer."""

import html
import json
import pathlib

from .description import Described
from .grid import Cell, Grid, Item, Kind, header
from .occupancy import SUBFRAMES, WORD_BITS
from .parameters import SUPERFRAME, Table

HERE = pathlib.Path(__file__).parent
POLICY = "default-src 'none'; script-src 'unsafe-inline'; style-src 'unsafe-inline'"
PAGE = """\
<!doctype html>
<html lang="en">
<head>
<meta charset="utf-8">
<meta http-equiv="Content-Security-Policy" content="{policy}">
<meta name="viewport" content="width=device-width">
<title>{title}</title>
<style>{style}</style>
</head>
<body>
<header><h1>{title}</h1><p>{about}</p><input type="search" placeholder="find a parameter" aria-label="find a parameter"><p id="found"></p></header>
<main>
<nav>
{names}
</nav>
<table>
<thead><tr>{heads}</tr></thead>
<tbody>
{rows}
</tbody>
</table>
</main>
<script type="application/json" id="names">{data}</script>
<script>{script}</script>
</body>
</html>
"""


def page_of(table: Table, grid: Grid, described: dict[str, Described], title: str) -> str:
    """The page."""
    return PAGE.format(
        policy=POLICY,
        title=html.escape(title),
        style=(HERE / "grid.css").read_text(),
        about=html.escape(_about(table, grid)),
        names="\n".join(_name(name, described.get(name, Described())) for name in table.parameters),
        heads="".join(f"<th>{one}</th>" for one in header(grid.have_frames)),
        rows="\n".join(_row(line.words, line.frames_text if grid.have_frames else None, line.cells) for line in grid.joined()),
        data=json.dumps(list(table.parameters)).replace("<", "\\u003c"),
        script=(HERE / "grid.js").read_text(),
    )


def _about(table: Table, grid: Grid) -> str:
    whole = SUPERFRAME * SUBFRAMES * table.words * WORD_BITS
    parameters = f"{len(table.parameters)} parameter{'s' * (len(table.parameters) != 1)}"
    counter = f"the frame counter in word {table.counter_word} of subframe {table.counter_subframe}"
    frames = "; the counter is a multiple of 16 in frame 1" if grid.have_frames else ""
    return f"{table.words} words a subframe, {counter}{frames}; {parameters}; {100 * grid.free / whole:.1f} % of the bits are free"


def _name(name: str, described: Described) -> str:
    """A parameter in the list beside the grid."""
    more = " ".join(part for part in (described.title, f"[{described.unit}]" if described.unit else "") if part)
    states = "; ".join(f"{value} {word}" for value, word in described.states.items())
    title = f' title="{html.escape(states)}"' if states else ""
    return f'<button data-name="{name}"{title}><b>{name}</b> {html.escape(more)}</button>'


def _row(words: str, frames: str | None, cells: tuple[Cell, ...]) -> str:
    heads = f"<th>{words}</th>" + ("" if frames is None else f"<th>{frames}</th>")
    return f"<tr>{heads}{''.join(_cell(cell) for cell in cells)}</tr>"


def _cell(cell: Cell) -> str:
    """What a word holds: its twelve bits as a band, the highest to the left, and below it what each of them is."""
    band = "".join(f'<i{_marks(item)} style="flex-grow:{item.high - item.low + 1}"></i>' for item in cell)
    texts = "".join(f"<p{_marks(item)}><span>{item.bits}</span> {item.what}</p>" for item in cell)
    return f'<td><div class="band">{band}</div>{texts}</td>'


def _marks(item: Item) -> str:
    """The class of an item, and its parameter."""
    name = f' data-name="{item.name}"' if item.kind is Kind.PARAMETER else ""
    return f' class="{item.kind.value}"{name}'
