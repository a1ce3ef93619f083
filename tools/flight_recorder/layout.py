"""A table of a sheet of a frame layout. All faults of the sheet are said at once, by line, column and name."""

import re
from dataclasses import dataclass, field

from . import cells
from .description import Described
from .faults import Fault
from .meaning import OF_SOURCES, Source, Values, scale_in, source_in, states_in
from .occupancy import SUBFRAMES
from .parameters import WORDS
from .placing import FrameShape, Parts, Placed, check_bits, parts_of, placed_of
from .scale import Scale
from .sheet import Gathered, Row, Sheet

MOST_NAME = 16
MOST_PARAMETERS, MOST_PLACES, MOST_OCCURRENCES, MOST_BYTES = 2048, 8192, 262_144, 1_048_576
OF_PLACES = ("name", "part", "subframes", "word", "bits", "superframe", "note")


@dataclass
class Laid:
    """A parameter of a sheet."""

    name: str
    rows: list[Row]
    placed: list[Placed]
    sign: str = "U"
    parts: Parts = Parts(0, 0, 0)
    scale: Scale = Scale(1, 1, 0, 0)
    source: Source = Source()
    described: Described = field(default_factory=Described)


@dataclass
class Layout:
    """A table's rows with the row of the sheet that each is of, and what is said of each parameter."""

    rows: list[str]
    origins: list[Row | None]
    described: dict[str, Described]

    def text(self) -> str:
        """The table."""
        return "".join(f"{row}\n" for row in self.rows)

    def summary(self) -> str:
        """How much there is of it."""
        parameters = len(self.described)
        places = len(self.rows) - 1 - parameters
        return f"{parameters} parameter{'s' * (parameters != 1)} in {places} place{'s' * (places != 1)}"

    def fault_text(self, row: int, text: str) -> str:
        """A fault of one of the table's rows in the words of the sheet: rows are lines there."""

        def line(number: int) -> str:
            origin = self.origins[number] if number < len(self.origins) else None
            return f"sheet line {origin.line}, {origin.name}" if origin else "sheet"

        text = re.sub(r"row (\d+)", lambda found: line(int(found.group(1))), text)
        return f"{line(row)}: fdr check says: {text}"


def layout_of(sheet: Sheet, faults: Gathered) -> Layout:
    """The table of a sheet, or all its faults, with those that were gathered before."""
    shape = _shape(sheet, faults)
    by_name: dict[str, list[Row]] = {}
    for row in sheet.rows:
        if not row.name:
            faults.complain(row, "name", "a row without a name")
        else:
            by_name.setdefault(row.name, []).append(row)
    has_sources = any(row.text(column) for row in sheet.rows for column in OF_SOURCES)
    laid = [_laid(rows, shape, has_sources, sheet.has_commas, faults) for rows in by_name.values()]
    if not sheet.rows:
        faults.add(1, "", "", "the sheet has no parameter")
    if shape is not None:
        check_bits([placed for one in laid for placed in one.placed], shape, faults)
    _check_counts(laid, faults)
    faults.raise_any()
    if shape is None:
        raise Fault("the sheet doesn't say its words and its counter")
    answer = _layout(shape, laid)
    if len(answer.text()) > MOST_BYTES:
        raise Fault(f"the sheet makes a table of {len(answer.text())} bytes, and {MOST_BYTES} are read: split it")
    return answer


def _shape(sheet: Sheet, faults: Gathered) -> FrameShape | None:
    """What the rows above the header say."""
    words = _setting(sheet, "words", [max(WORDS)], faults)
    counter = _setting(sheet, "counter", [max(WORDS), SUBFRAMES], faults)
    begin = _setting(sheet, "superframe", [15], faults, 0) if "superframe" in sheet.settings else [0]
    if words and words[0] not in WORDS:
        faults.add(sheet.settings["words"][0], "", "words", f"{words[0]} isn't one of {', '.join(map(str, WORDS))}")
        words = None
    if counter and counter[0] == 1:
        faults.add(sheet.settings["counter"][0], "", "counter", "word 1 has the sync word")
    elif words and counter and counter[0] > words[0]:
        faults.add(sheet.settings["counter"][0], "", "counter", f"word {counter[0]}, and a subframe has {words[0]}")
    elif words and counter and begin:
        return FrameShape(words[0], counter[0], counter[1], begin[0])
    return None


def _setting(sheet: Sheet, name: str, most: list[int], faults: Gathered, least: int = 1) -> list[int] | None:
    """The numbers of a row above the header; None after a fault."""
    if name not in sheet.settings:
        form = {"words": "words,256", "counter": "counter,256,4"}[name]
        faults.add(1, "", name, f"a row above the names of the columns is missing, as {form}")
        return None
    line, texts = sheet.settings[name]
    try:
        return [cells.whole_of(text, least, limit) for text, limit in zip(texts, most)] or None
    except ValueError as error:
        faults.add(line, "", name, str(error))
        return None


def _laid(rows: list[Row], shape: FrameShape | None, has_sources: bool, has_commas: bool, faults: Gathered) -> Laid:
    """A parameter by its rows."""
    _check_name(rows[0], faults)
    found = [placed_of(row, len(rows) > 1, shape, faults) for row in rows]
    laid = Laid(rows[0].name, rows, [one for one in found if one is not None])
    shared = _shared(rows, faults)
    laid.sign = faults.cell(shared, "signed", cells.sign_of) or "U"
    parts = parts_of(laid.placed, shape, faults) if len(laid.placed) == len(rows) else None
    if parts and laid.sign == "V" and parts.width != 1:
        faults.complain(shared, "signed", f"what tells whether a word is fresh has 1 bit, and not {parts.width}")
    laid.parts = parts or laid.parts
    values = Values(laid.sign, laid.parts.width, has_commas)  # without parts what depends on the width isn't said
    scale = scale_in(shared, values, faults)
    laid.scale = scale or laid.scale
    if has_sources:
        laid.source = source_in(shared, values, faults)
    laid.described = Described(shared.text("unit"), shared.text("title"), states_in(shared, values, scale, faults))
    return laid


def _check_name(row: Row, faults: Gathered) -> None:
    if not re.fullmatch(r"[A-Za-z0-9_.-]{1,16}", row.name):
        near = re.sub(r"[^A-Za-z0-9_.-]+", "_", row.name).strip("_")[:MOST_NAME]
        hint = f": {near} would do" if near else ""
        faults.complain(row, "name", f"a name has 1 to 16 letters from A to Z or a to z, digits, points, _ and -{hint}")


def _shared(rows: list[Row], faults: Gathered) -> Row:
    """What the rows of a parameter say of it together: each cell once, or the same again."""
    shared = Row(rows[0].line, {"name": rows[0].name})
    first: dict[str, Row] = {}
    for row in rows:
        for column, text in row.cells.items():
            if column in OF_PLACES:
                continue
            if column in first and shared.cells[column] != text:
                faults.complain(row, column, f"{text!r}, and line {first[column].line} has {shared.cells[column]!r}")
            else:
                first.setdefault(column, row)
                shared.cells[column] = text
    return shared


def _check_counts(laid: list[Laid], faults: Gathered) -> None:
    """A table has no more than can be read."""
    places = sum(len(one.runs) * len(one.recurrences) for each in laid for one in each.placed)
    parts = sum(each.parts.rate * each.parts.count for each in laid)
    for count, most, what in (
        (len(laid), MOST_PARAMETERS, "parameters"),
        (places, MOST_PLACES, "places"),
        (parts, MOST_OCCURRENCES, "places of all words of a superframe"),
    ):
        if count > most:
            last = max(row.line for one in laid for row in one.rows)
            faults.add(last, "", "", f"up to here the sheet has {count} {what}, and {most} can be: split it")


def _layout(shape: FrameShape, laid: list[Laid]) -> Layout:
    """The rows of a table."""
    answer = Layout([f"F,{shape.words},{shape.counter_word},{shape.counter_subframe}"], [None], {})
    for one in laid:
        source, scale = one.source, one.scale
        fields = [one.name, source.bus, f"{source.label:o}", source.sdi, source.lsb, one.parts.width, one.sign, scale.num]
        fields += [scale.den, scale.offset, scale.decimals, one.parts.rate, *([source.age] if source.age else [])]
        answer.rows.append(",".join(map(str, ["P", *fields])))
        answer.origins.append(one.rows[0])
        for placed in sorted(one.placed, key=lambda each: each.part):
            for recurrence in placed.recurrences:
                for run in placed.runs:
                    where = ["".join(map(str, placed.subframes)), run.word, run.step, placed.bits.lsb, placed.bits.width]
                    row = ["L", one.name, placed.part, *where, recurrence.cycle, recurrence.period]
                    answer.rows.append(",".join(map(str, row)))
                    answer.origins.append(placed.row)
        answer.described[one.name] = one.described
    return answer
