"""A sheet of a frame layout, as an editor or a spreadsheet writes it: its rows under their header, by line.

What is wrong is gathered, so that all faults of a sheet are said at once.
"""

import codecs
import csv
import difflib
import io
from dataclasses import dataclass, field
from typing import Callable, Iterator, TypeVar

from .faults import Fault, Faults

COLUMNS = {
    "name": ("name",),
    "part": ("part", "parts"),
    "subframes": ("subframes", "subframe"),
    "word": ("word", "words"),
    "bits": ("bits", "bit"),
    "superframe": ("superframe", "superframes"),
    "signed": ("signed", "sign"),
    "resolution": ("resolution",),
    "range": ("range",),
    "offset": ("offset",),
    "decimals": ("decimals",),
    "unit": ("unit", "units"),
    "title": ("title",),
    "states": ("states", "state"),
    "bus": ("bus",),
    "label": ("label",),
    "sdi": ("sdi",),
    "lsb": ("lsb",),
    "age": ("age",),
    "note": ("note", "notes", "comment", "comments", "remark", "remarks"),
}
NAMED = {spelling: column for column, spellings in COLUMNS.items() for spelling in spellings}
NEEDED = ("name", "subframes", "word", "bits")
SETTINGS = {"words": 1, "counter": 2, "superframe": 1}  # rows above the header, and how many fields follow the name
NOTE = "note"
SEPARATORS = (",", ";", "\t")
Said = TypeVar("Said")
ZIP = b"PK\x03\x04"  # what spreadsheets' own files begin with


@dataclass
class Gathered:
    """The faults of a sheet, to be said in the order of its lines and columns."""

    found: dict[tuple[int, int, str], None] = field(default_factory=dict)
    missing: set[str] = field(default_factory=set)  # columns, of whose cells nothing is said

    def add(self, line: int, name: str, column: str, text: str) -> None:
        """Takes a fault of a line, a parameter and a column, of which the last two may be empty."""
        place = ", ".join(part for part in (f"sheet line {line}", name, column) if part)
        order = list(COLUMNS).index(column) if column in COLUMNS else -1
        self.found[line, order, f"{place}: {text}"] = None

    def complain(self, row: "Row", column: str, text: str) -> None:
        """Takes a fault of a row and a column."""
        if column not in self.missing:
            self.add(row.line, row.name, column, text)

    def cell(self, row: "Row", column: str, said: Callable[[str], Said]) -> Said | None:
        """What a cell says; None after a fault."""
        try:
            return said(row.text(column))
        except (ValueError, Fault) as error:
            self.complain(row, column, str(error))
            return None

    def raise_any(self) -> None:
        """Says all faults, if there is one."""
        if self.found:
            raise Faults([text for _, _, text in sorted(self.found)])


@dataclass(frozen=True)
class Row:
    """A row of a sheet: the line where it begins, and what its cells have, by the names of their columns."""

    line: int
    cells: dict[str, str]

    @property
    def name(self) -> str:
        """The parameter that it is of."""
        return self.cells.get("name", "")

    def text(self, column: str) -> str:
        """What a cell has; nothing where the sheet has no such column."""
        return self.cells.get(column, "")


@dataclass
class Sheet:
    """The rows of a sheet, and what it says of all frames: for each setting its line and its fields. In a sheet with `;` between
    fields numbers may have a comma for their point, as a spreadsheet that writes the one writes the other."""

    rows: list[Row]
    settings: dict[str, tuple[int, list[str]]]
    has_commas: bool


def read_sheet(data: bytes, faults: Gathered) -> Sheet:
    """Reads a sheet. A Fault says that it can't be read at all; what is wrong with single cells is gathered."""
    text = _decoded(data)
    separator = _separator(text)
    sheet = Sheet([], {}, separator == ";")
    header: list[str] | None = None
    for line, fields in _fields(text, separator):
        if header is not None:
            sheet.rows.append(_row(line, fields, header, faults))
        elif "name" in (_column(one) for one in fields):
            header = _header(line, fields, faults)
        else:
            _add_setting(sheet, line, fields, faults)
    if header is None:
        raise Fault(f"the sheet has no row with the names of its columns, of which {', '.join(NEEDED)} are needed")
    return sheet


def _decoded(data: bytes) -> str:
    if data.startswith(ZIP):
        raise Fault("the sheet is a spreadsheet's own file: save it as CSV")
    is_wide = data.startswith((codecs.BOM_UTF16_LE, codecs.BOM_UTF16_BE))
    try:
        return data.decode("utf-16" if is_wide else "utf-8-sig")
    except UnicodeDecodeError as error:
        if is_wide:
            raise Fault("the sheet isn't whole: it ends amid a letter of UTF-16") from None
        line = len(data[: error.start].splitlines()) or 1
        raise Fault(f"sheet line {line}: byte {data[error.start]:02X} isn't UTF-8: save the sheet as CSV in UTF-8") from None


def _column(text: str) -> str | None:
    """The column that a header names."""
    return NAMED.get(text.strip().lower())


def _separator(text: str) -> str:
    """What stands between fields: that by which a line names the most columns."""

    def known(separator: str) -> int:
        lines = text.splitlines()
        return max((sum(_column(one.strip('"')) is not None for one in line.split(separator)) for line in lines), default=0)

    return max(SEPARATORS, key=known)


def _fields(text: str, separator: str) -> Iterator[tuple[int, list[str]]]:
    """The rows that say something, each with its line: no blank ones, and no comments."""
    reader = csv.reader(io.StringIO(text, newline=""), delimiter=separator, strict=True)
    while True:
        line = reader.line_num + 1
        try:
            fields = next(reader, None)
        except csv.Error:
            raise Fault(f"sheet line {line}: a quote is left open, or text follows one that closes") from None
        if fields is None:
            return
        fields = [one.replace("\u00a0", " ").replace("\u202f", " ").strip() for one in fields]
        first = next((one for one in fields if one), "#")
        if not first.startswith("#") and not (line == 1 and first.startswith("sep=")):
            yield line, fields


def _header(line: int, fields: list[str], faults: Gathered) -> list[str]:
    """The columns, by the row that names them."""
    header = []
    for one in fields:
        column = _column(one)
        if column is None and one:
            near = difflib.get_close_matches(one.lower(), NAMED, 1)
            more = f"; is it {NAMED[near[0]]}?" if near else "; what is for readers alone goes into one called note"
            faults.add(line, "", one, f"no such column{more}")
        elif column in header and column != NOTE:
            faults.add(line, "", one, "a second column of this name")
        header.append(column or one)
    for column in NEEDED:
        if column not in header:
            faults.add(line, "", column, "this column is missing")
            faults.missing.add(column)
    return header


def _row(line: int, fields: list[str], header: list[str], faults: Gathered) -> Row:
    cells = {column: text for column, text in zip(header, fields) if text}
    row = Row(line, cells)
    beyond = fields[len(header) :] + [text for column, text in zip(header, fields) if not column]
    for text in (one for one in beyond if one):
        faults.add(line, row.name, "", f"{text!r} is in a column without a name: a comma too many?")
    return row


def _add_setting(sheet: Sheet, line: int, fields: list[str], faults: Gathered) -> None:
    """Takes a row above the header."""
    while not fields[-1]:
        fields.pop()
    name = fields[0].lower()
    if name not in SETTINGS:
        faults.add(line, "", "", f"{fields[0]!r} above the names of the columns is neither words, counter nor superframe")
    elif name in sheet.settings:
        faults.add(line, "", name, f"a second row of this kind, after line {sheet.settings[name][0]}")
    elif len(fields) != 1 + SETTINGS[name]:
        examples = {"words": "words,256", "counter": "counter,256,4 for word 256 of subframe 4", "superframe": "superframe,0"}
        faults.add(line, "", name, f"takes {SETTINGS[name]} field{'s' * (SETTINGS[name] > 1)}, as {examples[name]}")
        sheet.settings[name] = (line, [])
    else:
        sheet.settings[name] = (line, fields[1:])
