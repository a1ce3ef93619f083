"""The commands that make a table of a frame layout and show one: their options, and what each runs."""

from __future__ import annotations

import argparse
import pathlib
from typing import Any, Callable

from .faults import Fault
from .streams import STANDARD, opened, output, standard_output, whole_file

Add = Callable[..., argparse.ArgumentParser]
Commands = Any  # what argparse adds commands to: its type has no public name


def add_commands(commands: Commands, command: Add) -> None:
    """Adds the commands, by what adds one with its example."""
    for add in (_add_layout, _add_map, _add_values):
        add(commands, command)


def _add_layout(commands: Commands, command: Add) -> None:
    parser = command(
        commands,
        "layout",
        _run_layout,
        "make a table of a sheet of a frame layout, or say all that is wrong with the sheet",
        "flight layout examples/layout.csv -o table.csv",
    )
    parser.add_argument("sheet", metavar="SHEET", help="rows under a header: name, subframes, word, bits, ..; - for standard input")
    parser.add_argument(
        "-o", "--output", metavar="TABLE", required=True, help="the table; units, titles and states go into a .describe.csv beside it"
    )


def _run_layout(given: argparse.Namespace) -> None:
    from . import description, layout, program, sheet

    path = pathlib.Path(given.output)
    described = description.path_beside(path)
    _check_output(given.sheet, path, described)
    faults = sheet.Gathered()
    with opened(given.sheet) as source:
        read = sheet.read_sheet(source.read(), faults)
    made = layout.layout_of(read, faults)
    checker = program.fdr()
    with whole_file(described) as beside, whole_file(path) as half, standard_output() as out:
        beside.write_text(description.text_of(made.described), encoding="utf-8")
        half.write_text(made.text(), encoding="ascii")
        fault = program.first_fault(checker, half) if checker else None
        if fault:
            raise Fault(made.fault_text(fault.row, fault.text))
        said = "fdr check accepts it" if checker else "fdr isn't here to check it"
        out.write(f"{path.name}: {made.summary()}; {said}\n".encode())


def _check_output(sheet: str, *paths: pathlib.Path) -> None:
    """What is written doesn't take the place of the sheet, and has names."""
    if str(paths[0]) == STANDARD:
        raise Fault("-o -: the table and its description are two files, so they need a name")
    for path in paths:
        if sheet != STANDARD and path.exists() and path.samefile(sheet):
            raise Fault(f"{path}: this is the sheet, which would be written over")


def _add_map(commands: Commands, command: Add) -> None:
    parser = command(
        commands,
        "map",
        _run_map,
        "show what is in each word of a table's frames, as text, CSV or a page",
        "flight map examples/ordinary.csv -o ordinary.html",
    )
    _add_table(parser)
    parser.add_argument(
        "-o", "--output", metavar="FILE", help="a file in place of standard output; CSV where it ends with .csv, a page with .html"
    )
    parser.add_argument("--title", metavar="TEXT", default="", help="a title of the page; the table's name if it isn't given")


def _run_map(given: argparse.Namespace) -> None:
    from . import description, grid, grid_page, parameters

    table = parameters.read_table(given.table)
    made = grid.grid_of(table)
    ending = pathlib.Path(given.output or "").suffix
    if ending == ".html":
        path = pathlib.Path(given.table)
        text = grid_page.page_of(table, made, description.read_beside(path, table).parameters, given.title or path.name)
    else:
        text = grid.csv_of(made) if ending == ".csv" else grid.text_of(made)
    with output(given.output) as out:
        out.write(text.encode())


def _add_values(commands: Commands, command: Add) -> None:
    parser = command(
        commands,
        "values",
        _run_values,
        "say which values the parameters of a table can have",
        "flight values examples/ordinary.csv",
    )
    _add_table(parser)
    parser.add_argument("-o", "--output", metavar="FILE", help="a file in place of standard output; CSV where it ends with .csv")


def _add_table(parser: argparse.ArgumentParser) -> None:
    parser.add_argument("table", metavar="TABLE", help="a table; units, titles and states are those of the .describe.csv beside it")


def _run_values(given: argparse.Namespace) -> None:
    from . import description, parameters, reach

    table = parameters.read_table(given.table)
    rows = reach.rows_of(table, description.read_beside(pathlib.Path(given.table), table).parameters)
    is_csv = given.output is not None and given.output.endswith(".csv")
    with output(given.output) as out:
        out.write((reach.csv_of(rows) if is_csv else reach.text_of(rows)).encode())
