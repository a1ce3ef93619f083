"""The page of a report: in plain words what was found, each statement with the file that it stands on."""

from __future__ import annotations

import html
import pathlib
import shlex

from . import events, page, rests
from .advice import advice
from .clock import SECOND
from .facts import Facts, RunFact, SessionFact
from .manifest import MANIFEST, SUMS
from .naming import clock_text
from .report import COMMANDS, COPIES, EVENTS, FLIGHTS, PAGE, Report
from .survey import Absence, Values

DOUBTFUL = ["counter of the frame", "doubtful subframes", "counter that fits", "first line in the listing", "rows", "why"]
MOST_ROWS = 200  # of a table of the page
SECONDS, MICROSECONDS = len("2026-05-04T10:00:00"), len("2026-05-04T10:00:00.000000")  # of a date
FILES = {
    "values.csv": "each value with its time and its place in the bits, and what is between",
    "values.h5": "the same, for pandas",
    "salvage.txt": "what fdr salvage wrote",
    "listing.txt": "what fdr list or fdr listbits wrote",
    "recovered.bin": "what fdr recover wrote",
    "exceed.txt": "what fdr exceed wrote",
    "exceed-runs.txt": "what fdr exceed wrote of runs.img",
    "runs.img": "all runs as sessions of one image",
    "dump.img": "the bits as an image",
    "parts.txt": "what flight parts read of the gaps, and doubtful frames",
    "check.txt": "what fdr check wrote",
    "table.csv": "the table",
    "rules.csv": "the rules",
    "table.describe.csv": "what the values of the table's parameters mean",
    "event-rules.csv": "the rules of events",
    FLIGHTS: "the flights, each with its extremes",
    EVENTS: "the events by rules of one's own, and how long each rule was watched",
    "acks.txt": "the recorder's standard error",
    COMMANDS: "each command with its answer",
    "findings.json": "the numbers of this page for programs",
    MANIFEST: "what this was made of, and by what",
    SUMS: "the sums of all files here",
}
HERE = pathlib.Path(__file__).parent


def write(report: Report, folder: pathlib.Path) -> None:
    """Writes the page."""
    parts = [_head(report), _what(report, folder), _found(report), _missing(report), _exceedances(report), _rests(report, folder)]
    body = f"<article>{''.join(parts)}</article>"
    style = (HERE / "report.css").read_text()
    if report.flight is not None and report.flight.curves:
        style = page.style_of_charts() + style
        body += f'<section id="curves">{page.charts_of(report.flight, "Curves")}</section>'
    text = page.PAGE.format(policy=page.POLICY, title=html.escape(_title(report)), style=style, body=body)
    (folder / PAGE).write_text(text, encoding="utf-8", errors="surrogateescape")


def _title(report: Report) -> str:
    return report.settings.title or f"Report on {pathlib.Path(report.inputs.path('source')).name}"


def _text(value: object) -> str:
    return html.escape(str(value).encode("utf-8", "backslashreplace").decode())


def _from(name: str) -> str:
    """The link to the file that a statement stands on."""
    return f' <a class="from" href="{html.escape(name)}">{html.escape(name)}</a>'


def _said(text: str, name: str = "", is_red: bool = False) -> str:
    return f'<p{" class=red" if is_red else ""}>{_text(text)}{_from(name) if name else ""}</p>'


def _section(number: int, name: str, *parts: str) -> str:
    return f'<section id="part-{number}"><h2>{number}. {_text(name)}</h2>{"".join(parts)}</section>'


def _table(header: list[str], rows: list[list[object]], name: str) -> str:
    """A table, with the file that it stands on."""
    head = "".join(f"<th>{_text(one)}</th>" for one in header)
    lines = "".join(f"<tr>{''.join(_cell(one) for one in row)}</tr>" for row in rows[:MOST_ROWS])
    more = f"{len(rows) - MOST_ROWS} more are in the file." if len(rows) > MOST_ROWS else ""
    return f"<table><tr>{head}</tr>{lines}</table><p>{more}{_from(name)}</p>"


def _cell(value: object) -> str:
    if value is None:
        return "<td></td>"
    is_number = isinstance(value, (int, float))
    return f'<td{" class=number" if is_number else ""}>{_text(f"{value:.12g}" if isinstance(value, float) else value)}</td>'


def _head(report: Report) -> str:
    parts = [f"<h1>{_text(_title(report))}</h1>", _said(f"Made at {report.begun}.", "manifest.json")]
    for ran in report.refusals:
        parts.append(_said(f"fdr {ran.words[1]} refused: {ran.error.strip()} (status {ran.status})", COMMANDS, True))
        parts.append(_said(f"What to try: {advice(report, ran)}"))
    return "".join(parts)


def _what(report: Report, folder: pathlib.Path) -> str:
    seen = report.inputs.seen
    rows: list[list[object]] = [[role, one.path, one.size, one.sha256] for role, one in seen.items()]
    rows[0][0] = "image" if report.is_image else "bits"
    rows.append(["program", report.program.path, report.program.size, report.program.sha256])
    parts = [_table(["what", "file", "bytes", "SHA-256"], rows, "manifest.json")]
    if report.is_image:
        parts.append(_header(report))
    if (folder / "check.txt").is_file():
        said = (folder / "check.txt").read_text(errors="backslashreplace")
        parts.append(f"<p>The table, by fdr check:{_from('check.txt')}{_from(COPIES['table'])}</p><pre>{_text(said)}</pre>")
    return _section(1, "What this is of", *parts)


def _header(report: Report) -> str:
    one = report.header
    if one is None:
        return _said("The file has fewer than 64 bytes, and so no header.", "manifest.json")
    gate = "open" if one.is_open else "closed"
    letters = "has the letters FDR717" if one.has_letters else "has other letters than FDR717"
    text = f"The image's header is {gate} and {letters}: version {one.version}, {one.slots} slots of {one.payload} bytes, for frames of "
    shape = report.settings.shape
    used = f" It wasn't looked at: {shape[0]} slots of {shape[1]} bytes were given." if shape else ""
    return _said(f"{text}{one.words} words in a subframe.{used}", COMMANDS)


def _found(report: Report) -> str:
    facts = report.facts
    if facts is None:
        return _section(2, "What was found", _said("Nothing could be read: see above.", COMMANDS, True))
    name = report.listing
    parts = [_said(_sum(report, facts), name)]
    if not facts.are_as_listed:
        parts.append(_said("A second search for the frames gives others than fdr: trust neither before it is known why.", name, True))
    if not facts.frames:
        look = "flight look on the file says which form its frames have." if not report.is_image else "Is it another table's recording?"
        parts.append(_said(f"No whole frame was found. {look}", name, True))
    if report.is_image:
        parts += _blocks(report, facts)
    parts.append(_sessions(report, facts))
    parts += _ending(report, facts)
    parts.append(_clock(report))
    return _section(2, "What was found", *parts)


def _clock(report: Report) -> str:
    """What the recorded clock says."""
    if not report.clock:
        return ""
    rows: list[list[object]] = [[one.recording + 1, _when(report, one.recording + 1, one.begin), one.text] for one in report.clock]
    return "<h3>The recorded clock</h3>" + _table(["recording", "at", "said"], rows, "values.csv")


def _sum(report: Report, facts: Facts) -> str:
    rows = report.survey.rows if report.survey else 0
    text = f"{_count(facts.frames, 'whole frame')} with {_count(rows, 'value')}, {clock_text(4 * facts.frames)} of frames"
    if not report.is_image:
        return f"{text}, in {report.inputs.seen['source'].size} bytes of bits."
    blocks = sum(run.blocks for run in facts.runs)
    return f"{text}, in {_count(len(facts.runs), 'run')} of {_count(blocks, 'block')} in all."


def _count(count: int, name: str) -> str:
    return f"{count} {name}{'' if count == 1 else 's'}"


def _blocks(report: Report, facts: Facts) -> list[str]:
    rows: list[list[object]] = []
    for run in facts.runs:
        sessions = ", ".join("-" if one.number is None else str(one.number) for one in run.sessions)
        listed = "salvage and list" if run.is_listed and not report.settings.shape else "salvage alone"
        rows.append([run.first, run.last, run.blocks, run.frames, sessions, listed])
    parts = [_table(["first block", "last block", "blocks", "frames", "sessions", "listed by"], rows, report.listing)]
    if not facts.is_as_salvaged:
        parts.append(_said("A second reading of the slots gives other runs than fdr salvage: trust neither before it is known why.", report.listing, True))
    if facts.left_out and not report.settings.shape:
        parts.append(_said(_left_out(facts.left_out), "listing.txt", True))
    for run in (one for one in facts.runs if one.is_misnumbered):
        text = f"Block {run.first} may be one of those that are missing, with a wrong bit in its number: see the hole."
        parts.append(_said(text, report.listing, True))
    for number in facts.far:
        run = facts.runs[number]
        text = f"Blocks {run.first} to {run.last} and block {facts.newest} can't be in one ring of these slots: the number of one of them is wrong."
        parts.append(_said(text, report.listing, True))
    for hole in facts.holes:
        blocks = f"block {hole.first} is" if hole.blocks == 1 else f"blocks {hole.first} to {hole.first + hole.blocks - 1}, {hole.blocks} in all, are"
        why = "; ".join(hole.reasons) + (", and so on" if hole.blocks > len(hole.reasons) else "")
        parts.append(_said(f"A hole: {blocks} missing. {why[:1].upper()}{why[1:]}.", report.listing, True))
    return parts


def _left_out(runs: list[RunFact]) -> str:
    blocks, frames = sum(run.blocks for run in runs), sum(run.frames for run in runs)
    return (
        f"fdr list leaves out {_count(blocks, 'valid block')} with {_count(frames, 'whole frame')}: it lists the run that ends with the "
        f"greatest number, and these are before a hole. They are in the values and the curves here."
    )


def _sessions(report: Report, facts: Facts) -> str:
    header = ["session", "first block", "last block", "bytes", "frames", "time of frames", "counter", "recording, from, to"]
    rows: list[list[object]] = []
    for run in facts.runs:
        for one in run.sessions:
            ending = one.ending
            counter = "" if ending.first_counter is None else f"{ending.first_counter} to {ending.last_counter}"
            times = "; ".join(f"{number}, {_when(report, number, begin)}, {_when(report, number, end)}" for number, begin, end in one.recordings)
            number = "-" if one.number is None else one.number
            rows.append([number, one.first, one.last, one.bytes, ending.frames, clock_text(4 * ending.frames), counter, times])
    return _table(header, rows, "values.csv")


def _when(report: Report, recording: int, ticks: int | None) -> str:
    """A time of a recording, counted from 1, with its date where that is known."""
    if ticks is None:
        return "unknown"
    date = report.dates.text(recording - 1, ticks) if report.dates else ""
    date = date[:SECONDS] + date[MICROSECONDS:]
    return f"{clock_text(round(ticks / SECOND, 3))}{f' ({date})' if date else ''}"


def _ending(report: Report, facts: Facts) -> list[str]:
    if not facts.runs:
        return [_said("The image has no block.", report.listing)]
    parts = [_said(_end_text(facts.runs[-1].sessions[-1], report.is_image), report.listing)]
    if facts.runs[-1].is_misnumbered and len(facts.runs) > 1:
        parts.append(_said(f"But block {facts.newest} may be an older one with a wrong bit in its number. Without it:", report.listing, True))
        parts.append(_said(_end_text(facts.runs[-2].sessions[-1], True), report.listing))
    if facts.pending is not None:
        parts.append(_said(f"Block {facts.pending} was being written when the recording stopped: its head is there, and its gate isn't open."))
    if facts.acks is not None:
        parts.append(_acks(facts))
    return parts


def _end_text(one: SessionFact, is_image: bool) -> str:
    ending = one.ending
    text = f"How the recording ends: its last block is {one.last}. " if is_image else "How the bits end: "
    if ending.last_bit is None:
        return f"{text}There is no whole frame in {'its last session' if is_image else 'them'}; {_count(ending.subframes, 'whole subframe')} at its beginning."
    text += f"The last whole frame has counter {ending.last_counter} and begins at bit {ending.last_bit}. After it are "
    return f"{text}{_count(ending.subframes, 'whole subframe')}, and {_count(ending.bits_after, 'bit')} in all."


def _acks(facts: Facts) -> str:
    assert facts.acks is not None
    newest = facts.acks.newest
    others = f" Other lines: {'; '.join(facts.acks.others[:5])}." if facts.acks.others else ""
    if newest is None:
        return _said(f"The recorder announced nothing.{others}", COPIES["acks"])
    if newest == 0:
        return _said(f"The recorder announced 0, so no block.{others}", COPIES["acks"])
    held = facts.holds(newest - 1)
    text = f"The newest announcement is ack {newest}: block {newest - 1} was durable. The image {'holds it' if held else 'does not hold it'}.{others}"
    return _said(text, COPIES["acks"], not held)


def _missing(report: Report) -> str:
    survey = report.survey
    if survey is None:
        return _section(3, "What is missing or doubtful", _said("Nothing could be read.", COMMANDS))
    rows = [_absence(report, one) for one in survey.absences]
    header = ["what", "recording", "from", "length", "bit of the session", "bits", "said"]
    parts = [_table(header, rows, "values.csv") if rows else _said("No gap and no break.", "values.csv")]
    parts.append(_said("A frame whose four sync words stand is listed whatever is between them, so wrong bits in it aren't seen here."))
    if not report.settings.shape:
        parts.append(_said(f"flight parts read of the gaps, and found doubtful: {_kinds(report)}.", "parts.txt"))
        if report.doubtful:
            parts.append(_said("These frames are doubtful: by their rows nothing should be decided alone.", "parts.txt", True))
            parts.append(_table(DOUBTFUL, [[*fields] for fields in report.doubtful], "parts.txt"))
    parts.append(_parameters(report))
    return _section(3, "What is missing or doubtful", *parts)


def _kinds(report: Report) -> str:
    """The lines of parts.txt by their kinds."""
    return ", ".join(f"{count} lines {kind}" for kind, count in sorted(report.parts.items()) if kind not in ("run", "session")) or "nothing"


def _absence(report: Report, one: Absence) -> list[object]:
    length = "unknown" if one.length is None else f"{one.length / SECOND:.6g} s"
    return [one.event.value, one.recording + 1, _when(report, one.recording + 1, one.begin), length, one.bit, one.bits, one.text]


def _parameters(report: Report) -> str:
    assert report.survey is not None
    rows: list[list[object]] = []
    for name in report.survey.ranges:
        values = report.survey.values.get(name)
        if values is None:
            rows.append([_title_of(report, name), 0, None, None, None, "no value"])
        else:
            unit = "" if report.description.of(name).points else report.description.of(name).unit
            ends = [values.least, values.greatest, unit]
            rows.append([_title_of(report, name), values.count, *ends, "; ".join(_remarks(report, name, values))])
    return _table(["parameter", "values", "least", "greatest", "unit", "remarks"], rows, "values.csv")


def _title_of(report: Report, name: str) -> str:
    title = report.description.of(name).title
    return f"{name}: {title}" if title else name


def _remarks(report: Report, name: str, values: Values) -> list[str]:
    assert report.survey is not None
    range = report.survey.ranges[name]
    remarks = ["never changes"] if values.count > 1 and values.least == values.greatest else []
    if range.width > 1 and range.least < range.greatest:
        for count, end, kind in ((values.at_least, range.least, "least"), (values.at_greatest, range.greatest, "greatest")):
            if count:
                remarks.append(f"{_count(count, 'value')} at the {kind} of its range, {end:.12g}")
    one = report.description.of(name)
    for kind, end in (("least", values.least), ("greatest", values.greatest)):
        text = f"{end:.9f}"
        said = one.word(text) or (f"{one.scaled(text)} {one.unit}".strip() if one.scaled(text) else "")
        remarks += [f"the {kind} is {said}"] * bool(said)
    return remarks


def _flights(report: Report) -> str:
    """The flights and the events that were asked for."""
    parts = ""
    if report.flights is not None:
        utc = report.flights.how.utc
        rows: list[list[object]] = []
        for one in report.flights.flights:
            number, run = one.run.recording + 1, one.run
            ends = [f"{_when(report, number, at)}{f', {utc.text(run.recording, at)}' if utc else ''}" for at in (run.begin, run.end)]
            rows.append([one.number, number, *ends, clock_text(run.ticks // SECOND), one.seconds_missing, one.note])
        header = ["flight", "recording", "from", "to", "length", "seconds missing", "missing"]
        parts += "<h3>Flights</h3>" + (_table(header, rows, FLIGHTS) if rows else _said("No flight.", FLIGHTS))
    if report.events is not None:
        parts += "<h3>Events</h3>" + _said(f"{events.NOT_PROVED[0].upper()}{events.NOT_PROVED[1:]}.", EVENTS)
        rows = []
        for event in report.events.events:
            number, run = event.run.recording + 1, event.run
            said = [event.peak, event.notes(report.description)]
            rows.append([event.rule.name, event.severity, number, _when(report, number, run.begin), run.ticks / SECOND, *said])
        header = ["rule", "severity", "recording", "begins", "seconds", "peak", "notes"]
        parts += _table(header, rows, EVENTS) if rows else _said("No event.", EVENTS)
        watched: list[list[object]] = [[rule.name, clock_text(seconds), stretches] for rule, seconds, stretches in report.events.watched]
        parts += _table(["rule", "watched", "stretches"], watched, EVENTS)
    return parts


def _exceedances(report: Report) -> str:
    """What left the limits of rules, and the flights and events that were asked for."""
    return _section(4, "Exceedances", _proved_exceedances(report), _flights(report))


def _proved_exceedances(report: Report) -> str:
    if not report.settings.rules:
        return _said("No rules were given, so none were looked for.")
    if not report.exceed_source or any(ran.words[1] == "exceed" for ran in report.refusals):
        return _said("None could be looked for: see above.", COMMANDS, True)
    parts = [_said(text, name) for text, name in _exceed_notes(report)]
    rows: list[list[object]] = []
    for one in report.found:
        said = one.exceedance
        whens = " or ".join(f"recording {number + 1}, {_when(report, number + 1, begin)}" for number, begin in one.begins())
        peak = f"{said.counter}, {said.subframe}, {said.word}"
        rows.append([said.name, " ".join(one.parameters(report.names)), whens or "not in the listing", said.length, said.peak, peak])
    header = ["rule", "parameter", "begins", "values", "peak", "counter, subframe, word"]
    parts.append(_table(header, rows, report.exceed_source) if rows else _said("No exceedance.", report.exceed_source))
    if report.untold:
        text = f"There are {report.untold} more, whose times flight table --exceed finds; these are the first {len(rows)}."
        parts.append(_said(text, report.exceed_source, True))
    return "".join(parts) + _watched(report)


def _exceed_notes(report: Report) -> list[tuple[str, str]]:
    if not report.is_image:
        return [("The bits were made an image by flight image, since fdr exceed reads images.", report.made_image)]
    if report.made_image:
        text = "fdr exceed reads the newest run alone. So all runs were made sessions of one image by flight image, and these are its exceedances."
        return [(text, report.made_image), *([("Those of the newest run alone.", "exceed.txt")] if not report.settings.shape else [])]
    return []


def _watched(report: Report) -> str:
    rows: list[list[object]] = []
    blind = []
    for one in report.watched:
        rule = one.rule
        said = f"{rule.parameter} {rule.kind} {rule.limit}, {_count(rule.count, 'value')}"
        rows.append([rule.name, said, one.stretches, clock_text(one.seconds), one.short, clock_text(one.short_seconds)])
        blind += [] if one.seconds else [rule.name]
    header = ["rule", "asks for", "stretches long enough", "watched", "stretches too short", "not watched"]
    parts = _table(header, rows, COPIES["rules"])
    if blind:
        parts += _said(f"Could not be seen at all: {', '.join(blind)}. No stretch without a break has values enough for them.", COPIES["rules"], True)
    return parts + _said("An exceedance that a break cuts is seen only where enough of it is on one side.")


def _again(report: Report) -> list[str]:
    """The lines that do it again, in the folder of the report."""
    lines = [ran.line for ran in report.runs]
    if report.made_image:
        parts = "of the blocks of each session of each run" if report.is_image else shlex.quote(report.inputs.path("source"))
        made = f"flight image {parts} -o {report.made_image} --words {report.words}"
        lines.insert(-1, f"# {made}" if report.is_image else made)
    return lines


def _files(folder: pathlib.Path) -> str:
    """A line for each file, with those that are written after this page."""
    there = [name for name in FILES if name in (MANIFEST, SUMS) or (folder / name).is_file()]
    return "".join(f'<li><a href="{name}">{name}</a> {_text(FILES[name])}</li>' for name in there)


def _rests(report: Report, folder: pathlib.Path) -> str:
    rows: list[list[object]] = [[one.what, one.by, one.where] for one in rests.statements(report.is_image)]
    lines = "\n".join(_again(report))
    parts = [
        _table(["statement", "is", "see"], rows, COMMANDS),
        *(_said(text) for text in rests.NOT_SAID),
        f"<p>The files of this folder:</p><ul>{_files(folder)}</ul>",
        f"<p>How to do it again, in this folder:{_from(COMMANDS)}</p><pre>{_text(lines)}\nsha256sum -c SHA256SUMS</pre>",
    ]
    return _section(5, "What this rests on", *parts)
