"""What a trace has for each parameter of a table: how many words, how often, the longest silence, even parities."""

from dataclasses import dataclass
from typing import BinaryIO, Iterable, NamedTuple

import numpy as np
import pandas

from . import bus, trace
from .aligned import aligned
from .arrays import Array
from .capture import MILLION
from .parameters import Parameter, Table
from .streams import Input


class Source(NamedTuple):
    """Where words come from: a bus, a label, and an SDI or any."""

    bus: int
    label: int
    sdi: int | None


@dataclass
class Heard:
    """What came of one source. Words of even parity are counted, and they end no silence, since none of them is sampled."""

    words: int = 0
    even: int = 0
    newest: int = 0
    silence: int = 0

    def add(self, times: Array, odd: Array) -> None:
        """Takes the words of a stretch of the trace: their times, and whether each is of odd parity."""
        self.words += len(times)
        self.even += int(np.count_nonzero(~odd))
        times = times[odd]
        if len(times):
            pauses = np.diff(times, prepend=self.newest)
            self.silence = max(self.silence, int(pauses.max()))
            self.newest = int(times[-1])

    def end(self, time: int) -> None:
        """Takes the end of the trace."""
        self.silence = max(self.silence, time - self.newest)


@dataclass
class Answer:
    """What a trace has: by source, of those that the table asks for and of the others; and its length in microseconds."""

    asked: dict[Source, Heard]
    others: dict[Source, int]
    length: int


def listen(table: Table, source: Input) -> Answer:
    """Reads a trace for the parameters of a table."""
    asked = {source_of(parameter): Heard() for parameter in table.parameters.values()}
    by_label: dict[tuple[int, int], list[Source]] = {}
    for one in asked:
        by_label.setdefault((one.bus, one.label), []).append(one)
    answer = Answer(asked, {}, 0)
    for records in trace.read_trace(source):
        if len(records):
            answer.length = int(records["time"][-1])
            _take(records[records["kind"] == trace.WORD], by_label, answer)
    for heard in asked.values():
        heard.end(answer.length)
    return answer


def source_of(parameter: Parameter) -> Source:
    return Source(parameter.bus, parameter.label, parameter.sdi)


def _take(records: Array, by_label: dict[tuple[int, int], list[Source]], answer: Answer) -> None:
    """Takes the words of a stretch of the trace, label by label."""
    fields = bus.fields_of(records["word"])
    words = pandas.DataFrame(
        {
            "bus": records["bus"].astype(np.int64),
            "label": fields.label.astype(np.int64),
            "sdi": fields.sdi.astype(np.int64),
            "time": records["time"].astype(np.int64),
            "odd": bus.has_odd_parity(records["word"]),
        }
    )
    for (number, label), group in words.groupby(["bus", "label"]):
        times, sdi, odd = (group[name].to_numpy() for name in ("time", "sdi", "odd"))
        heeded = np.zeros(len(group), dtype=bool)
        for source in by_label.get((number, label), []):
            its = np.full(len(group), True) if source.sdi is None else sdi == source.sdi
            answer.asked[source].add(times[its], odd[its])
            heeded |= its
        for other, count in zip(*np.unique(sdi[~heeded], return_counts=True)):
            source = Source(number, label, int(other))
            answer.others[source] = answer.others.get(source, 0) + int(count)


def write_answer(table: Table, answer: Answer, out: BinaryIO) -> bool:
    """Writes a line for each parameter and for each source that no parameter asks for. Answers whether words came for all."""
    rows = [("parameter", "bus", "label", "sdi", "words", "a second", "longest silence", "even parity", "")]
    silent = False
    for parameter in table.parameters.values():
        heard = answer.asked[source_of(parameter)]
        good = heard.words - heard.even
        silent |= good == 0
        note = "" if good else "NONE CAME" if not heard.words else "ALL OF EVEN PARITY"
        rows.append((parameter.name, *names_of(source_of(parameter)), *_figures(heard, answer.length), note))
    for source, count in sorted(answer.others.items()):
        rows.append(("-", *names_of(source), str(count), _rate(count, answer.length), "", "", "no parameter asks for it"))
    out.write(aligned(rows).encode())
    return not silent


def names_of(source: Source) -> tuple[str, str, str]:
    return str(source.bus), f"{source.label:03o}", "any" if source.sdi is None else str(source.sdi)


def _figures(heard: Heard, length: int) -> tuple[str, str, str, str]:
    return str(heard.words), _rate(heard.words, length), f"{heard.silence / MILLION:.3f} s", str(heard.even)


def _rate(count: int, length: int) -> str:
    return f"{count * MILLION / length:.2f}" if length else "-"
