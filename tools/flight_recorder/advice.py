"""What to try where the program refused something."""

from __future__ import annotations

import shlex

from .images import HEAD, HEADER
from .report import Report
from .running import Ran

BY_STATUS = {
    2: "The table isn't accepted: `fdr check` names the first row that is wrong, and TABLE.md says what a row has to be.",
    6: "The image is for frames of another number of words than the table. Give the table of the recording.",
    8: "A file couldn't be read. Look whether it is there and may be read, and whether its disk reports errors.",
    11: "More than 268,435,456 bytes: cut the bits, and make a report of each part.",
    12: "The program had no memory. Make the report where more is free.",
    17: "The rules aren't accepted: RULES.md says what a rule has to be.",
}


def advice(report: Report, ran: Ran) -> str:
    """What to try after a refusal."""
    if ran.status == 4:
        return _of_image(report, ran.error)
    if ran.status == 10:
        if report.holder is not None:
            return f"Process {report.holder} has a lock on the image for itself, as a recorder has: wait until it ended, or copy the image."
        return "The disk failed, or the image is no file: copy it with a program that goes on after errors, as ddrescue, and report the copy."
    return BY_STATUS.get(ran.status, "COMMANDS.md has the table of answers.")


def _of_image(report: Report, error: str) -> str:
    if "too small" in error:
        return "Fewer than 64 bytes: nothing of an image is there. Copy it again from where it was recorded, and compare the sizes."
    if "shorter than its ring" in error and report.header is not None:
        size = HEADER.size + report.header.slots * (HEAD.size + report.header.payload)
        source = shlex.quote(report.inputs.path("source"))
        return (
            f"The file was cut: by its header it has {size} bytes. Copy it again. If there is no more of it, fill a copy up with "
            f"zeros, which are slots without blocks, and report the copy: cp {source} filled.img && truncate -s {size} filled.img"
        )
    if report.likely is not None:
        slots, payload = report.likely
        return f"The header is damaged. By the heads of its slots the image is read with: --slots {slots} --payload {payload}"
    return "It isn't seen to be an image. FORMATS.md says how its slots and payload are found; of bits say --as bits."
