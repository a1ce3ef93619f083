"""Notes put between the rows of a listing at their times: what a recorded clock says, and events."""

from __future__ import annotations

from dataclasses import replace
from typing import Sequence

import numpy as np

from .clock import Between, Timed


class Noting:
    """Puts notes into a listing's pieces, each before the first row of its recording that isn't earlier."""

    def __init__(self, notes: Sequence[Between]) -> None:
        self.notes = sorted(notes, key=lambda one: (one.recording, one.begin or 0))
        self.done = 0

    def add(self, timed: Timed) -> Timed:
        """A piece with the notes that are before a row of it."""
        if self.done == len(self.notes) or not len(timed.time):
            return timed
        put: list[Between] = []
        while self.done < len(self.notes):
            one = self.notes[self.done]
            is_later = (timed.recording > one.recording) | ((timed.recording == one.recording) & (timed.time >= (one.begin or 0)))
            if not is_later.any():
                break
            put.append(replace(one, row=int(np.argmax(is_later))))
            self.done += 1
        between = sorted([*timed.between, *put], key=lambda one: one.row)
        return replace(timed, between=between) if put else timed

    def rest(self, between: list[Between]) -> list[Between]:
        """What is after the last row."""
        left, self.done = self.notes[self.done :], len(self.notes)
        return [*left, *between]
