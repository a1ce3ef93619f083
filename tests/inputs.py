"""What the scripts give the program: the tables of examples/, large ones, and frames and traces by examples/t1.csv."""

import pathlib

from formats import bus_word, end_at, frame, record_at

TOP = pathlib.Path(__file__).resolve().parent.parent
T1 = (TOP / "examples" / "t1.csv").read_bytes()
ORDINARY = (TOP / "examples" / "ordinary.csv").read_bytes()


# --- tables


def table_of_every_word() -> bytes:
    """One parameter in words 3 to 64 of each subframe, so that a frame has many lines."""
    rate = 62 * 4 * 16
    return f"F,64,2,1\nP,V,0,203,,11,12,U,1,1,0,0,{rate}\nL,V,1,1234,3,1,1,12,0,1\n".encode()


def largest_table() -> bytes:
    """As many parameters, places and parts as a table may have: 2,048, 8,192 and 262,144.

    A word has the four parts of three parameters, a bit each, in two of the four subframes."""
    rows = ["F,1024,1024,4"]
    for number in range(2048):
        at, half = divmod(number, 2)
        rows.append(f"P,Q{number},{number % 256},{number // 256 + 1:o},,11,4,U,1,1,0,0,32")
        for part in range(1, 5):
            rows.append(f"L,Q{number},{part},{('13', '24')[half]},{2 + at // 3},0,{at % 3 * 4 + part},1,0,1")
    return "\n".join(rows + [""]).encode()


# --- frames and records by examples/t1.csv


def t1_frame(counter: int, value: int) -> bytes:
    """A frame with this value of its parameter."""
    return frame({(1, 2): counter, (1, 10): value})


def t1_word(value: int) -> int:
    """A bus word of its parameter: label octal 203, and the value in bits 11 to 22."""
    return bus_word(0o203, value)


def word_at(time: int, value: int) -> bytes:
    """The record of such a word."""
    return record_at(time, t1_word(value))


# Two frames, and the trace that they are recorded of.
BITS = t1_frame(0, 5) + t1_frame(1, 7)
TRACE = word_at(0, 5) + word_at(4_000_000, 7) + end_at(8_000_000)
# Eleven frames, of 44 seconds.
FIVES = b"".join(t1_frame(counter, 5) for counter in range(11))
