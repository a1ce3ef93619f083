#!/usr/bin/env python3
"""Makes the capture of two flights in an hour, by the parameters of hour.csv, which has those of ordinary.csv and a clock: taxi,
climb, cruise, descent, landing, and from the next airfield the same again.

    examples/make_flight.py > flight.csv
    examples/make_flight.py --from 1931 > after.csv      the words from a time on, with times counted from there
    examples/make_flight.py --to 1873.4 > before.csv     the words before a time
    examples/make_flight.py --trace > flight.trace       the same as a trace, which `fdr record` reads

The flights are made up, by a generator with a fixed seed, so they are the same each time. What `tools/flight trace` reads of
them is said in docs/FLIGHT_TOOLS.md.
"""

import argparse
import math
import random
import sys
from typing import Callable, Iterator, NamedTuple

LENGTH = 3600  # seconds
NORMAL, DISCRETE = 3, 0  # SSM of numbers and of discretes


class Moment(NamedTuple):
    """A moment of the hour, between which it goes evenly: seconds, feet, knots, degrees of pitch and of heading."""

    time: float
    altitude: float
    speed: float
    pitch: float
    heading: float


PLAN = [
    Moment(0, 420, 0, 0.0, 95),
    Moment(120, 420, 12, 0.0, 95),
    Moment(230, 420, 14, 0.0, 270),
    Moment(270, 420, 0, 0.0, 271),
    Moment(300, 420, 115, 1.0, 271),
    Moment(312, 600, 128, 9.0, 271),
    Moment(420, 2900, 160, 8.0, 271),
    Moment(480, 3900, 165, 7.0, 318),
    Moment(760, 9000, 168, 5.5, 322),
    Moment(860, 10000, 182, 2.0, 322),
    Moment(920, 10000, 194, 1.0, 322),
    Moment(1150, 10000, 196, 1.0, 322),
    Moment(1210, 9600, 197, -1.5, 309),
    Moment(1480, 4200, 186, -2.5, 300),
    Moment(1570, 2700, 150, 2.0, 275),
    Moment(1620, 2000, 128, -1.0, 271),
    Moment(1745, 440, 112, -0.5, 271),
    Moment(1752, 420, 105, 4.5, 271),
    Moment(1760, 420, 84, 0.5, 271),
    Moment(1800, 420, 14, 0.0, 240),
    Moment(1850, 420, 0, 0.0, 180),
    Moment(1960, 420, 0, 0.0, 180),
    Moment(2040, 420, 12, 0.0, 95),
    Moment(2080, 420, 0, 0.0, 91),
    Moment(2110, 420, 115, 1.0, 91),
    Moment(2122, 600, 128, 9.0, 91),
    Moment(2230, 2900, 160, 8.0, 91),
    Moment(2290, 3900, 165, 7.0, 30),
    Moment(2560, 8600, 166, 5.5, 10),
    Moment(2640, 9500, 188, 1.0, 350),
    Moment(2720, 9500, 196, 0.5, 320),
    Moment(2940, 5000, 199, -2.5, 305),
    Moment(3030, 4000, 178, 1.0, 271),
    Moment(3120, 3000, 150, 2.0, 270),
    Moment(3180, 2400, 128, -1.0, 270),
    Moment(3345, 440, 112, -0.5, 270),
    Moment(3352, 420, 105, 4.5, 270),
    Moment(3360, 420, 84, 0.5, 270),
    Moment(3400, 420, 22, 0.0, 270),
    Moment(3600, 420, 8, 0.0, 180),
]
FLIGHTS = [(306, 1750), (2116, 3350)]  # from the take-off to the touchdown
GEAR_IS_UP = [(322, 1540), (2132, 3105)]
BUMPS = [(700, 90, 0.13), (1240, 160, 0.22), (2700, 120, 0.16)]  # air that isn't smooth: from, how long, how much
DEPARTURE = 8 * 3600 + 15 * 60 + 0.3  # seconds of the day at the beginning
CLOCK_RATE = 1 + 40e-6  # of the aircraft's clock beside the recorder's


class Sender(NamedTuple):
    """What sends a parameter's words: how often a second, bus, label, SDI, SSM, and the data at a time."""

    rate: float
    bus: int
    label: str
    sdi: int
    ssm: int
    data: Callable[[float, random.Random], int]


def planned(time: float) -> Moment:
    """The moment of the plan at a time, with soft turns from one part to the next."""
    after = next((at for at, moment in enumerate(PLAN) if moment.time > time), len(PLAN) - 1)
    first, second = PLAN[max(after - 1, 0)], PLAN[after]
    part = min(1.0, max(0.0, (time - first.time) / ((second.time - first.time) or 1)))
    part = part * part * (3 - 2 * part) if second.time - first.time < 100 else part
    return Moment(*(begin + (end - begin) * part for begin, end in zip(first, second)))


def in_air(time: float) -> bool:
    return any(takeoff <= time < touchdown for takeoff, touchdown in FLIGHTS)


def altitude(time: float, chance: random.Random) -> int:
    """Feet, in bits 12 to 29."""
    return round(planned(time).altitude + chance.gauss(0, 2)) << 1


def speed(time: float, chance: random.Random) -> int:
    """Twentieths of a knot, in bits 17 to 28."""
    knots = max(0.0, planned(time).speed + chance.gauss(0, 0.5) + 1.5 * math.sin(time / 23))
    return round(20 * min(knots, 204)) << 6


def acceleration(time: float, chance: random.Random) -> int:
    """Thousandths of g, in bits 17 to 28, two's complement."""
    roughness = 0.004 + 0.012 * in_air(time)
    for begin, length, more in BUMPS:
        roughness += more * math.sin(math.pi * (time - begin) / length) ** 2 * (begin < time < begin + length) / 2
    level = 1 + chance.gauss(0, roughness)
    for takeoff, touchdown in FLIGHTS:
        level += 0.12 * math.exp(-(((time - takeoff - 8) / 5) ** 2))
        level += 0.42 * math.exp(-(((time - touchdown) / 0.35) ** 2))
    return (round(1000 * level) & 0xFFF) << 6


def heading(time: float, chance: random.Random) -> int:
    """Degrees, in bits 17 to 28."""
    return round(planned(time).heading + chance.gauss(0, 0.4) + 1.2 * math.sin(time / 61) * in_air(time)) % 360 << 6


def pitch(time: float, chance: random.Random) -> int:
    """Tenths of a degree, in bits 17 to 28, two's complement."""
    degrees = planned(time).pitch + chance.gauss(0, 0.15) + 0.4 * math.sin(time / 17) * in_air(time)
    return (round(10 * degrees) & 0xFFF) << 6


def gear(time: float, _: random.Random) -> int:
    """Bit 11: the gear is down."""
    return int(not any(up <= time < down for up, down in GEAR_IS_UP))


def flight_number(_: float, __: random.Random) -> int:
    """The flight's number, from bit 11 on."""
    return 717


def time_of_day(time: float, _: random.Random) -> int:
    """Hours in bits 24 to 28, minutes in bits 18 to 23, seconds in bits 12 to 17."""
    seconds = int(DEPARTURE + time * CLOCK_RATE)
    return seconds // 3600 % 24 << 13 | seconds // 60 % 60 << 7 | seconds % 60 << 1


SENDERS = [
    Sender(4, 0, "203", 0, NORMAL, altitude),
    Sender(4, 0, "206", 0, NORMAL, speed),
    Sender(16, 1, "333", 0, NORMAL, acceleration),
    Sender(5, 1, "320", 0, NORMAL, heading),
    Sender(8, 1, "324", 0, NORMAL, pitch),
    Sender(1, 2, "260", 0, DISCRETE, flight_number),
    Sender(2, 3, "270", 0, DISCRETE, gear),
    Sender(4, 2, "150", 0, NORMAL, time_of_day),
]


def words() -> Iterator[tuple[float, str]]:
    """The words of the hour, in the order of their times: the time, and the rest of the row."""
    rows = []
    for number, sender in enumerate(SENDERS):
        chance = random.Random(number)
        for count in range(round(LENGTH * sender.rate)):
            time = count / sender.rate + 0.003 * number + 0.001 * chance.random()
            data = sender.data(time, chance)
            rows.append((time, f"{sender.bus},{sender.label},{sender.sdi},{data},{sender.ssm}"))
    return iter(sorted(rows))


def record(kind: int, bus: int, word: int, time: float) -> bytes:
    """A record of a trace."""
    return bytes([kind, bus, 0, 0]) + word.to_bytes(4, "big") + round(time * 1_000_000).to_bytes(8, "big")


def word_record(time: float, row: str) -> bytes:
    """The record of a row's word. Its label is turned round, and bit 32 makes its parity odd."""
    bus, label, sdi, data, ssm = row.split(",")
    word = int(f"{int(label, 8):08b}"[::-1], 2) | int(sdi) << 8 | int(data) << 10 | int(ssm) << 29
    return record(1, int(bus), word | (word.bit_count() + 1) % 2 << 31, time)


def main() -> None:
    parser = argparse.ArgumentParser(description="Makes the capture of two flights in an hour.")
    parser.add_argument("--from", dest="begin", type=float, default=0.0, metavar="SECONDS", help="words from here on")
    parser.add_argument(
        "--to", dest="end", type=float, default=float(LENGTH), metavar="SECONDS", help="words before here"
    )
    parser.add_argument("--trace", action="store_true", help="write a trace")
    given = parser.parse_args()
    within = [(time - given.begin, row) for time, row in words() if given.begin <= time < given.end]
    if given.trace:
        end = record(2, 0, 0, given.end - given.begin)
        sys.stdout.buffer.write(b"".join(word_record(time, row) for time, row in within) + end)
        return
    print("time,bus,label,sdi,data,ssm")
    for time, row in within:
        print(f"{time:.6f},{row}")
    print(f"{given.end - given.begin:.6f},,end,,,")


if __name__ == "__main__":
    sys.exit(main())
