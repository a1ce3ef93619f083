"""ARINC 429 words: bit 1 is the least significant bit of the number, and the label's most significant bit is bit 1.

Each function takes whole numbers or arrays of them.
"""

from typing import NamedTuple

import numpy as np

from .arrays import Array

SDI, DATA, SSM, PARITY = 8, 10, 29, 31  # where the fields begin, counted from 0
LABEL_BITS, SDI_BITS, DATA_BITS, SSM_BITS = 8, 2, 19, 2

REVERSED_BYTE = np.array([int(f"{byte:08b}"[::-1], 2) for byte in range(256)], dtype=np.uint32)


class Fields(NamedTuple):
    """The fields of bus words: label as it is spoken, SDI, the data of bits 11 to 29, SSM."""

    label: Array
    sdi: Array
    data: Array
    ssm: Array


def has_odd_parity(word: Array) -> Array:
    """Whether the number of ones is odd, as it has to be."""
    folded = np.asarray(word, dtype=np.uint32)
    for shift in (16, 8, 4, 2, 1):
        folded = folded ^ (folded >> np.uint32(shift))
    return (folded & np.uint32(1)) == 1


def fields_of(word: Array) -> Fields:
    """A word's fields."""
    word = np.asarray(word, dtype=np.uint32)

    def field(begin: int, bits: int) -> Array:
        return (word >> np.uint32(begin)) & np.uint32((1 << bits) - 1)

    return Fields(REVERSED_BYTE[word & 0xFF], field(SDI, SDI_BITS), field(DATA, DATA_BITS), field(SSM, SSM_BITS))


def word_of(fields: Fields) -> Array:
    """The word of these fields, with odd parity."""
    word = REVERSED_BYTE[np.asarray(fields.label)]
    for begin, value in ((SDI, fields.sdi), (DATA, fields.data), (SSM, fields.ssm)):
        word = word | (np.asarray(value, dtype=np.uint32) << np.uint32(begin))
    even = ~has_odd_parity(word)
    return word | (even.astype(np.uint32) << np.uint32(PARITY))


def turned(word: Array) -> Array:
    """The word with its 32 bits in the other order: bit 1 becomes the most significant bit of the number."""
    word = np.asarray(word, dtype=np.uint32)
    answer = np.zeros_like(word)
    for byte in range(4):
        answer = (answer << np.uint32(8)) | REVERSED_BYTE[(word >> np.uint32(8 * byte)) & np.uint32(0xFF)]
    return answer
