"""Sizes and codes, and the room that a call asks for."""

from __future__ import annotations

from array import array
from typing import Dict, Union

MOST_SIDE = 1024
BLOCK_SIDE = 16
MOST_SAMPLES = 4096
MOST_EIGHTHS = 223
MOST_SHIFT = 24
BLOCK_BYTES = 512
FORM_1, FORM_2 = 1, 2
FORM_SAMPLES: Dict[int, int] = {FORM_1: 125, FORM_2: 100}
HEADER_BYTES = 125
TEXT_BYTES = 4096

IDENTITY, TRANSLATION, ROTZOOM, AFFINE = range(4)
TYPES = ("identity", "translation", "rotzoom", "affine")
UNSORTED, FIBRE, RIGID_PLASTIC, METAL, FILM = range(5)
CLASSES = ("unsorted", "fibre", "rigid plastic", "metal", "film")
ALL_CLASSES = 31
# The switch codes of a run.
TO_LOW_PRECISION, TO_HIGH_PRECISION, TO_FORM_2 = range(3)


def sample_count(width: int, height: int) -> int:
    """How many whole 16×16 blocks a plane has: the samples of a search.

    >>> import belt
    >>> belt.sample_count(640, 480), belt.sample_count(15, 480)
    (1200, 0)
    """
    return (width // BLOCK_SIDE) * (height // BLOCK_SIDE)


def half_plane_values(width: int, height: int) -> int:
    """How many values a half plane has: none where there are no samples.

    >>> import belt
    >>> belt.half_plane_values(640, 480), belt.half_plane_values(15, 480)
    (76800, 0)
    """
    return (width // 2) * (height // 2) if sample_count(width, height) else 0


def blocks_of(samples: int, form: int) -> int:
    """How many blocks so many samples take in a form.

    >>> import belt
    >>> belt.blocks_of(126, belt.FORM_1), belt.blocks_of(1200, belt.FORM_2)
    (2, 12)
    """
    return -(-samples // FORM_SAMPLES[form])


def block_bytes(samples: int, form: int) -> int:
    """How many bytes the blocks of so many samples take in a form.

    >>> import belt
    >>> belt.block_bytes(1200, belt.FORM_2)
    6144
    """
    return BLOCK_BYTES * blocks_of(samples, form)


class Buffers:
    """A job's memory, of the lengths that planes of given sides need.

    >>> import belt
    >>> buffers = belt.Buffers(640, 480)
    >>> len(buffers.words), len(buffers.input_half), len(buffers.blocks), len(buffers.header)
    (1200, 76800, 6144, 125)
    """

    input_half: Union[array[int], memoryview]
    ref_half: Union[array[int], memoryview]
    words: Union[array[int], memoryview]
    blocks: Union[bytearray, memoryview]
    header: Union[bytearray, memoryview]

    def __init__(self, width: int, height: int) -> None:
        width, height = min(width, MOST_SIDE), min(height, MOST_SIDE)
        samples, half = sample_count(width, height), half_plane_values(width, height)
        self.input_half = array("H", bytes(2 * half))
        self.ref_half = array("H", bytes(2 * half))
        self.words = array("I", bytes(4 * samples))
        self.blocks = bytearray(block_bytes(samples, FORM_2))
        self.header = bytearray(HEADER_BYTES)
