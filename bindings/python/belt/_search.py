"""The search, whole or in bands, and a belt to practise on."""

from __future__ import annotations

from ctypes import c_uint16, c_uint32
from typing import Any, NamedTuple

from ._lend import answer, call, judge, numbers_of, octets, plane, room, signed, size, whole
from ._sizes import BLOCK_SIDE, half_plane_values, sample_count


class Searched(NamedTuple):
    """How many samples a search found, and how many rows of absolute differences it added ('Rows added').

    >>> import belt
    >>> belt.Searched(samples=1, rows=736).samples
    1
    """

    samples: int
    rows: int


def collect_motion_samples(
    input_y: Any,
    ref_y: Any,
    width: int,
    height: int,
    classes: Any,
    input_half: Any,
    ref_half: Any,
    words: Any,
) -> Searched:
    """Searches each whole 16×16 block ('Search'); answers how many words, with class bits zero, are written and how many
    rows were added. A plane is a list of its pels, or a buffer of height rows of width pels. Refuses 1, 2, 4, 3.

    >>> import belt
    >>> from array import array
    >>> plane, room = array("H", range(1024)), belt.Buffers(32, 32)
    >>> belt.collect_motion_samples(plane, plane, 32, 32, bytes(4), room.input_half, room.ref_half, room.words)
    Searched(samples=4, rows=2944)
    """
    width, height = size(width, "width"), size(height, "height")
    samples, half = sample_count(width, height), half_plane_values(width, height)
    answer = call(
        "belt_collect_motion_samples",
        plane(input_y, width, height, "input_y"),
        plane(ref_y, width, height, "ref_y"),
        width,
        height,
        octets(classes, "classes", samples, (height // BLOCK_SIDE, width // BLOCK_SIDE)),
        room(input_half, c_uint16, "input_half", half),
        room(ref_half, c_uint16, "ref_half", half),
        room(words, c_uint32, "words", samples),
    )
    return Searched(answer.samples, answer.rows)


def half_plane(values: Any, width: int, height: int, out: Any) -> None:
    """Halves a plane into out, (width // 2) * (height // 2) values, where a side is under 16 too. Refuses 1, 2, 3.

    >>> import belt
    >>> from array import array
    >>> half = array("H", bytes(4))
    >>> belt.half_plane([1, 2, 3, 4, 5, 6, 7, 8], 4, 2, half)
    >>> half.tolist()
    [4, 6]
    """
    width, height = size(width, "width"), size(height, "height")
    arguments = (
        plane(values, width, height, "values"),
        width,
        height,
        room(out, c_uint16, "out", (width // 2) * (height // 2), (height // 2, width // 2)),
    )
    judge(answer("belt_half_plane", *arguments), *arguments)


def search_band(
    input_y: Any,
    ref_y: Any,
    width: int,
    height: int,
    input_half: Any,
    ref_half: Any,
    first: int,
    end: int,
    words: Any,
) -> Searched:
    """Searches block rows first to end - 1 of the height // 16, over the half planes that half_plane makes; the band's
    words go to the front of words. Bands that follow on have together the words of collect_motion_samples, and their
    rows added are its rows. Planes and half planes are only read, and Python's lock is free meanwhile: threads may share
    a frame, each with words of its own (a part of one buffer is memoryview(words)[a:b]). Refuses 1, 2, 5, 3.

    >>> import belt
    >>> from array import array
    >>> plane, half, words = array("H", range(1024)), array("H", bytes(512)), array("I", bytes(16))
    >>> belt.half_plane(plane, 32, 32, half)
    >>> [belt.search_band(plane, plane, 32, 32, half, half, k, k + 1, memoryview(words)[2 * k :]).rows for k in (0, 1)]
    [1472, 1472]
    """
    width, height = size(width, "width"), size(height, "height")
    first, end = size(first, "first"), size(end, "end")
    half, halves = (width // 2) * (height // 2), (height // 2, width // 2)
    found = call(
        "belt_search_band",
        plane(input_y, width, height, "input_y"),
        plane(ref_y, width, height, "ref_y"),
        width,
        height,
        numbers_of(input_half, c_uint16, "input_half", half, halves),
        numbers_of(ref_half, c_uint16, "ref_half", half, halves),
        first,
        end,
        room(words, c_uint32, "words", max(end - first, 0) * (width // BLOCK_SIDE)),
    )
    return Searched(found.samples, found.rows)


def make_practice_planes(seed: int, width: int, height: int, dy: int, dx: int, input_y: Any, reference: Any) -> int:
    """Makes a belt to practise on ('Practice belt'): a reference plane of noise, and an input plane whose pel at a place
    is the reference pel dy rows further down and dx columns further right, clamped. Answers how many pels each has.
    Refuses 1, 18, 3.

    >>> import belt
    >>> from array import array
    >>> first, second = array("H", bytes(8)), array("H", bytes(8))
    >>> belt.make_practice_planes(1, 2, 2, 1, -1, first, second)
    4
    >>> second.tolist()
    [15496, 24200, 33046, 46195]
    """
    width, height = size(width, "width"), size(height, "height")
    made = call(
        "belt_make_practice_planes",
        whole(seed, "seed", 0, 2**32 - 1),
        width,
        height,
        signed(dy, "dy"),
        signed(dx, "dx"),
        room(input_y, c_uint16, "input_y", width * height, (height, width)),
        room(reference, c_uint16, "reference", width * height, (height, width)),
    )
    pels: int = made.pels
    return pels
