"""Sample blocks: stored, read, carried over to the other form, listed."""

from __future__ import annotations

import ctypes
from ctypes import c_uint8, c_uint32
from typing import Any, Callable, NamedTuple

from ._lend import Lent, answer, call, octets, room, whole, words as words_of
from ._sizes import FORM_1, FORM_2, TEXT_BYTES, block_bytes


class Frame(NamedTuple):
    """A frame's number, and how many samples it has.

    >>> import belt
    >>> belt.Frame(number=5, samples=1200).samples
    1200
    """

    number: int
    samples: int


class Block(NamedTuple):
    """A block's frame, its place in the frame and how many samples it has.

    >>> import belt
    >>> belt.Block(frame=5, ordinal=0, count=100).count
    100
    """

    frame: int
    ordinal: int
    count: int  # type: ignore[assignment]


def frame_number(frame: Any) -> int:
    return whole(frame, "frame", 0, 65535)


def write_frame(frame: int, words: Any, classes: Any, blocks: Any) -> int:
    """Stores a frame's words, with class bits zero, and a class for each in form 2 ('Sample block'); answers how many
    blocks. Refuses 1, 2, 4, 12, 3, 17.

    >>> import belt
    >>> block = bytearray(belt.BLOCK_BYTES)
    >>> belt.write_frame(5, [0x0006FB7C], [belt.FILM], block)
    1
    >>> print(belt.list_block(block), end="")
    frame 5 block 0 count 1
    0 0 0 0 4
    """
    lent = words_of(words)
    written: int = call(
        "belt_write_frame",
        frame_number(frame),
        lent,
        octets(classes, "classes", lent.total),
        room(blocks, c_uint8, "blocks", block_bytes(lent.total, FORM_2)),
    ).blocks
    return written


def _total(data: Lent) -> Callable[[], int]:
    """The samples of a frame whose blocks are right, as its first block says."""
    return lambda: int(data.elements[4]) << 8 | int(data.elements[5])


def read_both(data: Any, words: Any, classes: Any) -> Frame:
    """Reads the frame of either form that the bytes begin with ('Sample block'): words, with class bits zero, and a class
    for each. Refuses 9, 10, 11, 17, 3.

    >>> import belt
    >>> from array import array
    >>> block, words, classes = bytearray(belt.BLOCK_BYTES), array("I", [0]), bytearray(1)
    >>> blocks = belt.write_frame(5, [0x0006FB7C], [belt.FILM], block)
    >>> belt.read_both(block, words, classes)
    Frame(number=5, samples=1)
    >>> words[0] == 0x0006FB7C, classes[0] == belt.FILM
    (True, True)
    """
    held = octets(data, "data")
    read = call(
        "belt_read_both",
        held,
        room(words, c_uint32, "words", _total(held)),
        room(classes, c_uint8, "classes", _total(held)),
    )
    return Frame(read.frame, read.samples)


def read_frame(data: Any, words: Any) -> Frame:
    """Reads the frame of form 1 that the bytes begin with ('Sample block'): words with their classes in them. Refuses 9,
    10, 11 (form 2 too), 17, 3.

    >>> import belt
    >>> from array import array
    >>> belt.read_frame(b"", array("I"))
    Frame(number=0, samples=0)
    """
    held = octets(data, "data")
    read = call("belt_read_frame", held, room(words, c_uint32, "words", _total(held)))
    return Frame(read.frame, read.samples)


def _converted(name: str, data: Any, blocks: Any, form: int) -> int:
    held = octets(data, "data")
    written: int = call(name, held, room(blocks, c_uint8, "blocks", lambda: block_bytes(_total(held)(), form))).blocks
    return written


def to_form1(data: Any, blocks: Any) -> int:
    """Carries a frame of form 2 over to form 1 ('Sample block'); answers how many blocks. Refuses 9, 10, 11 (form 1 too),
    17, 13, 3.

    >>> import belt
    >>> new, old = bytearray(belt.BLOCK_BYTES), bytearray(belt.BLOCK_BYTES)
    >>> blocks = belt.write_frame(5, [0x0006FB7C], [belt.METAL], new)
    >>> belt.to_form1(new, old), old[2]
    (1, 1)
    """
    return _converted("belt_to_form1", data, blocks, FORM_1)


def to_form2(data: Any, blocks: Any) -> int:
    """Carries a frame of form 1 over to form 2 ('Sample block'); answers how many blocks. Refuses 9, 10, 11 (form 2 too),
    17, 3.

    >>> import belt
    >>> belt.to_form2(b"", bytearray())
    0
    """
    return _converted("belt_to_form2", data, blocks, FORM_2)


def judge_block(data: Any) -> Block:
    """Judges one block of either form without its neighbours ('Sample block'). Refuses 9, 10, 11.

    >>> import belt
    >>> block = bytearray(belt.BLOCK_BYTES)
    >>> blocks = belt.write_frame(5, [0x0006FB7C], [belt.FILM], block)
    >>> belt.judge_block(block)
    Block(frame=5, ordinal=0, count=1)
    """
    read = call("belt_judge_block", octets(data, "data"))
    return Block(read.frame, read.ordinal, read.count)


def list_block(data: Any) -> str:
    """The text of a block ('Job'), or 'refused' and the number. It refuses nothing.

    >>> import belt
    >>> belt.list_block(b"")
    'refused 9\\n'
    """
    text = (c_uint8 * TEXT_BYTES)()
    length = answer("belt_list_block", octets(data, "data"), ctypes.byref(text))
    return bytes(text[:length]).decode("ascii")
