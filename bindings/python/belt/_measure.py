"""How a load moved between two frames, and through a clip."""

from __future__ import annotations

import os
from collections import deque
from concurrent.futures import Future, ThreadPoolExecutor
from typing import Any, Deque, Iterable, Iterator, Optional

from ._asked import Asked, TypeName, asked_of
from ._by_class import Set
from ._by_library import by_library
from ._by_tool import by_tool
from ._lend import whole
from ._measurement import Measurement
from ._pictures import Picture, alike, depth, picture
from ._refusal import Refusal
from ._sizes import sample_count


def measure(
    first: Any,
    second: Any,
    *,
    type: TypeName = None,
    trim: bool = True,
    classes: Any = None,
    set: Optional[Set] = None,
    robust: bool = True,
    bits: Optional[int] = None,
) -> Measurement:
    """How the load moved from a first frame to a second, later one.

    A frame is a two-dimensional buffer of 8 or 16 bits, such as a numpy array; crops and views are copied. bits says how
    many of 16 bits are used; else it is the least that both frames need. Where the tool `belt` is installed it says what
    was measured, by the blocks that can tell their motion; without it, or if robust is false, it is the library's election.
    A type ('translation', 'rotzoom', 'affine') is fitted by the library, after trimming unless trim is false. classes has a
    class for each 16×16 block, row by row, and set names those that count.

    Refuses 1, 2, 4, 19, and with a type 15 and 6; what the tool says otherwise is a ToolError.

    >>> import belt
    >>> from array import array
    >>> first, second = array("H", bytes(2 * 96 * 80)), array("H", bytes(2 * 96 * 80))
    >>> pels = belt.make_practice_planes(1, 96, 80, 4, -6, first, second)
    >>> frames = [memoryview(plane).cast("B").cast("H", (80, 96)) for plane in (first, second)]
    >>> belt.measure(*frames, type="translation").motion
    Motion(u=-6.0, v=4.0)
    """
    asked = asked_of(type, trim, classes, set, robust, bits)
    return _measured(picture(first, "first"), picture(second, "second"), asked)


def track(
    frames: Iterable[Any],
    *,
    type: TypeName = None,
    trim: bool = True,
    classes: Any = None,
    set: Optional[Set] = None,
    robust: bool = True,
    bits: Optional[int] = None,
    threads: Optional[int] = None,
) -> Iterator[Measurement]:
    """How the load moved from each frame of a clip to the next, one Measurement for each pair, in their order.

    The frames are taken as they are needed, and copied, so that one buffer may serve them all. So many pairs are measured
    at once as there are processors; with threads=1 each answer comes before the next frame is asked for.

    >>> import belt
    >>> from array import array
    >>> first, second = array("H", bytes(2 * 96 * 80)), array("H", bytes(2 * 96 * 80))
    >>> pels = belt.make_practice_planes(1, 96, 80, 4, -6, first, second)
    >>> frames = [memoryview(plane).cast("B").cast("H", (80, 96)) for plane in (first, second, first)]
    >>> [seen.motion.u for seen in belt.track(frames, type="translation")]
    [-6.0, 6.0]
    """
    asked = asked_of(type, trim, classes, set, robust, bits)
    count = (os.cpu_count() or 1) if threads is None else whole(threads, "threads", 1, 4096)
    return _tracked(frames, asked, count)


def _tracked(frames: Iterable[Any], asked: Asked, threads: int) -> Iterator[Measurement]:
    """In order, with as many pairs under way as there are threads."""
    waiting: Deque[Future[Measurement]] = deque()
    with ThreadPoolExecutor(threads) as pool:
        try:
            before: Optional[Picture] = None
            for number, frame in enumerate(frames):
                after = picture(frame, f"frame {number}")
                if before is not None:
                    waiting.append(pool.submit(_measured, before, after, asked))
                before = after
                if len(waiting) == threads:
                    yield waiting.popleft().result()
            while waiting:
                yield waiting.popleft().result()
        finally:
            for future in waiting:
                future.cancel()


def _measured(first: Picture, second: Picture, asked: Asked) -> Measurement:
    alike(first, second)
    samples = sample_count(first.width, first.height)
    classes = bytes(samples) if asked.classes is None else asked.classes
    if len(classes) != samples:
        raise Refusal(2, "classes", len(classes), samples)
    if asked.tool is not None:
        return by_tool(first, second, asked, asked.tool, depth(first, second, asked.bits), classes)
    if asked.bits is not None:
        # the library takes pels as they are
        depth(first, second, asked.bits)
    return by_library(first, second, asked, classes)
