"""A pair of frames by the library alone: its election, or its fit of a type."""

from __future__ import annotations

import math
from array import array

from ._asked import Asked
from ._by_class import fit_by_class, fit_trimmed_by_class
from ._job import Settings, job
from ._measurement import Measurement, Six, Warned
from ._model import Motion, sample_of
from ._pictures import Picture
from ._sizes import IDENTITY, ROTZOOM, TRANSLATION, TYPES, Buffers

# A block agrees with a model within so many pels.
_WITHIN = 0.25
# Below this energy, in square pels, the election takes nothing for motion.
_LEAST_ENERGY = 0.25
# The share of blocks that must agree with a type that is asked for, and the motion below which it stands still.
_FEW, _STILL = 0.5, 1 / 16
_FEW_AGREE = Warned(
    "few-agree", "fewer than half of the blocks agree: it moved otherwise, or not as one piece, or too far"
)


def by_library(first: Picture, second: Picture, asked: Asked, classes: bytes) -> Measurement:
    """The library's own job on the frames as they are."""
    width, height = first.width, first.height
    buffers = Buffers(width, height)
    kind = asked.gm_type or None
    settings = Settings(1, gm_type=kind, trim=int(asked.trim), set=asked.set)
    report = job(first.plane(), second.plane(), width, height, settings, classes, buffers)
    words = array("I", buffers.words)
    usable = sum(asked.set >> kind & 1 for kind in classes)
    gm_type = report.types[0]
    numbers = _fitted(asked, gm_type, words, classes)
    agree = _agreeing(numbers, asked.set, words, classes)
    if usable == 0:
        status = "no-blocks"
    elif first.is_flat() or second.is_flat():
        status = "flat"
    elif asked.gm_type:
        status = _status_of_fit(numbers, agree, usable, width, height)
    else:
        status = _status_of_election(gm_type, report.score)
    known = status in ("measured", "still")
    how = ("trimmed" if asked.trim else "plain") if asked.gm_type else "elected"
    is_doubtful = status == "unexplained" or (known and agree < _FEW * usable)
    return Measurement(
        status=status,
        how=how if known else None,
        by="library",
        width=width,
        height=height,
        type=TYPES[gm_type] if known else None,
        numbers=numbers if known else None,
        stored_type=gm_type,
        stored=report.models[0],
        stored_score=report.score,
        agree=agree,
        usable=usable,
        blocks=len(words),
        within=_WITHIN,
        predicted=None,
        warnings=(_FEW_AGREE,) if is_doubtful else (),
        header=bytes(buffers.header[: -(-report.bits // 8)]),
        header_bits=report.bits,
        words=words,
        classes=classes,
    )


def _fitted(asked: Asked, gm_type: int, words: array[int], classes: bytes) -> Six:
    """The model that was fitted or elected, ahead of the grid."""
    if gm_type == IDENTITY:
        return (0.0, 0.0, 1.0, 0.0, 0.0, 1.0)
    if asked.gm_type and not asked.trim:
        fitted = fit_by_class(asked.set, gm_type, words, classes)
    else:
        fitted = fit_trimmed_by_class(asked.set, gm_type, words, classes).fitted
    m0, m1, m2, m3, m4, m5 = fitted.numbers
    if gm_type == TRANSLATION:
        return (m0, m1, 1.0, 0.0, 0.0, 1.0)
    return (m0, m1, m2, m3, -m3, m2) if gm_type == ROTZOOM else (m0, m1, m2, m3, m4, m5)


def _agreeing(numbers: Six, named: int, words: array[int], classes: bytes) -> int:
    """How many of the blocks named move as the model says."""
    m0, m1, m2, m3, m4, m5 = numbers
    count = 0
    for word, kind in zip(words, classes):
        x, y, u, v = sample_of(word)[2:6]
        across, down = (m2 - 1) * x + m3 * y + m0 - u, m4 * x + (m5 - 1) * y + m1 - v
        count += bool(named >> kind & 1) and math.hypot(across, down) <= _WITHIN
    return count


def _status_of_fit(numbers: Six, agree: int, usable: int, width: int, height: int) -> str:
    """Of a type that was asked for: it counts if half of the blocks agree, and stands still if it hardly moves anything."""
    if agree < _FEW * usable:
        return "unexplained"
    m0, m1, m2, m3, m4, m5 = numbers
    x, y = (width - 1) / 2, (height - 1) / 2
    middle = Motion((m2 - 1) * x + m3 * y + m0, m4 * x + (m5 - 1) * y + m1)
    across = ((m2 - 1) ** 2 + m4**2) * (width**2 - 1) / 12
    down = (m3**2 + (m5 - 1) ** 2) * (height**2 - 1) / 12
    return "still" if math.sqrt(middle.u**2 + middle.v**2 + across + down) <= _STILL else "measured"


def _status_of_election(gm_type: int, score: float) -> str:
    """An elected identity stands still, unless there is a motion that it doesn't explain."""
    if gm_type:
        return "measured"
    return "still" if score < _LEAST_ENERGY else "unexplained"
