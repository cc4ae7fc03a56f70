"""A pair of frames by the tool: what it says, with its samples."""

from __future__ import annotations

import json
import math
from array import array
from typing import Any, Optional

from . import _tool
from ._asked import Asked
from ._blocks import read_both
from ._measurement import Measurement, Six, Warned
from ._model import StoredModel
from ._pictures import Picture, y4m
from ._sizes import ALL_CLASSES, CLASSES, IDENTITY, ROTZOOM, TRANSLATION, TYPES


def by_tool(first: Picture, second: Picture, asked: Asked, tool: str, bits: int, classes: bytes) -> Measurement:
    """What the tool says, with its samples."""
    words = ["measure", "{clip}#0", "{clip}#1", "--json", "--blocks", "-"]
    files = [("clip", y4m((first, second), bits))]
    if asked.gm_type:
        words += ["--type", TYPES[asked.gm_type]] + (["--trim"] if asked.trim else [])
    if asked.classes is not None:
        words += ["--classes", "{classes}"]
        files.append(("classes", " ".join(map(str, classes)).encode()))
    if asked.set != ALL_CLASSES:
        words += ["--set", ",".join(str(kind) for kind in range(len(CLASSES)) if asked.set >> kind & 1)]
    blocks, said = _tool.run(tool, words, files)
    found = json.loads(said)
    held, kinds = array("I", bytes(4 * len(classes))), bytearray(len(classes))
    read_both(blocks, held, kinds)
    measured, stored, header = found["measured"], found["stored"], found["header"]
    return Measurement(
        status=found["status"],
        how=found["how"],
        by="tool",
        width=first.width,
        height=first.height,
        type=measured["type"],
        numbers=numbers_of(measured, first.width, first.height),
        stored_type=TYPES.index(stored["type"]),
        stored=StoredModel(stored["numbers"]),
        stored_score=stored["score_square_pels"],
        agree=found["agree"],
        usable=found["usable"],
        blocks=found["blocks"],
        within=found["within_pels"],
        predicted=found["predicted"],
        warnings=tuple(Warned(warning["name"], warning["text"]) for warning in found["warnings"]),
        header=bytes.fromhex(header["bytes"]),
        header_bits=header["bits"],
        words=held,
        classes=bytes(kinds),
    )


def numbers_of(measured: Any, width: int, height: int) -> Optional[Six]:
    """The six numbers of a model that is told by its motion at the first pel and in the middle, its zoom and its turn. The
    latter are those of (m2 + m5) / 2 and (m4 − m3) / 2, so four equations are left for four numbers."""
    if measured["type"] is None:
        return None
    u, v = measured["first_pel_right"], measured["first_pel_down"]
    if measured["type"] == TYPES[TRANSLATION] or measured["type"] == TYPES[IDENTITY]:
        return (u, v, 1.0, 0.0, 0.0, 1.0)
    turn = math.radians(measured["angle_degrees"])
    along, across = measured["zoom"] * math.cos(turn), measured["zoom"] * math.sin(turn)
    if measured["type"] == TYPES[ROTZOOM]:
        return (u, v, along, -across, across, along)
    x, y = (width - 1) / 2, (height - 1) / 2
    # with a = m2 − 1 and b = m3: a·x + b·y is the middle's u less the first pel's; m4 = 2 across + b and
    # m5 − 1 = 2 (along − 1) − a in the equation of v give b·x − a·y
    right = measured["right_pels"] - u
    down = measured["down_pels"] - v - 2 * across * x - 2 * (along - 1) * y
    square = x * x + y * y
    a, b = (right * x - down * y) / square, (right * y + down * x) / square
    return (u, v, 1 + a, b, 2 * across + b, 1 + 2 * (along - 1) - a)
