"""A clip's summary, as `belt track` gives it: a row of a table for each clip."""

from __future__ import annotations

import json
import math
import os
import socket
import time
from typing import Any, Dict, List, Optional, Sequence, Union

from . import _tool
from ._refusal import Refusal

Cell = Union[str, int, float, None]
Row = Dict[str, Cell]

_STATUSES = ("measured", "still", "unexplained", "flat", "no-blocks", "bad")
COLUMNS = (
    ("clip", "error", "pairs")
    + tuple(status.replace("-", "_") for status in _STATUSES)
    + ("warned", "unit", "speed_median", "speed_5", "speed_95", "path_pels", "right_pels", "down_pels", "worst")
    + ("seconds", "worker")
)


def row_of(clip: str, path: str, options: Sequence[str]) -> Row:
    """The row of a clip; what is wrong with it, the machine or the tool stands in the row. It runs where a worker is."""
    begun = time.monotonic()
    row: Row = {"clip": clip, "worker": f"{socket.gethostname()}:{os.getpid()}"}
    try:
        row.update(summary(_pairs(path, options)))
    except (_tool.ToolError, Refusal, OSError, ValueError) as error:
        row["error"] = str(error)
    row["seconds"] = round(time.monotonic() - begun, 3)
    return row


def _pairs(path: str, options: Sequence[str]) -> List[Any]:
    """What the tool says of each pair."""
    tool = _tool.find()
    if tool is None:
        raise _tool.ToolError("the tool belt isn't installed on this worker")
    out, _ = _tool.run(tool, ["track", "--json", "--quiet", "--threads", "1", *options, "--", path])
    return [json.loads(line) for line in out.splitlines()]


def summary(pairs: Sequence[Any]) -> Row:
    """Pairs by their status, speeds, the way, and the pair that is worst."""
    row: Row = {"pairs": len(pairs)}
    for status in _STATUSES:
        row[status.replace("-", "_")] = sum(pair["status"] == status for pair in pairs)
    row["warned"] = sum(_badness(pair) is not None for pair in pairs)
    speeds, before = [], 0.0
    length = right = down = 0.0
    in_mm = bool(pairs) and "speed_mm_s" in pairs[0]
    timed = bool(pairs) and pairs[0]["time_s"] is not None
    for pair in pairs:
        seconds = pair["time_s"] - before if timed else 1.0
        before = pair["time_s"] if timed else 0.0
        if pair["status"] not in ("measured", "still"):
            continue
        moved = pair["status"] == "measured"
        u, v = (pair["right_pels"], pair["down_pels"]) if moved else (0.0, 0.0)
        length, right, down = length + math.hypot(u, v), right + u, down + v
        in_millimetres = in_mm and pair["speed_mm_s"] is not None
        speeds.append(pair["speed_mm_s"] if in_millimetres else math.hypot(u, v) / seconds)
    row["unit"] = "mm/s" if in_mm and timed else "pels/s" if timed else "pels a pair"
    for name, share in (("speed_median", 0.5), ("speed_5", 0.05), ("speed_95", 0.95)):
        row[name] = _quantile(speeds, share)
    row.update(path_pels=round(length, 6), right_pels=round(right, 6), down_pels=round(down, 6), worst=_worst(pairs))
    return row


def _quantile(values: Sequence[float], share: float) -> Optional[float]:
    """The value below which a share lies: of those that were measured, the nearest."""
    ordered = sorted(values)
    return round(ordered[int(share * (len(ordered) - 1) + 0.5)], 6) if ordered else None


def _badness(pair: Any) -> Optional[float]:
    """How little a pair says: bad is worse than unexplained, and that than a warning; among these by the blocks that
    agree. None if nothing is to be said."""
    if pair["status"] == "bad":
        return 4.0
    share = pair["agree"] / max(pair["usable"], 1)
    if pair["status"] in ("measured", "still"):
        return 1.0 - share if pair["warnings"] else None
    return 3.0 - share if pair["warnings"] or pair["status"] == "unexplained" else None


def _worst(pairs: Sequence[Any]) -> Optional[str]:
    troubled = [(badness, pair) for pair in pairs for badness in [_badness(pair)] if badness is not None]
    if not troubled:
        return None
    _, worst = max(troubled, key=lambda both: both[0])
    why = worst["reason"] or (worst["warnings"][0]["name"] if worst["warnings"] else worst["status"])
    return f"{worst['first']} to {worst['second']}: {why}"
