"""What was measured, in words and for notebooks."""

from __future__ import annotations

import html
from typing import TYPE_CHECKING, List, Tuple

from ._sizes import TYPES

if TYPE_CHECKING:
    from ._measurement import Measurement

# Below so many pels a motion isn't told.
_LEAST = 0.0005


def _length(pels: float) -> str:
    text = f"{pels:.3f}".rstrip("0").rstrip(".")
    return f"{text} pel" if text == "1" else f"{text} pels"


def motion(u: float, v: float) -> str:
    """A motion with its directions."""
    parts = []
    for far, back, on in ((u, "left", "right"), (v, "up", "down")):
        if abs(far) >= _LEAST:
            parts.append(f"{_length(abs(far))} {back if far < 0 else on}")
    return " and ".join(parts) or "0 pels"


def sentence(measured: Measurement) -> str:
    """What happened, without a full stop."""
    if measured.status == "no-blocks":
        return "nothing was measured: no block is left to measure"
    if measured.status == "flat":
        return "nothing was measured: a picture is flat, every pel is the same"
    if measured.motion is None or measured.zoom is None or measured.degrees is None:
        return "it isn't known how it moved: no motion explains the blocks"
    if measured.status == "still":
        return "it stood still"
    parts = [f"moved {motion(*measured.motion)}"]
    change = 100 * (measured.zoom - 1)
    if abs(change) >= 0.005:
        parts.append(f"became {abs(change):.2f} % {'larger' if change > 0 else 'smaller'}")
    if abs(measured.degrees) >= _LEAST:
        parts.append(f"turned {abs(measured.degrees):.3f}° {'clockwise' if measured.degrees > 0 else 'anticlockwise'}")
    return "it " + (f"{', '.join(parts[:-1])} and {parts[-1]}" if len(parts) > 1 else parts[0])


def agreement(measured: Measurement) -> str:
    share = f"{100 * measured.share:.0f} %"
    return f"{measured.agree} of {measured.usable} blocks ({share}) within {_length(measured.within)}"


def rows(measured: Measurement) -> List[Tuple[str, str]]:
    """Names and values, for a table."""
    told = [("status", measured.status + (f", {measured.how}" if measured.how else ""))]
    if measured.motion is not None:
        told.append(("motion", f"{motion(*measured.motion)}, in the middle"))
    if measured.numbers is not None:
        told.append((f"fitted {measured.type}", " ".join(f"{number:.6g}" for number in measured.numbers)))
    stored = " ".join(map(str, measured.stored))
    told.append((f"stored {TYPES[measured.stored_type]}", stored))
    told.append(("agreement", agreement(measured)))
    told += [("warning", f"{warning.name}: {warning.text}") for warning in measured.warnings]
    return told


def table(measured: Measurement) -> str:
    """An HTML table."""
    caption = html.escape(sentence(measured))
    cells = "".join(
        f'<tr><th style="text-align:left">{html.escape(name)}</th>'
        f'<td style="text-align:left">{html.escape(value)}</td></tr>'
        for name, value in rows(measured)
    )
    sides = f"{measured.width}×{measured.height} pels"
    return f"<table><caption>{caption[0].upper() + caption[1:]} ({sides})</caption>{cells}</table>"
