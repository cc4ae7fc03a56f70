"""Frames that are drawn, so that their motion is known, and where the tests find the tool."""

import math
import os
from array import array
from pathlib import Path

TOP = Path(__file__).resolve().parents[3]
WAVES = [
    (2 * math.pi / (9 + 4.3 * k) * math.cos(2.4 * k), 2 * math.pi / (9 + 4.3 * k) * math.sin(2.4 * k), 1.7 * k * k)
    for k in range(12)
]


def tool():
    """The tool that the tests measure with: BELT_TOOL, else the repository's own; None if there is none."""
    named = os.environ.get("BELT_TOOL")
    own = [TOP / f"tools/belt/target/{profile}/belt" for profile in ("release", "debug")]
    return named or next((str(path) for path in own if path.exists()), None)


def texture(x, y):
    """From −1 to 1, without an edge and without a period."""
    return sum(math.sin(across * x + down * y + phase) for across, down, phase in WAVES) / len(WAVES)


def frame(width, height, model=(0, 0, 1, 0, 0, 1), most=255, is_own=None):
    """What is seen after the texture moved by a model, x first in pels; with is_own, of its own pels alone."""
    m0, m1, m2, m3, m4, m5 = model
    area = m2 * m5 - m3 * m4
    values = []
    for y in range(height):
        for x in range(width):
            u, v = (0.0, 0.0) if is_own and not is_own(x, y) else (m0, m1)
            a, b = x - u, y - v
            value = texture((m5 * a - m3 * b) / area, (m2 * b - m4 * a) / area)
            values.append(round(most * (0.5 + 0.45 * value)))
    return values


def pan(u, v):
    return (u, v, 1, 0, 0, 1)


def view(values, width, height, code="B"):
    """A list as a buffer of rows."""
    return memoryview(array(code, values)).cast("B").cast(code, (height, width))
