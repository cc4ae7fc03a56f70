"""Frames as they come: two-dimensional buffers of 8 or 16 bits, copied, with the sides of their shape."""

from __future__ import annotations

import sys
from array import array
from typing import Any, NamedTuple, Optional, Tuple

from ._lend import shape_of, whole
from ._refusal import Refusal
from ._sizes import MOST_SIDE


class Picture(NamedTuple):
    """A frame's sides, its pels row by row in the machine's order, and the bytes of a pel."""

    width: int
    height: int
    pels: bytes
    pel_bytes: int

    def plane(self) -> array[int]:
        """Its pels in 16 bits each."""
        if self.pel_bytes == 2:
            return array("H", self.pels)
        return array("H", memoryview(self.pels).tolist())

    def bits(self) -> int:
        """The least depth that holds every pel, 8 or more."""
        return 8 if self.pel_bytes == 1 else max(8, max(self.plane()).bit_length())

    def is_flat(self) -> bool:
        """Whether every pel is the same."""
        return self.pels == self.pels[: self.pel_bytes] * (self.width * self.height)


def picture(values: Any, name: str) -> Picture:
    """A copy of a frame; views and crops are laid out row by row."""
    try:
        view = memoryview(values)
    except TypeError:
        kind = type(values).__name__
        raise TypeError(f"{name}: a two-dimensional buffer is wanted, such as a numpy array, not {kind}") from None
    shape = shape_of(view)
    if len(shape) != 2:
        colours = ": of colours take the brightness first" if len(shape) == 3 else ""
        raise ValueError(f"{name}: its shape is {shape}, and rows and columns are wanted{colours}")
    other_order = view.format[:1] == (">" if sys.byteorder == "little" else "<")
    if view.format.lstrip("@=<>") not in ("B", "H"):
        raise TypeError(f"{name}: pels of 8 or 16 bits without sign are wanted (uint8, uint16), not {view.format!r}")
    height, width = shape
    if 0 in shape:
        raise ValueError(f"{name}: its shape is {shape}: there is no pel")
    if max(shape) > MOST_SIDE:
        raise Refusal(1)
    pels = view.tobytes()
    if other_order and view.itemsize == 2:
        swapped = array("H", pels)
        swapped.byteswap()
        pels = swapped.tobytes()
    return Picture(width, height, pels, view.itemsize)


def alike(first: Picture, second: Picture) -> None:
    """Two frames of a pair have the same sides and the same depth."""
    if (first.width, first.height) != (second.width, second.height):
        sides = f"second has {second.width}×{second.height} pels, and first {first.width}×{first.height}"
        raise ValueError(f"{sides}: both must have the same")
    if first.pel_bytes != second.pel_bytes:
        raise TypeError(f"second has pels of {8 * second.pel_bytes} bits, and first of {8 * first.pel_bytes}")


def depth(first: Picture, second: Picture, bits: Optional[int]) -> int:
    """The bits of a pel: what is said, or the least that hold both frames."""
    least = max(first.bits(), second.bits())
    if bits is None:
        return least
    said = whole(bits, "bits", 8, 8 * first.pel_bytes)
    if said < least:
        raise ValueError(f"bits: {said} are said, and a pel has {least}")
    return said


def y4m(pair: Tuple[Picture, Picture], bits: int) -> bytes:
    """Two frames as a clip for the tool, whose pels have so many bits."""
    first = pair[0]
    space = "mono" if bits == 8 else f"mono{bits}"
    clip = f"YUV4MPEG2 W{first.width} H{first.height} F1:1 Ip C{space}\n".encode()
    for frame in pair:
        pels = frame.pels
        if bits == 8 and frame.pel_bytes == 2:
            pels = bytes(frame.plane().tolist())
        elif sys.byteorder == "big" and frame.pel_bytes == 2:
            swapped = frame.plane()
            swapped.byteswap()
            pels = swapped.tobytes()
        clip += b"FRAME\n" + pels
    return clip
