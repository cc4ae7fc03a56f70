"""A measurement drawn by matplotlib."""

from __future__ import annotations

import textwrap
from typing import TYPE_CHECKING, Any

from . import _words
from ._sizes import BLOCK_SIDE

if TYPE_CHECKING:
    from ._measurement import Measurement

# Colours that are told apart by everyone: blue agrees, orange doesn't.
_AGREES, _OFF = "#0072B2", "#D55E00"
# Short arrows are drawn longer by one of these, so that the longest is no longer than a block.
_TIMES = (10, 5, 2)
# The width of a letter, of a font's size.
_LETTER = 0.55


def arrows(measured: Measurement, ax: Any, picture: Any) -> Any:
    """The motion of each block as an arrow from its middle."""
    import matplotlib.pyplot

    if ax is None:
        ax = matplotlib.pyplot.subplots()[1]
    if picture is not None:
        ax.imshow(picture, cmap="gray", interpolation="nearest")
    ax.set_xlim(-0.5, measured.width - 0.5)
    ax.set_ylim(measured.height - 0.5, -0.5)
    ax.set_aspect("equal")
    ax.set_xlabel("pels to the right")
    ax.set_ylabel("pels down")
    _title(ax, _words.sentence(measured))
    samples = measured.samples
    if not len(samples):
        return ax
    longest = max(float(abs(samples["u"]).max()), float(abs(samples["v"]).max()))
    times = next((times for times in _TIMES if 0 < times * longest <= BLOCK_SIDE), 1)
    agrees = samples["off"] <= measured.within
    for kind, colour, name in ((agrees, _AGREES, "agree"), (~agrees, _OFF, "don't agree")):
        own = samples[kind]
        if not len(own):
            continue
        shape = {"angles": "xy", "scale_units": "xy", "scale": 1 / times, "width": 0.005, "minlength": 0}
        ax.quiver(own["x"], own["y"], own["u"], own["v"], color=colour, label=f"{len(own)} {name}", **shape)
        ax.plot(own["x"], own["y"], ".", color=colour, markersize=2)
    ax.legend(loc="lower left", fontsize="small", title=f"arrows × {times}" if times > 1 else None)
    return ax


def _title(ax: Any, sentence: str) -> None:
    """A title no wider than the axes."""
    title = ax.set_title(sentence[0].upper() + sentence[1:], fontsize="medium")
    letter = _LETTER * title.get_fontsize() * ax.figure.dpi / 72
    width = max(20, int(ax.get_window_extent().width / letter))
    title.set_text(textwrap.fill(title.get_text(), width))
