"""What was measured between two frames."""

from __future__ import annotations

import math
from array import array
from dataclasses import dataclass, field
from typing import TYPE_CHECKING, Any, NamedTuple, Optional, Tuple

from . import _words
from ._model import Model, Motion, StoredModel, sample_of

if TYPE_CHECKING:
    import numpy

Six = Tuple[float, float, float, float, float, float]


class Warned(NamedTuple):
    """Why an answer isn't to be trusted, or what else is to be known: a name for programs, and what to do.

    >>> import belt
    >>> belt.Warned("few-blocks", "too few blocks agree").name
    'few-blocks'
    """

    name: str
    text: str


@dataclass(frozen=True)
class Measurement:
    """How the load moved from a first frame to a second one.

    status is 'measured', 'still', 'unexplained', 'flat' or 'no-blocks'; only the first two have a motion. numbers are those
    of the fit, ahead of the grid: x first, in pels, so that a place (x, y) moves by (numbers[2] − 1)·x + numbers[3]·y +
    numbers[0] to the right and numbers[4]·x + (numbers[5] − 1)·y + numbers[1] down. stored is the model on the header's
    grid. Of the usable blocks so many agree, within so many pels.

    >>> import belt
    >>> from array import array
    >>> first, second = array("H", bytes(2 * 96 * 80)), array("H", bytes(2 * 96 * 80))
    >>> pels = belt.make_practice_planes(1, 96, 80, 4, -6, first, second)
    >>> frames = [memoryview(plane).cast("B").cast("H", (80, 96)) for plane in (first, second)]
    >>> seen = belt.measure(*frames, robust=False)
    >>> print(seen)
    it moved 6 pels left and 4 pels down; 30 of 30 blocks (100 %) within 0.25 pels
    >>> seen.status, seen.type, seen.motion, seen.stored_model.shift
    ('measured', 'translation', Motion(u=-6.0, v=4.0), Motion(u=-6.0, v=4.0))
    """

    status: str
    how: Optional[str]
    by: str
    width: int
    height: int
    type: Optional[str]
    numbers: Optional[Six]
    stored_type: int
    stored: StoredModel
    stored_score: float
    agree: int
    usable: int
    blocks: int
    within: float
    predicted: Optional[float]
    warnings: Tuple[Warned, ...]
    header: bytes = field(repr=False)
    header_bits: int = field(repr=False)
    words: array[int] = field(repr=False)
    classes: bytes = field(repr=False)

    @property
    def share(self) -> float:
        """The share of the usable blocks that agree, 0 to 1."""
        return self.agree / max(self.usable, 1)

    @property
    def stored_model(self) -> Model:
        """The stored model in the order of the fits."""
        return self.stored.x_first(self.stored_type)

    def motion_at(self, x: float, y: float) -> Optional[Motion]:
        """The motion that was measured at a place, in pels; the origin is the centre of the first pel."""
        if self.numbers is None:
            return None
        m0, m1, m2, m3, m4, m5 = self.numbers
        return Motion((m2 - 1) * x + m3 * y + m0, m4 * x + (m5 - 1) * y + m1)

    @property
    def motion(self) -> Optional[Motion]:
        """The motion that was measured, in the middle of the frame."""
        return self.motion_at((self.width - 1) / 2, (self.height - 1) / 2)

    @property
    def zoom(self) -> Optional[float]:
        """Above 1 for a load that grew; of an affine model, that of the rotation-zoom nearest to it."""
        if self.numbers is None:
            return None
        _, _, m2, m3, m4, m5 = self.numbers
        return math.hypot(m2 + m5, m4 - m3) / 2

    @property
    def degrees(self) -> Optional[float]:
        """The turn, clockwise; of an affine model, as for zoom."""
        if self.numbers is None:
            return None
        _, _, m2, m3, m4, m5 = self.numbers
        return math.degrees(math.atan2(m4 - m3, m2 + m5))

    def off(self, word: int) -> float:
        """How far a word's motion is from what was measured, in pels; not-a-number where nothing was."""
        sample = sample_of(word)
        own = self.motion_at(sample.x, sample.y)
        return math.nan if own is None else math.hypot(sample.u - own.u, sample.v - own.v)

    @property
    def samples(self) -> numpy.ndarray[Any, Any]:
        """A row for each block: its place, its centre and motion in pels, its class, and how far it is off what was
        measured. It takes numpy."""
        import numpy

        fields = [("row", "u1"), ("column", "u1"), ("x", "f8"), ("y", "f8"), ("u", "f8"), ("v", "f8")]
        found = numpy.empty(len(self.words), dtype=fields + [("class", "u1"), ("off", "f8")])
        for place, (word, kind) in enumerate(zip(self.words, self.classes)):
            found[place] = (*sample_of(word)[:6], kind, self.off(word))
        return found

    def plot(self, ax: Any = None, *, picture: Any = None) -> Any:
        """Draws an arrow for each block, coloured by whether it agrees, over the picture if one is given; on axes of
        matplotlib, or on new ones. Gives the axes."""
        from ._plot import arrows

        return arrows(self, ax, picture)

    def __str__(self) -> str:
        told = [_words.sentence(self)]
        if self.blocks:
            told.append(_words.agreement(self))
        told += [f"warning: {warning.name}: {warning.text}" for warning in self.warnings[:1]]
        return "; ".join(told)

    def _repr_html_(self) -> str:
        return _words.table(self)
