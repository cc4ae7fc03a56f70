"""Motion, samples and models, in pels: plain code, not proved."""

from __future__ import annotations

import math
from typing import Any, Iterable, NamedTuple, Tuple

from ._sizes import MOST_EIGHTHS, TRANSLATION

_ONE = 65536


class Motion(NamedTuple):
    """In pels, from the input to the reference: u to the right, v down.

    With the earlier frame as input it is the load's own motion; with the later one it is the negative
    (Model.moved_since_reference).

    >>> import belt
    >>> belt.Model((131072, -65536, 65536, 0, 0, 65536)).shift
    Motion(u=2.0, v=-1.0)
    """

    u: float
    v: float


class Sample(NamedTuple):
    """What a sample word says ('Sample word'): block row and column, centre and motion in pels, and its class bits, which
    are its class in a word of read_frame and 0 where the classes stand beside the words.

    >>> import belt
    >>> belt.sample_of(0x0856BBCF).u
    2.5
    """

    row: int
    column: int
    x: float
    y: float
    u: float
    v: float
    class_bits: int


def sample_of(word: int) -> Sample:
    """The sample of a word.

    >>> import belt
    >>> belt.sample_of(0x0856BBCF)
    Sample(row=2, column=5, x=87.5, y=39.5, u=2.5, v=-1.0, class_bits=3)
    """
    row, column = word >> 26, word >> 20 & 63
    v, u = (word >> 11 & 511) - MOST_EIGHTHS, (word >> 2 & 511) - MOST_EIGHTHS
    return Sample(row, column, 16 * column + 7.5, 16 * row + 7.5, u / 8, v / 8, word & 3)


class _Six(Tuple[int, ...]):
    """Six numbers; of two kinds that are never equal."""

    def __new__(cls, numbers: Iterable[int]) -> Any:
        given: Any = tuple(numbers)
        six = super().__new__(cls, given)
        if len(six) != 6:
            raise ValueError(f"a model has 6 numbers, not {len(six)}")
        return six

    def __repr__(self) -> str:
        return f"{type(self).__name__}({tuple(self)})"

    def __eq__(self, other: object) -> bool:
        return type(self) is type(other) and super().__eq__(other)

    def __ne__(self, other: object) -> bool:
        return not self == other

    def __hash__(self) -> int:
        return hash((type(self).__name__, tuple(self)))

    def _exchanged(self, gm_type: int) -> Tuple[int, ...]:
        return (self[1], self[0]) + tuple(self[2:]) if gm_type == TRANSLATION else tuple(self)


class Model(_Six):
    """Six numbers at 16 fraction bits, x first ('Model'): the order of fits, grid and score.

    >>> import belt
    >>> turned = belt.Model((0, 0, 65526, -1144, 1144, 65526))
    >>> round(turned.degrees, 3), round(turned.zoom, 5)
    (1.0, 1.0)
    """

    def row_first(self, gm_type: int) -> StoredModel:
        """The same model as headers have it, for its type.

        >>> import belt
        >>> belt.Model((131072, 65536, 65536, 0, 0, 65536)).row_first(belt.TRANSLATION)
        StoredModel((65536, 131072, 65536, 0, 0, 65536))
        """
        return StoredModel(self._exchanged(gm_type))

    def motion_at(self, x: float, y: float) -> Motion:
        """Its motion at a place, in pels; the origin is the centre of a plane's first pel.

        >>> import belt
        >>> belt.Model((0, 0, 65536 + 6554, 0, 0, 65536)).motion_at(100.0, 7.5)
        Motion(u=10.0006103515625, v=0.0)
        """
        m0, m1, m2, m3, m4, m5 = (number / _ONE for number in self)
        return Motion((m2 - 1) * x + m3 * y + m0, m4 * x + (m5 - 1) * y + m1)

    def moved_since_reference(self, x: float, y: float) -> Motion:
        """How the load moved since the reference was taken, at a place: the negative of the model's motion there. It is for
        jobs whose reference is the earlier frame; where the input is, the model's motion is the load's.

        >>> import belt
        >>> belt.Model((131072, -65536, 65536, 0, 0, 65536)).moved_since_reference(7.5, 7.5)
        Motion(u=-2.0, v=1.0)
        """
        motion = self.motion_at(x, y)
        # no -0.0
        return Motion(0.0 - motion.u, 0.0 - motion.v)

    @property
    def shift(self) -> Motion:
        """Its motion at the origin; of a translation, anywhere."""
        return self.motion_at(0.0, 0.0)

    @property
    def zoom(self) -> float:
        """Its zoom; of an affine model, that of the rotation-zoom nearest to it."""
        return math.hypot(self[2] + self[5], self[4] - self[3]) / (2 * _ONE)

    @property
    def degrees(self) -> float:
        """Its turn, from x towards y (clockwise on a screen); of an affine model, as for zoom."""
        return math.degrees(math.atan2(self[4] - self[3], self[2] + self[5]))

    def agreeing(self, words: Iterable[int], pels: float) -> int:
        """How many words it explains: their motion is at most so many pels from its own at their centre. Motion beyond
        27.875 pels isn't found and isn't refused; then few words agree.

        >>> import belt
        >>> belt.Model(belt.STILL).agreeing([0x0006FB7C, 0x0856BBCF], 0.25)
        1
        """
        count = 0
        for word in words:
            sample = sample_of(word)
            own = self.motion_at(sample.x, sample.y)
            count += math.hypot(sample.u - own.u, sample.v - own.v) <= pels
        return count


class StoredModel(_Six):
    """Six numbers as headers, priors and reports have them: of a translation the row's motion is first.

    >>> import belt
    >>> belt.StoredModel((65536, 131072, 65536, 0, 0, 65536)).x_first(belt.TRANSLATION).shift
    Motion(u=2.0, v=1.0)
    """

    def x_first(self, gm_type: int) -> Model:
        """The same model in the order of the fits, for its type.

        >>> import belt
        >>> belt.StoredModel((1, 2, 3, 4, 5, 6)).x_first(belt.TRANSLATION)
        Model((2, 1, 3, 4, 5, 6))
        """
        return Model(self._exchanged(gm_type))


STILL = (0, 0, _ONE, 0, 0, _ONE)
IDENTITIES: Tuple[StoredModel, ...] = (StoredModel(STILL),) * 7
