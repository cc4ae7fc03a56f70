"""Fits, trims, elections, the grid and the score, over sample words."""

from __future__ import annotations

from typing import Any, NamedTuple, Tuple

from ._lend import call, code, fitted_numbers, model_params, params_of, signed, words as words_of
from ._library import library
from ._model import Model, StoredModel
from ._sizes import AFFINE, ROTZOOM, TRANSLATION


class Fitted(NamedTuple):
    """A fitted model: its type, 1 to 3, and two, four or six numbers, x first, zeros after them.

    >>> import belt
    >>> belt.fit_translation([0x0006FB7C])
    Fitted(gm_type=1, numbers=(0.0, 0.0, 0.0, 0.0, 0.0, 0.0))
    """

    gm_type: int
    numbers: Tuple[float, ...]


class Trimmed(NamedTuple):
    """The last fit made after trimming, and how many samples it used ('Trimming').

    >>> import belt
    >>> belt.fit_trimmed(belt.TRANSLATION, [0x0006FB7C] * 4).used
    4
    """

    fitted: Fitted
    used: int


class TrimmedModel(NamedTuple):
    """The same on the grid: a Model.

    >>> import belt
    >>> belt.quantize_trimmed(belt.TRANSLATION, 1, [0x0006FB7C] * 4).model == belt.Model(belt.STILL)
    True
    """

    model: Model
    used: int


class Elected(NamedTuple):
    """The elected type, 0 to 3, its StoredModel and the model's score over all samples, or all that a set names
    ('Election').

    >>> import belt
    >>> belt.elect(1, [0x0006FB7C] * 4).gm_type == belt.IDENTITY
    True
    """

    gm_type: int
    model: StoredModel
    score: float


class Shear(NamedTuple):
    """Whether a decoder keeps a warp, and its shear numbers at 16 fraction bits.

    >>> import belt
    >>> belt.setup_shear(belt.AFFINE, belt.STILL)
    Shear(valid=True, alpha=0, beta=0, gamma=0, delta=0)
    """

    valid: bool
    alpha: int
    beta: int
    gamma: int
    delta: int


def _fit(gm_type: int, name: str, words: Any) -> Fitted:
    return Fitted(gm_type, tuple(call(name, words_of(words)).numbers))


def fit_translation(words: Any) -> Fitted:
    """The translation that fits up to 4,096 words ('Fits and score'). Refuses 1.

    >>> import belt
    >>> belt.fit_translation([0x0006FB9C, 0x0016FB9C]).numbers[:2]
    (1.0, 0.0)
    """
    return _fit(TRANSLATION, "belt_fit_translation", words)


def fit_rotzoom(words: Any) -> Fitted:
    """The rotation-zoom that fits up to 4,096 words ('Fits and score'). Refuses 1, 6.

    >>> import belt
    >>> belt.fit_rotzoom([0x0006FB7C, 0x0016FB9C]).numbers[2]
    1.0625
    """
    return _fit(ROTZOOM, "belt_fit_rotzoom", words)


def fit_affine(words: Any) -> Fitted:
    """The affine model that fits up to 4,096 words ('Fits and score'). Refuses 1, 6.

    >>> import belt
    >>> belt.fit_affine([0x0006FB7C, 0x0016FB9C, 0x0406FB7C]).numbers[2]
    1.0625
    """
    return _fit(AFFINE, "belt_fit_affine", words)


def fit_trimmed(gm_type: int, words: Any) -> Trimmed:
    """The fit of a type after trimming ('Trimming'): words that lie far from a first fit are dropped, and the rest is fitted
    again if it is enough. Refuses 1, 4, 15, 6, 16, and 6 of the second fit; with words never 16.

    >>> import belt
    >>> still, far = 0x0006FB7C, 0x0006FB7C + (80 << 2)
    >>> belt.fit_trimmed(belt.TRANSLATION, [still] * 4 + [far])
    Trimmed(fitted=Fitted(gm_type=1, numbers=(0.0, 0.0, 0.0, 0.0, 0.0, 0.0)), used=4)
    """
    answer = call("belt_fit_trimmed", code(gm_type, "gm_type"), words_of(words))
    return Trimmed(Fitted(gm_type, tuple(answer.numbers)), answer.used)


def quantize_trimmed(gm_type: int, flag: int, words: Any) -> TrimmedModel:
    """The same on the grid of a flag, its translation fitted again to the samples used.

    >>> import belt
    >>> belt.quantize_trimmed(belt.TRANSLATION, 1, [0x0006FB9C] * 4)
    TrimmedModel(model=Model((65536, 0, 65536, 0, 0, 65536)), used=4)
    """
    codes = code(gm_type, "gm_type"), code(flag, "flag")
    answer = call("belt_quantize_trimmed", *codes, words_of(words))
    return TrimmedModel(Model(answer.params), answer.used)


def elected_of(answer: Any) -> Elected:
    return Elected(answer.gm_type, StoredModel(answer.params), answer.score)


def elect(flag: int, words: Any) -> Elected:
    """The election of a type ('Election'): each type is fitted after trimming; of those that leave at most a quarter of the
    motion's mean square, the energy, the lowest is elected, or a higher one that is clearly better. The identity if there is
    none, if the energy is below 0.25 square pels, and for fewer than 4 words. Refuses 1, 4, 16; with words never 16.

    >>> import belt
    >>> belt.elect(1, [0x0006FB9C] * 4)
    Elected(gm_type=1, model=StoredModel((0, 65536, 65536, 0, 0, 65536)), score=0.0)
    """
    return elected_of(call("belt_elect", code(flag, "flag"), words_of(words)))


def quantize_model(fitted: Fitted, flag: int, words: Any) -> Model:
    """The fitted model on the grid ('Fits and score'). Refuses 1, 4.

    >>> import belt
    >>> words = [0x0006FB9C] * 4
    >>> belt.quantize_model(belt.fit_translation(words), 1, words)
    Model((65536, 0, 65536, 0, 0, 65536))
    """
    codes = code(fitted.gm_type, "gm_type"), fitted_numbers(fitted.numbers), code(flag, "flag")
    return Model(call("belt_quantize_model", *codes, words_of(words)).params)


def mean_sq_residual(model: Model, words: Any) -> float:
    """The score of a Model over up to 4,096 words ('Fits and score'), in square pels. Refuses 1.

    >>> import belt
    >>> belt.mean_sq_residual(belt.Model(belt.STILL), [0x0006FB9C] * 4)
    1.0
    """
    score: float = call("belt_mean_sq_residual", model_params(model), words_of(words)).score
    return score


def quantize_global_param(gm_type: int, flag: int, slot: int, value: int) -> int:
    """The codable number nearest to a value ('Grid'). Refuses 4, 5.

    >>> import belt
    >>> belt.quantize_global_param(belt.AFFINE, 0, 2, 65537)
    65538
    """
    codes = code(gm_type, "gm_type"), code(flag, "flag"), code(slot, "slot")
    nearest: int = call("belt_quantize_global_param", *codes, signed(value, "value")).value
    return nearest


def setup_shear(gm_type: int, params: Any) -> Shear:
    """Will a decoder keep the warp of a model of type 2 or 3? Of its six numbers, which are the same in both orders.
    Refuses 2, 4, 7.

    >>> import belt
    >>> belt.setup_shear(belt.AFFINE, (0, 0, 67584, 8192, 0, 65536)).valid
    False
    """
    read = call("belt_setup_shear", code(gm_type, "gm_type"), params_of(params, "params", 6))
    return Shear(read.valid == 1, read.alpha, read.beta, read.gamma, read.delta)


def root(x: float) -> float:
    """The root of a number, correctly rounded ('Root'). A zero, plus infinity and a not-a-number are their own roots; a
    number below 0 has none, which is a not-a-number.

    >>> import belt
    >>> belt.root(2.0).hex()
    '0x1.6a09e667f3bcdp+0'
    """
    found: float = library.belt_root(x)
    return found
