"""The same by a set of classes: over the words whose class is named."""

from __future__ import annotations

from typing import Any, Iterable, Tuple, Union

from ._fits import Elected, Fitted, Trimmed, TrimmedModel, elected_of
from ._lend import Lent, call, code, fitted_numbers, model_params, octets, set_of, words as words_of
from ._model import Model

Set = Union[int, Iterable[int]]


def _classed(words: Any, classes: Any) -> Tuple[Lent, Lent]:
    """Words and a class for each."""
    lent = words_of(words)
    return lent, octets(classes, "classes", lent.total)


def fit_by_class(classes_named: Set, gm_type: int, words: Any, classes: Any) -> Fitted:
    """The fit of a type, 1 to 3, by a set of classes ('Sets of classes'): of the words whose class is named, in their order.
    Their class bits play no part. Refuses 1, 2, 4, 19, 6; 1, 2 and 4 judge the whole list.

    >>> import belt
    >>> still, moved = 0x0006FB7C, 0x0006FB9C
    >>> belt.fit_by_class([belt.FIBRE], belt.TRANSLATION, [still, moved], [belt.FILM, belt.FIBRE]).numbers[0]
    1.0
    """
    codes = set_of(classes_named), code(gm_type, "gm_type")
    answer = call("belt_fit_by_class", *codes, *_classed(words, classes))
    return Fitted(gm_type, tuple(answer.numbers))


def quantize_by_class(classes_named: Set, fitted: Fitted, flag: int, words: Any, classes: Any) -> Model:
    """As quantize_model, by a set of classes: the translation is fitted again to the words named. Refuses 1, 2, 4, 19.

    >>> import belt
    >>> fitted = belt.fit_by_class([1], belt.TRANSLATION, [0x0006FB9C], [1])
    >>> belt.quantize_by_class([1], fitted, 1, [0x0006FB9C], [1]).shift
    Motion(u=1.0, v=0.0)
    """
    codes = set_of(classes_named), code(fitted.gm_type, "gm_type"), fitted_numbers(fitted.numbers), code(flag, "flag")
    return Model(call("belt_quantize_by_class", *codes, *_classed(words, classes)).params)


def score_by_class(classes_named: Set, model: Model, words: Any, classes: Any) -> float:
    """As mean_sq_residual, by a set of classes: over the words named, 0.0 for none. Refuses 1, 2, 4, 19.

    >>> import belt
    >>> belt.score_by_class([belt.METAL], belt.Model(belt.STILL), [0x0006FB9C, 0x0006FB7C], [belt.METAL, belt.FILM])
    1.0
    """
    codes = set_of(classes_named), model_params(model)
    score: float = call("belt_score_by_class", *codes, *_classed(words, classes)).score
    return score


def fit_trimmed_by_class(classes_named: Set, gm_type: int, words: Any, classes: Any) -> Trimmed:
    """As fit_trimmed, by a set of classes: of the words named, and the least number is theirs. Refuses 1, 2, 4, 19, 15, 6,
    16, and 6 of the second fit; never 16 with words.

    >>> import belt
    >>> belt.fit_trimmed_by_class([1], belt.TRANSLATION, [0x0006FB9C] * 4, [1] * 4).used
    4
    """
    codes = set_of(classes_named), code(gm_type, "gm_type")
    answer = call("belt_fit_trimmed_by_class", *codes, *_classed(words, classes))
    return Trimmed(Fitted(gm_type, tuple(answer.numbers)), answer.used)


def quantize_trimmed_by_class(classes_named: Set, gm_type: int, flag: int, words: Any, classes: Any) -> TrimmedModel:
    """The same on the grid of a flag, its translation fitted again to the samples used.

    >>> import belt
    >>> belt.quantize_trimmed_by_class([1], belt.TRANSLATION, 1, [0x0006FB9C] * 4, [1] * 4).model.shift
    Motion(u=1.0, v=0.0)
    """
    codes = set_of(classes_named), code(gm_type, "gm_type"), code(flag, "flag")
    answer = call("belt_quantize_trimmed_by_class", *codes, *_classed(words, classes))
    return TrimmedModel(Model(answer.params), answer.used)


def elect_by_class(classes_named: Set, flag: int, words: Any, classes: Any) -> Elected:
    """As elect, by a set of classes: among the words named, whose energy and score it takes; the identity for fewer than 4
    of them. Refuses 1, 2, 4, 19, 16; never 16 with words.

    >>> import belt
    >>> belt.elect_by_class([belt.FIBRE], 1, [0x0006FB9C] * 4, [belt.FIBRE] * 4).gm_type
    1
    """
    codes = set_of(classes_named), code(flag, "flag")
    return elected_of(call("belt_elect_by_class", *codes, *_classed(words, classes)))
