"""The same over samples: four numbers x, y, u, v each, in pels, of any value. A list of fours, or a buffer of rows of four
binary64 such as a numpy array of the shape (n, 4)."""

from __future__ import annotations

from typing import Any, Tuple

from . import _raw
from ._by_class import Set
from ._fits import Elected, Fitted, Trimmed, TrimmedModel, elected_of
from ._lend import Lent, call, code, fitted_numbers, model_params, octets, samples_of, set_of
from ._model import Model
from ._sizes import AFFINE, ROTZOOM, TRANSLATION


def _params(model: Model) -> Any:
    return _raw.Params(model_params(model))


def _to_quantize(fitted: Fitted, flag: int) -> Any:
    return _raw.ToQuantize(code(fitted.gm_type, "gm_type"), code(flag, "flag"), fitted_numbers(fitted.numbers))


def _to_trim(gm_type: int, flag: int) -> Any:
    return _raw.ToTrim(code(gm_type, "gm_type"), code(flag, "flag"))


def _classed(samples: Any, classes: Any) -> Tuple[Lent, Lent]:
    """Samples and a class for each."""
    lent = samples_of(samples)
    return lent, octets(classes, "classes", lent.total)


def fit_translation_samples(samples: Any) -> Fitted:
    """As fit_translation, over samples. Refuses 1.

    >>> import belt
    >>> belt.fit_translation_samples([(7.5, 7.5, 0.25, -1.0)]).numbers[:2]
    (0.25, -1.0)
    """
    return Fitted(TRANSLATION, tuple(call("belt_fit_translation_samples", samples_of(samples)).numbers))


def fit_rotzoom_samples(samples: Any) -> Fitted:
    """As fit_rotzoom, over samples. Refuses 1, 6.

    >>> import belt
    >>> belt.fit_rotzoom_samples([(0.0, 0.0, 0.0, 0.0), (8.0, 0.0, 1.0, 0.0)]).numbers[2]
    1.125
    """
    return Fitted(ROTZOOM, tuple(call("belt_fit_rotzoom_samples", samples_of(samples)).numbers))


def fit_affine_samples(samples: Any) -> Fitted:
    """As fit_affine, over samples. Refuses 1, 6.

    >>> import belt
    >>> belt.fit_affine_samples([(0, 0, 0, 0), (8, 0, 1, 0), (0, 8, 0, 0)]).numbers[2]
    1.125
    """
    return Fitted(AFFINE, tuple(call("belt_fit_affine_samples", samples_of(samples)).numbers))


def quantize_model_samples(fitted: Fitted, flag: int, samples: Any) -> Model:
    """As quantize_model, over samples. Refuses 1, 4.

    >>> import belt
    >>> samples = [(7.5, 7.5, 0.3, 0.0)]
    >>> belt.quantize_model_samples(belt.fit_translation_samples(samples), 1, samples).shift
    Motion(u=0.25, v=0.0)
    """
    return Model(call("belt_quantize_model_samples", samples_of(samples), _to_quantize(fitted, flag)).params)


def mean_sq_residual_samples(model: Model, samples: Any) -> float:
    """As mean_sq_residual, over samples. Refuses 1.

    >>> import belt
    >>> belt.mean_sq_residual_samples(belt.Model(belt.STILL), [(0.0, 0.0, 3.0, 4.0)])
    25.0
    """
    score: float = call("belt_mean_sq_residual_samples", samples_of(samples), _params(model)).score
    return score


def fit_trimmed_samples(gm_type: int, samples: Any) -> Trimmed:
    """As fit_trimmed, over samples. Refuses 1, 4, 15, 6, 16, and 6 of the second fit.

    >>> import belt
    >>> still, far = (0.0, 0.0, 0.0, 0.0), (0.0, 0.0, 10.0, 0.0)
    >>> belt.fit_trimmed_samples(belt.TRANSLATION, [still] * 4 + [far]).used
    4
    """
    answer = call("belt_fit_trimmed_samples", samples_of(samples), code(gm_type, "gm_type"))
    return Trimmed(Fitted(gm_type, tuple(answer.numbers)), answer.used)


def quantize_trimmed_samples(gm_type: int, flag: int, samples: Any) -> TrimmedModel:
    """The same on the grid of a flag, its translation fitted again to the samples used.

    >>> import belt
    >>> belt.quantize_trimmed_samples(belt.TRANSLATION, 1, [(0.0, 0.0, 1.0, 0.0)] * 4).model.shift
    Motion(u=1.0, v=0.0)
    """
    answer = call("belt_quantize_trimmed_samples", samples_of(samples), _to_trim(gm_type, flag))
    return TrimmedModel(Model(answer.params), answer.used)


def elect_samples(flag: int, samples: Any) -> Elected:
    """As elect, over samples. Refuses 1, 4, 16.

    >>> import belt
    >>> belt.elect_samples(1, [(0.0, 0.0, 1.0, 0.0)] * 4).gm_type
    1
    """
    return elected_of(call("belt_elect_samples", samples_of(samples), code(flag, "flag")))


def fit_samples_by_class(classes_named: Set, gm_type: int, samples: Any, classes: Any) -> Fitted:
    """As fit_by_class, over samples. Refuses 1, 2, 4, 19, 6.

    >>> import belt
    >>> belt.fit_samples_by_class([1], 1, [(0.0, 0.0, 2.0, 0.0), (0.0, 0.0, 9.0, 9.0)], [1, 4]).numbers[:2]
    (2.0, 0.0)
    """
    codes = set_of(classes_named), code(gm_type, "gm_type")
    answer = call("belt_fit_samples_by_class", *codes, *_classed(samples, classes))
    return Fitted(gm_type, tuple(answer.numbers))


def quantize_samples_by_class(classes_named: Set, fitted: Fitted, flag: int, samples: Any, classes: Any) -> Model:
    """As quantize_by_class, over samples. Refuses 1, 2, 4, 19.

    >>> import belt
    >>> fitted = belt.Fitted(1, (2.0, 0.0, 0.0, 0.0, 0.0, 0.0))
    >>> belt.quantize_samples_by_class([1], fitted, 1, [(0.0, 0.0, 2.0, 0.0)], [1]).shift
    Motion(u=2.0, v=0.0)
    """
    codes = set_of(classes_named), _to_quantize(fitted, flag)
    return Model(call("belt_quantize_samples_by_class", *codes, *_classed(samples, classes)).params)


def score_samples_by_class(classes_named: Set, model: Model, samples: Any, classes: Any) -> float:
    """As score_by_class, over samples. Refuses 1, 2, 4, 19.

    >>> import belt
    >>> belt.score_samples_by_class([1], belt.Model(belt.STILL), [(0.0, 0.0, 3.0, 4.0)], [1])
    25.0
    """
    codes = set_of(classes_named), _params(model)
    score: float = call("belt_score_samples_by_class", *codes, *_classed(samples, classes)).score
    return score


def fit_trimmed_samples_by_class(classes_named: Set, gm_type: int, samples: Any, classes: Any) -> Trimmed:
    """As fit_trimmed_by_class, over samples. Refuses 1, 2, 4, 19, 15, 6, 16, and 6 of the second fit.

    >>> import belt
    >>> belt.fit_trimmed_samples_by_class([1], 1, [(0.0, 0.0, 1.0, 0.0)] * 4, [1] * 4).used
    4
    """
    codes = set_of(classes_named), code(gm_type, "gm_type")
    answer = call("belt_fit_trimmed_samples_by_class", *codes, *_classed(samples, classes))
    return Trimmed(Fitted(gm_type, tuple(answer.numbers)), answer.used)


def quantize_trimmed_samples_by_class(
    classes_named: Set, gm_type: int, flag: int, samples: Any, classes: Any
) -> TrimmedModel:
    """The same on the grid of a flag, its translation fitted again to the samples used.

    >>> import belt
    >>> belt.quantize_trimmed_samples_by_class([1], 1, 1, [(0.0, 0.0, 1.0, 0.0)] * 4, [1] * 4).model.shift
    Motion(u=1.0, v=0.0)
    """
    codes = set_of(classes_named), _to_trim(gm_type, flag)
    answer = call("belt_quantize_trimmed_samples_by_class", *codes, *_classed(samples, classes))
    return TrimmedModel(Model(answer.params), answer.used)


def elect_samples_by_class(classes_named: Set, flag: int, samples: Any, classes: Any) -> Elected:
    """As elect_by_class, over samples. Refuses 1, 2, 4, 19, 16.

    >>> import belt
    >>> belt.elect_samples_by_class([1], 1, [(0.0, 0.0, 1.0, 0.0)] * 4, [1] * 4).gm_type
    1
    """
    codes = set_of(classes_named), code(flag, "flag")
    return elected_of(call("belt_elect_samples_by_class", *codes, *_classed(samples, classes)))
