"""A whole job: search, fit, grid, score, blocks and header; and one from its words on."""

from __future__ import annotations

from ctypes import c_uint8, c_uint16, c_uint32
from dataclasses import dataclass
from typing import Any, NamedTuple, Optional, Tuple

from . import _raw
from ._by_class import Set
from ._blocks import frame_number
from ._headers import REFERENCES, stored_models
from ._lend import Lent, call, code, models_of, octets, plane, room, set_of, size, words as words_of
from ._model import IDENTITIES, StoredModel
from ._sizes import (
    ALL_CLASSES,
    BLOCK_SIDE,
    FORM_2,
    FORM_SAMPLES,
    HEADER_BYTES,
    IDENTITY,
    block_bytes,
    half_plane_values,
    sample_count,
)

_OTHERS = REFERENCES - 1


@dataclass(frozen=True, init=False)
class Settings:
    """What a job is told beside its lists. The frame's number; all else is named. A job fits the type gm_type (1 to 3),
    after trimming if trim is 1; without a type it elects one, and so it does if elect is 1, and then doesn't look at type
    and trim. The model is stored for a reference (1 to 7) with a flag (1 for high precision), in a header that begins at
    bit start (0 to 7) of its first byte; set names the classes whose samples are fitted and scored.

    >>> import belt
    >>> belt.Settings(5).elect, belt.Settings(5, gm_type=belt.AFFINE, trim=1).elect
    (1, 0)
    """

    frame: int
    gm_type: int
    reference: int
    flag: int
    trim: int
    elect: int
    set: Set
    start: int

    def __init__(
        self,
        frame: int,
        *,
        gm_type: Optional[int] = None,
        reference: int = 1,
        flag: int = 1,
        trim: int = 0,
        elect: Optional[int] = None,
        set: Set = ALL_CLASSES,
        start: int = 0,
    ) -> None:
        own = {
            "frame": frame,
            "gm_type": IDENTITY if gm_type is None else gm_type,
            "reference": reference,
            "flag": flag,
            "trim": trim,
            "elect": int(gm_type is None) if elect is None else elect,
            "set": set,
            "start": start,
        }
        for name, value in own.items():
            object.__setattr__(self, name, value)


class Report(NamedTuple):
    """Seven types, the job's own as asked for or elected, and models, the score in square pels, over the samples that the
    job's set names, the header's bits, how many samples there are.

    >>> import belt
    >>> plane = [0] * 1024
    >>> report = belt.job(plane, plane, 32, 32, belt.Settings(5), bytes(4), belt.Buffers(32, 32))
    >>> report.types, report.bits, report.samples
    ((0, 0, 0, 0, 0, 0, 0), 7, 4)
    """

    types: Tuple[int, ...]
    models: Tuple[StoredModel, ...]
    score: float
    bits: int
    samples: int


def raw_settings(settings: Settings) -> Any:
    return _raw.Settings(
        frame_number(settings.frame),
        code(settings.gm_type, "gm_type"),
        code(settings.reference, "reference"),
        code(settings.flag, "flag"),
        code(settings.trim, "trim"),
        code(settings.elect, "elect"),
        set_of(settings.set),
        size(settings.start, "start"),
    )


def asked(
    input_y: Any, reference: Any, width: Any, height: Any, settings: Settings, classes: Any, types: Any, models: Any
) -> Tuple[Any, ...]:
    """What a job is handed but for its prior."""
    width, height = size(width, "width"), size(height, "height")
    return (
        plane(input_y, width, height, "input_y"),
        plane(reference, width, height, "reference"),
        width,
        height,
        raw_settings(settings),
        octets(classes, "classes", sample_count(width, height), (height // BLOCK_SIDE, width // BLOCK_SIDE)),
        octets(types, "types", _OTHERS),
        models_of(IDENTITIES[:_OTHERS] if models is None else models, "models", _OTHERS),
    )


def lent_buffers(buffers: Any, width: Any, height: Any, form: int) -> Tuple[Lent, ...]:
    """What a job is lent."""
    samples, half = sample_count(width, height), half_plane_values(width, height)
    return (
        room(buffers.input_half, c_uint16, "input_half", half),
        room(buffers.ref_half, c_uint16, "ref_half", half),
        room(buffers.words, c_uint32, "words", samples),
        room(buffers.blocks, c_uint8, "blocks", block_bytes(samples, form) if form in FORM_SAMPLES else None),
        room(buffers.header, c_uint8, "header", HEADER_BYTES),
    )


def report_of(report: Any) -> Report:
    return Report(tuple(report.types), stored_models(report.models), report.score, report.bits, report.samples)


def job(
    input_y: Any,
    reference: Any,
    width: int,
    height: int,
    settings: Settings,
    classes: Any,
    buffers: Any,
    types: Any = (0,) * _OTHERS,
    models: Any = None,
    prior: Any = IDENTITIES,
) -> Report:
    """Runs a whole job ('Job'): search, fit, grid, score, blocks and header, into a Buffers or anything with its five
    fields. The six other references are identities unless types and StoredModels are given. A plane is a list of its
    pels, or a buffer of height rows of width pels.

    Motion goes from the input to the reference: with the earlier frame as input it is the load's, with the later one the
    negative (Model.moved_since_reference).

    Fit, score and election go by the set of the settings; blocks hold every sample.

    Refuses 1, 2, 4, 19, 5, 14, 7, 8, 3, 15, 17, 6, 16, and 6 of a second fit. After 6 and 16 the half planes and the words
    are in their buffers; blocks and header are as they were. A job that elects has type, model and score of elect_by_class
    over its words, and isn't refused with 15 or 6.

    >>> import belt
    >>> from array import array
    >>> earlier, later = array("H", bytes(2 * 96 * 80)), array("H", bytes(2 * 96 * 80))
    >>> pels = belt.make_practice_planes(1, 96, 80, 4, -6, earlier, later)
    >>> report = belt.job(earlier, later, 96, 80, belt.Settings(5), bytes(30), belt.Buffers(96, 80))
    >>> report.models[0].x_first(report.types[0]).shift
    Motion(u=-6.0, v=4.0)
    """
    width, height = size(width, "width"), size(height, "height")
    report = call(
        "belt_job",
        *asked(input_y, reference, width, height, settings, classes, types, models),
        models_of(prior, "prior", REFERENCES),
        *lent_buffers(buffers, width, height, FORM_2),
    )
    return report_of(report)


def asked_of_words(
    words: Any, settings: Settings, classes: Any, types: Any, models: Any
) -> Tuple[Lent, Any, Lent, Lent, Lent]:
    """What a job of words is handed but for its prior."""
    lent = words_of(words)
    return (
        lent,
        raw_settings(settings),
        octets(classes, "classes", lent.total),
        octets(types, "types", _OTHERS),
        models_of(IDENTITIES[:_OTHERS] if models is None else models, "models", _OTHERS),
    )


def lent_of_words(blocks: Any, header: Any, samples: int, form: int) -> Tuple[Lent, Lent]:
    """What a job of words is lent."""
    return (
        room(blocks, c_uint8, "blocks", block_bytes(samples, form) if form in FORM_SAMPLES else None),
        room(header, c_uint8, "header", HEADER_BYTES),
    )


def job_of_words(
    words: Any,
    settings: Settings,
    classes: Any,
    blocks: Any,
    header: Any,
    types: Any = (0,) * _OTHERS,
    models: Any = None,
    prior: Any = IDENTITIES,
) -> Report:
    """Runs a job from its words on ('Job'): fit, grid, score, blocks and header. With the words of a search, whole or in
    bands (search_band), it reports what job does and leaves the same blocks and the same header.

    Refuses 1, 2, 4, 19, 5, 14, 7, 8, 12, 3, 15, 17, 6, 16, and 6 of a second fit; blocks and header are then as they were.

    >>> import belt
    >>> still = 223 << 11 | 223 << 2
    >>> report = belt.job_of_words([still, 1 << 20 | still], belt.Settings(5), bytes(2), bytearray(512), bytearray(125))
    >>> report.types[0], report.bits, report.samples
    (0, 7, 2)
    """
    arguments = asked_of_words(words, settings, classes, types, models)
    report = call(
        "belt_job_of_words",
        *arguments,
        models_of(prior, "prior", REFERENCES),
        *lent_of_words(blocks, header, arguments[0].total, FORM_2),
    )
    return report_of(report)
