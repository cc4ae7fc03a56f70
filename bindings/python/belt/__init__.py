# SPDX-License-Identifier: MIT
"""The proved motion core, for Python: two frames in, the motion between them out.

    belt.measure(first, second)     how the load moved between two frames, as a Measurement
    belt.track(frames)              the same from each frame of a clip to the next
    python -m belt.fleet CLIPS..    many clips, on many machines

Below these lie the library's own calls, from the search to the whole job. docs/PYTHON.md of the repository is the page to
begin with; docs/RULES.md has the rules, and names in quotes here are its sections. Lists are anything with a buffer of the
right elements: array.array, bytearray, memoryview, ctypes arrays, numpy arrays; they are taken as they are, without a
copy, and lent ones are written in place and must not overlap. Read-only ones (bytes), lists and tuples are copied, and
can't be lent.

    planes                  16-bit unsigned ('H', uint16)
    words                   32-bit unsigned ('I', uint32)
    classes, types, bytes   8-bit unsigned ('B', uint8)

A set of classes is its classes, in anything that can be gone through, or its bits as a number: class c is bit c.

A call that refuses raises Refusal, with the row's number and text; what was lent is then as it was (job has one
exception). A number that doesn't fit its C type is an OverflowError. A model is a Model (x first) or a StoredModel (as
headers, priors and reports have it): two types, since their numbers don't tell them apart. The library keeps nothing
between calls and may be called from many threads; ctypes lets go of Python's lock during a call.
"""

# the version of the library that this package is for; it stands ahead of the imports, which compare
__version__ = "1.0.0"

from ._blocks import Block, Frame, judge_block, list_block, read_both, read_frame, to_form1, to_form2, write_frame
from ._by_class import (
    elect_by_class,
    fit_by_class,
    fit_trimmed_by_class,
    quantize_by_class,
    quantize_trimmed_by_class,
    score_by_class,
)
from ._fits import (
    Elected,
    Fitted,
    Shear,
    Trimmed,
    TrimmedModel,
    elect,
    fit_affine,
    fit_rotzoom,
    fit_translation,
    fit_trimmed,
    mean_sq_residual,
    quantize_global_param,
    quantize_model,
    quantize_trimmed,
    root,
    setup_shear,
)
from ._headers import (
    Models,
    coefficient_prices,
    encode_global_motion,
    encode_inter_global_motion,
    frame_price,
    read_global_motion,
    read_global_motion_params,
)
from ._job import Report, Settings, job, job_of_words
from ._lend import set_of
from ._measure import measure, track
from ._measurement import Measurement, Warned
from ._model import IDENTITIES, STILL, Model, Motion, Sample, StoredModel, sample_of
from ._refusal import REFUSALS, Refusal
from ._run import Run, RunReader
from ._samples import (
    elect_samples,
    elect_samples_by_class,
    fit_affine_samples,
    fit_rotzoom_samples,
    fit_samples_by_class,
    fit_translation_samples,
    fit_trimmed_samples,
    fit_trimmed_samples_by_class,
    mean_sq_residual_samples,
    quantize_model_samples,
    quantize_samples_by_class,
    quantize_trimmed_samples,
    quantize_trimmed_samples_by_class,
    score_samples_by_class,
)
from ._search import Searched, collect_motion_samples, half_plane, make_practice_planes, search_band
from ._sizes import (
    AFFINE,
    ALL_CLASSES,
    BLOCK_BYTES,
    BLOCK_SIDE,
    CLASSES,
    FIBRE,
    FILM,
    FORM_1,
    FORM_2,
    FORM_SAMPLES,
    HEADER_BYTES,
    IDENTITY,
    METAL,
    MOST_EIGHTHS,
    MOST_SAMPLES,
    MOST_SHIFT,
    MOST_SIDE,
    RIGID_PLASTIC,
    ROTZOOM,
    TEXT_BYTES,
    TO_FORM_2,
    TO_HIGH_PRECISION,
    TO_LOW_PRECISION,
    TRANSLATION,
    TYPES,
    UNSORTED,
    Buffers,
    block_bytes,
    blocks_of,
    half_plane_values,
    sample_count,
)
from ._tool import ToolError

__all__ = [
    "AFFINE",
    "ALL_CLASSES",
    "BLOCK_BYTES",
    "BLOCK_SIDE",
    "CLASSES",
    "FIBRE",
    "FILM",
    "FORM_1",
    "FORM_2",
    "FORM_SAMPLES",
    "HEADER_BYTES",
    "IDENTITIES",
    "IDENTITY",
    "METAL",
    "MOST_EIGHTHS",
    "MOST_SAMPLES",
    "MOST_SHIFT",
    "MOST_SIDE",
    "REFUSALS",
    "RIGID_PLASTIC",
    "ROTZOOM",
    "STILL",
    "TEXT_BYTES",
    "TO_FORM_2",
    "TO_HIGH_PRECISION",
    "TO_LOW_PRECISION",
    "TRANSLATION",
    "TYPES",
    "UNSORTED",
    "Block",
    "Buffers",
    "Elected",
    "Fitted",
    "Frame",
    "Measurement",
    "Model",
    "Models",
    "Motion",
    "Refusal",
    "Report",
    "Run",
    "RunReader",
    "Sample",
    "Searched",
    "Settings",
    "Shear",
    "StoredModel",
    "ToolError",
    "Trimmed",
    "TrimmedModel",
    "Warned",
    "block_bytes",
    "blocks_of",
    "coefficient_prices",
    "collect_motion_samples",
    "elect",
    "elect_by_class",
    "elect_samples",
    "elect_samples_by_class",
    "encode_global_motion",
    "encode_inter_global_motion",
    "fit_affine",
    "fit_affine_samples",
    "fit_by_class",
    "fit_rotzoom",
    "fit_rotzoom_samples",
    "fit_samples_by_class",
    "fit_translation",
    "fit_translation_samples",
    "fit_trimmed",
    "fit_trimmed_by_class",
    "fit_trimmed_samples",
    "fit_trimmed_samples_by_class",
    "frame_price",
    "half_plane",
    "half_plane_values",
    "job",
    "job_of_words",
    "judge_block",
    "list_block",
    "make_practice_planes",
    "mean_sq_residual",
    "mean_sq_residual_samples",
    "measure",
    "quantize_by_class",
    "quantize_global_param",
    "quantize_model",
    "quantize_model_samples",
    "quantize_samples_by_class",
    "quantize_trimmed",
    "quantize_trimmed_by_class",
    "quantize_trimmed_samples",
    "quantize_trimmed_samples_by_class",
    "read_both",
    "read_frame",
    "read_global_motion",
    "read_global_motion_params",
    "root",
    "sample_count",
    "sample_of",
    "score_by_class",
    "score_samples_by_class",
    "search_band",
    "set_of",
    "setup_shear",
    "to_form1",
    "to_form2",
    "track",
    "write_frame",
]
