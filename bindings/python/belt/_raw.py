"""The shared library's declarations, by ctypes: every call and struct of crates/belt, the version, and no more.

`bindings/declarations` holds them to the library's own.
"""

from __future__ import annotations

import ctypes
from ctypes import POINTER, c_bool, c_double, c_int32, c_size_t, c_uint8, c_uint16, c_uint32
from typing import Any, Dict, List, Tuple


class Searched(ctypes.Structure):
    _fields_ = [("refusal", c_uint32), ("samples", c_size_t), ("rows", c_uint32)]


class FitAnswer(ctypes.Structure):
    _fields_ = [("refusal", c_uint32), ("numbers", c_double * 6)]


class Params(ctypes.Structure):
    _fields_ = [("numbers", c_int32 * 6)]


class ToQuantize(ctypes.Structure):
    _fields_ = [("gm_type", c_uint8), ("flag", c_uint8), ("numbers", c_double * 6)]


class MotionSample(ctypes.Structure):
    _fields_ = [("x", c_double), ("y", c_double), ("u", c_double), ("v", c_double)]


class ToTrim(ctypes.Structure):
    _fields_ = [("gm_type", c_uint8), ("flag", c_uint8)]


class QuantizedModel(ctypes.Structure):
    _fields_ = [("refusal", c_uint32), ("params", c_int32 * 6)]


class Trimmed(ctypes.Structure):
    _fields_ = [("refusal", c_uint32), ("used", c_uint32), ("numbers", c_double * 6)]


class TrimmedModel(ctypes.Structure):
    _fields_ = [("refusal", c_uint32), ("used", c_uint32), ("params", c_int32 * 6)]


class Elected(ctypes.Structure):
    _fields_ = [("refusal", c_uint32), ("gm_type", c_uint8), ("params", c_int32 * 6), ("score", c_double)]


class QuantizedParam(ctypes.Structure):
    _fields_ = [("refusal", c_uint32), ("value", c_int32)]


class Shear(ctypes.Structure):
    _fields_ = [
        ("refusal", c_uint32),
        ("valid", c_uint32),
        ("alpha", c_int32),
        ("beta", c_int32),
        ("gamma", c_int32),
        ("delta", c_int32),
    ]


class Score(ctypes.Structure):
    _fields_ = [("refusal", c_uint32), ("score", c_double)]


class Stored(ctypes.Structure):
    _fields_ = [("refusal", c_uint32), ("blocks", c_size_t)]


class FrameRead(ctypes.Structure):
    _fields_ = [("refusal", c_uint32), ("frame", c_uint16), ("samples", c_size_t)]


class BlockRead(ctypes.Structure):
    _fields_ = [("refusal", c_uint32), ("frame", c_uint16), ("ordinal", c_size_t), ("count", c_size_t)]


class Written(ctypes.Structure):
    _fields_ = [("refusal", c_uint32), ("bits", c_size_t)]


class Models(ctypes.Structure):
    _fields_ = [("refusal", c_uint32), ("types", c_uint8 * 7), ("params", c_int32 * 42), ("bits", c_size_t)]


class PriceList(ctypes.Structure):
    _fields_ = [("refusal", c_uint32), ("lengths", c_size_t), ("ordinals", c_uint32 * 20)]


class Price(ctypes.Structure):
    _fields_ = [("refusal", c_uint32), ("bits", c_size_t)]


class Made(ctypes.Structure):
    _fields_ = [("refusal", c_uint32), ("pels", c_size_t)]


class Settings(ctypes.Structure):
    _fields_ = [
        ("frame", c_uint16),
        ("gm_type", c_uint8),
        ("reference", c_uint8),
        ("flag", c_uint8),
        ("trim", c_uint8),
        ("elect", c_uint8),
        ("set", c_uint8),
        ("start", c_size_t),
    ]


class Report(ctypes.Structure):
    _fields_ = [
        ("refusal", c_uint32),
        ("types", c_uint8 * 7),
        ("models", c_int32 * 42),
        ("score", c_double),
        ("bits", c_size_t),
        ("samples", c_size_t),
    ]


class Run(ctypes.Structure):
    _fields_ = [("prior", c_int32 * 42), ("flag", c_uint8), ("form", c_uint32)]


class Moved(ctypes.Structure):
    _fields_ = [("refusal", c_uint32), ("run", Run)]


class Framed(ctypes.Structure):
    _fields_ = [("written", Written), ("run", Run)]


class FrameModels(ctypes.Structure):
    _fields_ = [("models", Models), ("run", Run)]


class JobDone(ctypes.Structure):
    _fields_ = [("report", Report), ("run", Run)]


def _list(element: Any) -> List[Any]:
    """A list passes as a pointer and a count."""
    return [POINTER(element), c_size_t]


_PELS, _BYTES, _WORDS, _NUMBERS = _list(c_uint16), _list(c_uint8), _list(c_uint32), _list(c_int32)
_SAMPLES = _list(MotionSample)

# Each call: its parameters, and what it returns.
CALLS: Dict[str, Tuple[List[Any], Any]] = {
    "belt_version": ([], c_uint32),
    "belt_abi_1": ([], c_uint32),
    "belt_collect_motion_samples": (
        _PELS + _PELS + [c_size_t, c_size_t] + _BYTES + _PELS + _PELS + _WORDS,
        Searched,
    ),
    "belt_half_plane": (_PELS + [c_size_t, c_size_t] + _PELS, c_uint32),
    "belt_search_band": (
        _PELS + _PELS + [c_size_t, c_size_t] + _PELS + _PELS + [c_size_t, c_size_t] + _WORDS,
        Searched,
    ),
    "belt_fit_translation": (_WORDS, FitAnswer),
    "belt_fit_rotzoom": (_WORDS, FitAnswer),
    "belt_fit_affine": (_WORDS, FitAnswer),
    "belt_fit_trimmed": ([c_uint8] + _WORDS, Trimmed),
    "belt_quantize_trimmed": ([c_uint8, c_uint8] + _WORDS, TrimmedModel),
    "belt_elect": ([c_uint8] + _WORDS, Elected),
    "belt_quantize_model": ([c_uint8, POINTER(c_double * 6), c_uint8] + _WORDS, QuantizedModel),
    "belt_mean_sq_residual": ([POINTER(c_int32 * 6)] + _WORDS, Score),
    "belt_fit_by_class": ([c_uint8, c_uint8] + _WORDS + _BYTES, FitAnswer),
    "belt_quantize_by_class": (
        [c_uint8, c_uint8, POINTER(c_double * 6), c_uint8] + _WORDS + _BYTES,
        QuantizedModel,
    ),
    "belt_score_by_class": ([c_uint8, POINTER(c_int32 * 6)] + _WORDS + _BYTES, Score),
    "belt_fit_trimmed_by_class": ([c_uint8, c_uint8] + _WORDS + _BYTES, Trimmed),
    "belt_quantize_trimmed_by_class": ([c_uint8, c_uint8, c_uint8] + _WORDS + _BYTES, TrimmedModel),
    "belt_elect_by_class": ([c_uint8, c_uint8] + _WORDS + _BYTES, Elected),
    "belt_fit_translation_samples": (_SAMPLES, FitAnswer),
    "belt_fit_rotzoom_samples": (_SAMPLES, FitAnswer),
    "belt_fit_affine_samples": (_SAMPLES, FitAnswer),
    "belt_quantize_model_samples": (_SAMPLES + [ToQuantize], QuantizedModel),
    "belt_mean_sq_residual_samples": (_SAMPLES + [Params], Score),
    "belt_fit_trimmed_samples": (_SAMPLES + [c_uint8], Trimmed),
    "belt_quantize_trimmed_samples": (_SAMPLES + [ToTrim], TrimmedModel),
    "belt_elect_samples": (_SAMPLES + [c_uint8], Elected),
    "belt_fit_samples_by_class": ([c_uint8, c_uint8] + _SAMPLES + _BYTES, FitAnswer),
    "belt_quantize_samples_by_class": ([c_uint8, ToQuantize] + _SAMPLES + _BYTES, QuantizedModel),
    "belt_score_samples_by_class": ([c_uint8, Params] + _SAMPLES + _BYTES, Score),
    "belt_fit_trimmed_samples_by_class": ([c_uint8, c_uint8] + _SAMPLES + _BYTES, Trimmed),
    "belt_quantize_trimmed_samples_by_class": ([c_uint8, ToTrim] + _SAMPLES + _BYTES, TrimmedModel),
    "belt_elect_samples_by_class": ([c_uint8, c_uint8] + _SAMPLES + _BYTES, Elected),
    "belt_quantize_global_param": ([c_uint8, c_uint8, c_uint8, c_int32], QuantizedParam),
    "belt_write_frame": ([c_uint16] + _WORDS + _BYTES + _BYTES, Stored),
    "belt_read_both": (_BYTES + _WORDS + _BYTES, FrameRead),
    "belt_read_frame": (_BYTES + _WORDS, FrameRead),
    "belt_to_form1": (_BYTES + _BYTES, Stored),
    "belt_to_form2": (_BYTES + _BYTES, Stored),
    "belt_judge_block": (_BYTES, BlockRead),
    "belt_list_block": (_BYTES + [POINTER(c_uint8 * 4096)], c_size_t),
    "belt_encode_global_motion": ([c_bool] + _BYTES + _NUMBERS + [c_uint8] + _NUMBERS + [c_size_t] + _BYTES, Written),
    "belt_read_global_motion": ([c_bool] + _BYTES + [c_size_t, c_uint8] + _NUMBERS, Models),
    "belt_encode_inter_global_motion": (_BYTES + _NUMBERS + [c_uint8] + _NUMBERS + [c_size_t] + _BYTES, Written),
    "belt_read_global_motion_params": (_BYTES + [c_size_t, c_uint8] + _NUMBERS, Models),
    "belt_coefficient_prices": ([c_uint8, c_uint8, c_uint8, c_int32], PriceList),
    "belt_frame_price": ([c_bool] + _BYTES + _NUMBERS + [c_uint8] + _NUMBERS, Price),
    "belt_setup_shear": ([c_uint8] + _NUMBERS, Shear),
    "belt_root": ([c_double], c_double),
    "belt_make_practice_planes": ([c_uint32, c_size_t, c_size_t, c_int32, c_int32] + _PELS + _PELS, Made),
    "belt_job": (
        _PELS
        + _PELS
        + [c_size_t, c_size_t, Settings]
        + _BYTES
        + _BYTES
        + _NUMBERS
        + _NUMBERS
        + _PELS
        + _PELS
        + _WORDS
        + _BYTES
        + _BYTES,
        Report,
    ),
    "belt_job_of_words": (
        _WORDS + [Settings] + _BYTES + _BYTES + _NUMBERS + _NUMBERS + _BYTES + _BYTES,
        Report,
    ),
    "belt_run_start": ([c_uint8, c_uint32], Moved),
    "belt_run_switch": ([Run, c_uint8], Moved),
    "belt_run_frame": ([Run, c_bool] + _BYTES + _NUMBERS + [c_size_t] + _BYTES, Framed),
    "belt_run_read": ([Run, c_bool] + _BYTES + [c_size_t], FrameModels),
    "belt_run_store": ([Run, c_uint16] + _WORDS + _BYTES + _BYTES, Stored),
    "belt_run_job": (
        [Run]
        + _PELS
        + _PELS
        + [c_size_t, c_size_t, Settings]
        + _BYTES
        + _BYTES
        + _NUMBERS
        + _PELS
        + _PELS
        + _WORDS
        + _BYTES
        + _BYTES,
        JobDone,
    ),
    "belt_run_job_of_words": (
        [Run] + _WORDS + [Settings] + _BYTES + _BYTES + _NUMBERS + _BYTES + _BYTES,
        JobDone,
    ),
}
