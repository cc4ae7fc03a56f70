"""What is handed to the library: numbers that fit their C type, lists with their own length, and buffers that overlap
nothing."""

from __future__ import annotations

import ctypes
import operator
from ctypes import c_double, c_int32, c_uint8, c_uint16, c_uint32
from typing import Any, Callable, Iterable, List, Optional, Sequence, Tuple, Union

from . import _raw
from ._library import library
from ._model import Model, StoredModel
from ._refusal import Refusal

_FORMATS = {c_uint8: "Bc", c_uint16: "H", c_uint32: "IL", c_double: "d"}
_MOST_SIZE = 2**64 - 1

Wanted = Union[int, Callable[[], int], None]


class Lent:
    """A list as the library takes it. Its length in the units of a refusal, and what is wanted of it, where that is known;
    where it costs something to know, it is asked for when a call refused."""

    __slots__ = ("name", "elements", "total", "written", "length", "wanted")

    def __init__(
        self, name: str, elements: Any, total: int, written: bool = False, length: int = 0, wanted: Wanted = None
    ) -> None:
        self.name, self.elements, self.total = name, elements, total
        self.written, self.length, self.wanted = written, length, wanted

    def span(self) -> Tuple[int, int]:
        """Where it lies in memory."""
        begin = ctypes.addressof(self.elements)
        return begin, begin + ctypes.sizeof(self.elements)


def _let_go(lists: Sequence[Lent]) -> None:
    """Gives the buffers back, ahead of an exception whose traceback would hold them: whoever catches it may lengthen one."""
    for lent in lists:
        lent.elements = None


def whole(value: Any, name: str, least: int, most: int) -> int:
    """A whole number of a C type's range."""
    try:
        number = operator.index(value)
    except TypeError:
        raise TypeError(f"{name}: a whole number is wanted, not {type(value).__name__}") from None
    if not least <= number <= most:
        raise OverflowError(f"{name}: {number} isn't from {least} to {most}")
    return number


def code(value: Any, name: str) -> int:
    return whole(value, name, 0, 255)


def size(value: Any, name: str) -> int:
    return whole(value, name, 0, _MOST_SIZE)


def signed(value: Any, name: str) -> int:
    return whole(value, name, -(2**31), 2**31 - 1)


def set_of(classes: Union[int, Iterable[int]]) -> int:
    """The bits of a set: a number as it is, or class c as bit c. A class over 7 counts as 7, so that it is refused as every
    one over 4 is.

    >>> import belt
    >>> belt.set_of([belt.FIBRE, belt.METAL]), belt.set_of(belt.ALL_CLASSES)
    (10, 31)
    """
    if not hasattr(classes, "__iter__"):
        return whole(classes, "the set", 0, 255)
    bits = 0
    for member in classes:
        bits |= 1 << min(whole(member, "a class of the set", 0, 2**63), 7)
    return bits


def shape_of(view: memoryview) -> Tuple[int, ...]:
    return tuple(view.shape or ())


def _view(values: Any, element: Any, name: str) -> memoryview:
    """A buffer's view, if its elements are right."""
    try:
        view = memoryview(values)
    except TypeError:
        raise TypeError(f"{name}: a list, or a buffer of numbers, is wanted, not {type(values).__name__}") from None
    if view.ndim == 0:
        raise TypeError(f"{name}: a list is wanted, not a number")
    bits = 8 * ctypes.sizeof(element)
    if view.format.lstrip("@=<") not in tuple(_FORMATS[element]) or 8 * view.itemsize != bits:
        kind = "floating point" if element is c_double else "without sign"
        raise TypeError(f"{name}: elements of {bits} bits, {kind}, are wanted, not {view.format!r}")
    if not view.c_contiguous:
        raise TypeError(
            f"{name}: the elements must follow each other in memory; bytes(..) or numpy.ascontiguousarray copy"
        )
    return view


def _of_view(view: memoryview, element: Any) -> Tuple[Any, int]:
    """The elements of a view, which can't change its length while they are held: itself, or a copy where it is read-only."""
    count = view.nbytes // view.itemsize
    if count == 0:
        return (element * 0)(), 0
    if view.readonly:
        # ctypes takes the address of writable buffers alone
        return (element * count).from_buffer_copy(view.cast("B")), count
    return (element * count).from_buffer(view), count


def _judge_shape(view: memoryview, shape: Optional[Tuple[int, int]], name: str) -> None:
    """A buffer of rows must have the sides that are named."""
    if shape is not None and view.ndim > 1 and shape_of(view) != shape:
        given = "×".join(map(str, shape_of(view)))
        raise ValueError(f"{name}: its shape is {given}, rows first, and the sides ask for {shape[0]}×{shape[1]}")


def numbers_of(
    values: Any, element: Any, name: str, wanted: Wanted = None, shape: Optional[Tuple[int, int]] = None
) -> Lent:
    """A list that is read: the buffer itself, or a copy of a list or of what is read-only."""
    if isinstance(values, (list, tuple)):
        most = 256 ** ctypes.sizeof(element) - 1
        # gone through once: another thread may lengthen the list meanwhile
        copied = [whole(value, name, 0, most) for value in values]
        return Lent(name, (element * len(copied))(*copied), len(copied), False, len(copied), wanted)
    view = _view(values, element, name)
    _judge_shape(view, shape, name)
    elements, count = _of_view(view, element)
    return Lent(name, elements, count, False, count, wanted)


def plane(values: Any, width: int, height: int, name: str) -> Lent:
    return numbers_of(values, c_uint16, name, width * height, (height, width))


def words(values: Any, wanted: Wanted = None) -> Lent:
    return numbers_of(values, c_uint32, "words", wanted)


def octets(values: Any, name: str, wanted: Wanted = None, shape: Optional[Tuple[int, int]] = None) -> Lent:
    return numbers_of(values, c_uint8, name, wanted, shape)


def room(values: Any, element: Any, name: str, wanted: Wanted = None, shape: Optional[Tuple[int, int]] = None) -> Lent:
    """A buffer that is written to."""
    view = _view(values, element, name)
    if view.readonly:
        raise TypeError(f"{name}: it can't be written to")
    _judge_shape(view, shape, name)
    elements, count = _of_view(view, element)
    return Lent(name, elements, count, True, count, wanted)


def models_of(models: Iterable[Any], name: str, wanted: Wanted = None) -> Lent:
    """Models as stored, their numbers one after the other."""
    flat: List[int] = []
    count = 0
    for model in models:
        if not isinstance(model, StoredModel):
            raise TypeError(f"{name}: StoredModel is wanted, not {type(model).__name__}")
        flat += [signed(number, f"{name}: a number of model {count}") for number in model]
        count += 1
    return Lent(name, (c_int32 * len(flat))(*flat), len(flat), False, count, wanted)


def params_of(params: Iterable[Any], name: str, wanted: Wanted = None) -> Lent:
    """The numbers of one model."""
    flat = [signed(number, name) for number in params]
    return Lent(name, (c_int32 * len(flat))(*flat), len(flat), False, len(flat), wanted)


def model_params(model: Any) -> Any:
    """The six numbers of a Model."""
    if not isinstance(model, Model):
        raise TypeError(f"model: Model is wanted, not {type(model).__name__}")
    return (c_int32 * 6)(*(signed(number, "model") for number in model))


def fitted_numbers(numbers: Sequence[Any]) -> Any:
    """The six numbers of a fit."""
    six = tuple(numbers)
    if len(six) != 6:
        raise ValueError(f"fitted: a fit has 6 numbers, not {len(six)}")
    return (c_double * 6)(*six)


def samples_of(samples: Any) -> Lent:
    """Samples, each four numbers x, y, u, v in pels: a buffer of rows of four binary64, or anything of fours."""
    element = _raw.MotionSample
    if not isinstance(samples, (list, tuple)):
        try:
            view = memoryview(samples)
        except TypeError:
            view = None
        if view is not None and view.format in ("d", "<d", "=d", "@d"):
            if view.ndim != 2 or shape_of(view)[1] != 4:
                raise ValueError(f"samples: rows of 4 numbers are wanted, not of the shape {shape_of(view)}")
            elements, count = _of_view(_view(samples, c_double, "samples"), c_double)
            return Lent("samples", ctypes.cast(elements, ctypes.POINTER(element)), count // 4, False, count // 4)
    fours = [tuple(sample) for sample in samples]
    for place, four in enumerate(fours):
        if len(four) != 4:
            raise ValueError(f"samples: sample {place} has {len(four)} numbers, 4 are wanted")
    return Lent("samples", (element * len(fours))(*(element(*four) for four in fours)), len(fours), False, len(fours))


def _judge_overlap(lists: Sequence[Lent]) -> None:
    """What is lent to be written to overlaps nothing."""
    spans = [(lent, *lent.span()) for lent in lists if lent.total and isinstance(lent.elements, ctypes.Array)]
    for lent, begin, end in spans:
        if lent.written:
            for other, other_begin, other_end in spans:
                if other is not lent and begin < other_end and other_begin < end:
                    _let_go(lists)
                    raise ValueError(f"{lent.name} and {other.name} overlap in memory")


def answer(name: str, *arguments: Any) -> Any:
    """The library's answer, refused or not."""
    lists = [argument for argument in arguments if isinstance(argument, Lent)]
    _judge_overlap(lists)
    flat: List[Any] = []
    for argument in arguments:
        flat += [argument.elements, argument.total] if isinstance(argument, Lent) else [argument]
    return getattr(library, name)(*flat)


def judge(number: int, *arguments: Any) -> None:
    """Raises the refusal of a row; a length that is wrong is named."""
    if number:
        lists = [argument for argument in arguments if isinstance(argument, Lent)]
        refusal = refusal_of(number, lists)
        _let_go(lists)
        raise refusal


def accepted(judged: Any, *arguments: Any) -> Any:
    """The answer, unless it refuses."""
    judge(judged.refusal, *arguments)
    return judged


def refusal_of(number: int, lists: Sequence[Lent]) -> Refusal:
    """The refusal of a row; of 2 and 3 with the first list whose length is wrong."""
    for lent in lists:
        if number not in (2, 3) or lent.wanted is None or lent.written != (number == 3):
            continue
        wanted = lent.wanted if isinstance(lent.wanted, int) else lent.wanted()
        if lent.length < wanted if lent.written else lent.length != wanted:
            return Refusal(number, lent.name, lent.length, wanted)
    return Refusal(number)


def call(name: str, *arguments: Any) -> Any:
    return accepted(answer(name, *arguments), *arguments)
