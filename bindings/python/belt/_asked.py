"""What is asked of a pair of frames, judged once."""

from __future__ import annotations

from typing import Any, NamedTuple, Optional, Union

from . import _tool
from ._by_class import Set
from ._lend import octets, set_of, whole
from ._refusal import Refusal
from ._sizes import ALL_CLASSES, CLASSES, IDENTITY, TYPES

TypeName = Union[str, int, None]


class Asked(NamedTuple):
    """What is asked of each pair, judged."""

    gm_type: int
    trim: bool
    classes: Optional[bytes]
    set: int
    tool: Optional[str]
    bits: Optional[int]


def _type_code(name: TypeName) -> int:
    """The code of a type to fit, or 0 for none."""
    if name is None:
        return IDENTITY
    if isinstance(name, str):
        if name not in TYPES[1:]:
            raise ValueError(f"type: {name!r} isn't one of {', '.join(TYPES[1:])}")
        return TYPES.index(name)
    code = whole(name, "type", 0, 255)
    if not 1 <= code < len(TYPES):
        raise Refusal(4)
    return code


def asked_of(type: TypeName, trim: bool, classes: Any, set: Optional[Set], robust: bool, bits: Optional[int]) -> Asked:
    listed = None if classes is None else bytes(octets(classes, "classes").elements)
    named = ALL_CLASSES if set is None else set_of(set)
    if named & ~ALL_CLASSES or any(kind >= len(CLASSES) for kind in listed or ()):
        raise Refusal(4)
    if named == 0:
        raise Refusal(19)
    return Asked(_type_code(type), bool(trim), listed, named, _tool.find() if robust else None, bits)
