"""Headers: seven models as bits, and what they cost."""

from __future__ import annotations

from ctypes import c_uint8
from typing import Any, Callable, NamedTuple, Tuple

from ._lend import answer, call, code, models_of, octets, room, signed, size
from ._model import StoredModel

# Each reference has a type and a model.
REFERENCES = 7


class Models(NamedTuple):
    """What a header holds: seven types and models, and the bits consumed.

    >>> import belt
    >>> belt.read_global_motion_params(b"\\x00", 0, 1, belt.IDENTITIES).bits
    7
    """

    types: Tuple[int, ...]
    models: Tuple[StoredModel, ...]
    bits: int


def stored_models(numbers: Any) -> Tuple[StoredModel, ...]:
    return tuple(StoredModel(numbers[i : i + 6]) for i in range(0, 6 * REFERENCES, 6))


def models_read(read: Any) -> Models:
    return Models(tuple(read.types), stored_models(read.params), read.bits)


def header_bytes(intra: bool, types: Any, models: Any, flag: Any, prior: Any, start: int) -> Callable[[], int]:
    """The bytes that a header takes."""

    def wanted() -> int:
        price = answer(
            "belt_frame_price",
            intra,
            octets(types, "types"),
            models_of(models, "models"),
            code(flag, "flag"),
            models_of(prior, "prior"),
        )
        return int(-(-(start + price.bits) // 8))

    return wanted


def encode_inter_global_motion(types: Any, models: Any, flag: int, prior: Any, start: int, header: Any) -> int:
    """Writes seven types and StoredModels from bit start of the first byte on ('Header'); answers how many bits, without
    the start. Refuses 2, 4, 14, 7, 8, 3.

    >>> import belt
    >>> header = bytearray(belt.HEADER_BYTES)
    >>> belt.encode_inter_global_motion(bytes(7), belt.IDENTITIES, 1, belt.IDENTITIES, 0, header)
    7
    """
    start = size(start, "start")
    bits: int = call(
        "belt_encode_inter_global_motion",
        octets(types, "types", REFERENCES),
        models_of(models, "models", REFERENCES),
        code(flag, "flag"),
        models_of(prior, "prior", REFERENCES),
        start,
        room(header, c_uint8, "header", header_bytes(False, types, models, flag, prior, start)),
    ).bits
    return bits


def read_global_motion_params(header: Any, at: int, flag: int, prior: Any) -> Models:
    """Reads seven types and models from a bit on ('Reading by the standard'). Refuses 2, 4, 8, 9.

    >>> import belt
    >>> read = belt.read_global_motion_params(bytes.fromhex("A42000"), 0, 1, belt.IDENTITIES)
    >>> read.types[0], read.models[0], read.bits
    (1, StoredModel((8192, -8192, 65536, 0, 0, 65536)), 17)
    """
    lists = octets(header, "header"), size(at, "at"), code(flag, "flag"), models_of(prior, "prior", REFERENCES)
    return models_read(call("belt_read_global_motion_params", *lists))


def encode_global_motion(intra: bool, types: Any, models: Any, flag: int, prior: Any, start: int, header: Any) -> int:
    """Writes the header of a frame of either kind ('Key frames'); answers how many bits. Where intra is true there are
    none, no byte is touched and the prior isn't looked at. Refuses of a key frame 2, 4, 14, 7.

    >>> import belt
    >>> belt.encode_global_motion(True, bytes(7), belt.IDENTITIES, 1, (), 0, bytearray())
    0
    """
    intra, start = bool(intra), size(start, "start")
    bits: int = call(
        "belt_encode_global_motion",
        intra,
        octets(types, "types", REFERENCES),
        models_of(models, "models", REFERENCES),
        code(flag, "flag"),
        models_of(prior, "prior", None if intra else REFERENCES),
        start,
        room(header, c_uint8, "header", header_bytes(intra, types, models, flag, prior, start)),
    ).bits
    return bits


def read_global_motion(intra: bool, header: Any, at: int, flag: int, prior: Any) -> Models:
    """Reads the models of a frame of either kind ('Key frames'): seven identities and no bits where intra is true. Refuses
    of a key frame 4.

    >>> import belt
    >>> belt.read_global_motion(True, b"", 0, 1, ()).models == belt.IDENTITIES
    True
    """
    intra = bool(intra)
    lists = octets(header, "header"), size(at, "at"), code(flag, "flag")
    prior_list = models_of(prior, "prior", None if intra else REFERENCES)
    return models_read(call("belt_read_global_motion", intra, *lists, prior_list))


def coefficient_prices(gm_type: int, flag: int, slot: int, prior: int) -> Tuple[int, ...]:
    """How many of a slot's ordinals have a code of 4 bits, of 5 and so on ('Prices'). Refuses 4, 5, 8.

    >>> import belt
    >>> belt.coefficient_prices(belt.TRANSLATION, 1, 0, 0)[:4]
    (8, 8, 0, 16)
    """
    codes = code(gm_type, "gm_type"), code(flag, "flag"), code(slot, "slot")
    listed = call("belt_coefficient_prices", *codes, signed(prior, "prior"))
    return tuple(listed.ordinals[: listed.lengths])


def frame_price(intra: bool, types: Any, models: Any, flag: int, prior: Any) -> int:
    """The bits that encode_global_motion writes, from every start, without writing them ('Prices'). Refuses 2, 4, 7, 8; of
    a key frame 2, 4, 7.

    >>> import belt
    >>> belt.frame_price(False, bytes(7), belt.IDENTITIES, 1, belt.IDENTITIES)
    7
    """
    intra = bool(intra)
    bits: int = call(
        "belt_frame_price",
        intra,
        octets(types, "types", REFERENCES),
        models_of(models, "models", REFERENCES),
        code(flag, "flag"),
        models_of(prior, "prior", None if intra else REFERENCES),
    ).bits
    return bits
