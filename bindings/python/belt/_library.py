"""The shared library: where it is found, and whether its version fits this package's."""

from __future__ import annotations

import ctypes
import os
from pathlib import Path

# the package's head names its version ahead of every import
from . import __version__, _raw

_NAME = "libbelt.so"


def _path() -> str:
    """BELT_LIB names a folder that has libbelt.so; else the package's own, else its repository's, else the system's."""
    folder = os.environ.get("BELT_LIB")
    if folder:
        # without a folder in it a name would be the system's
        return os.path.abspath(os.path.join(folder, _NAME))
    package = Path(__file__).resolve().parent
    places = [package / "lib" / _NAME]
    if package.parts[-3:] == ("bindings", "python", "belt"):
        places.append(package.parents[2] / "target" / "library" / _NAME)
    for place in places:
        if place.exists():
            return str(place)
    return f"{_NAME}.{__version__.split('.')[0]}"


def _judge(found: int, path: str) -> None:
    """The library fits if its major number is the package's and its minor number at least as high."""
    major, minor, patch = found // 1_000_000, found // 1_000 % 1_000, found % 1_000
    own = [int(part) for part in __version__.split(".")]
    if major != own[0] or minor < own[1]:
        raise ImportError(
            f"the library {path} is of version {major}.{minor}.{patch}, and the package belt of {__version__}: it takes a "
            f"library of {own[0]}.{own[1]} or a later one of {own[0]}"
        )


def _open() -> ctypes.CDLL:
    path = _path()
    try:
        opened = ctypes.CDLL(path)
    except OSError as error:
        message = f"{error}; run bindings/library --shared, or set BELT_LIB to the folder that has {_NAME}"
        raise ImportError(message) from None
    try:
        for name, (parameters, result) in _raw.CALLS.items():
            call = getattr(opened, name)
            call.argtypes = parameters
            call.restype = result
    except AttributeError as error:
        if hasattr(opened, "belt_version"):
            _judge(opened.belt_version(), path)
        raise ImportError(f"{error}: the library {path} isn't of version {__version__}") from None
    _judge(opened.belt_version(), path)
    return opened


library = _open()
