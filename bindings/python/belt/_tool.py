"""The tool `belt`, over pipes: it measures real footage, and there is one such code."""

from __future__ import annotations

import functools
import os
import re
import shutil
import subprocess
from pathlib import Path
from typing import List, Optional, Sequence, Tuple

from . import __version__
from ._refusal import REFUSALS, Refusal

_OWN = Path(__file__).resolve().parent / "bin" / "belt"


class ToolError(RuntimeError):
    """The tool `belt` didn't do what it was asked for; its own words say why.

    >>> import belt
    >>> raise belt.ToolError("belt ended with status 2")
    Traceback (most recent call last):
    belt._tool.ToolError: belt ended with status 2
    """


@functools.lru_cache(maxsize=None)
def _version(path: str) -> Optional[str]:
    """What a program says of its version, if it is the tool."""
    try:
        said = subprocess.run([path, "--version"], stdin=subprocess.DEVNULL, capture_output=True, check=False)
    except OSError as error:
        raise ToolError(f"{path}: {error.strerror}") from None
    found = re.fullmatch(r"belt (\d+\.\d+\.\d+)\s*", said.stdout.decode("utf-8", "replace"))
    return found[1] if found and said.returncode == 0 else None


def find() -> Optional[str]:
    """The tool: BELT_TOOL, else the package's own, else the path's; None if there is none. One of another version is an
    error, since its answers may be others."""
    named = os.environ.get("BELT_TOOL")
    path = named or (str(_OWN) if _OWN.exists() else shutil.which("belt"))
    if path is None:
        return None
    version = _version(path)
    if version is None and not named:
        return None
    if version is None:
        raise ToolError(f"BELT_TOOL is {path}, which isn't the tool belt")
    theirs, ours = (tuple(map(int, one.split(".")[:2])) for one in (version, __version__))
    if theirs[0] != ours[0] or theirs[1] < ours[1]:
        raise ToolError(
            f"the tool {path} is of version {version}, and the package belt of {__version__}; robust=False measures without"
        )
    return path


def run(path: str, arguments: Sequence[str], files: Sequence[Tuple[str, bytes]] = ()) -> Tuple[bytes, str]:
    """Runs the tool; what it puts out, and what it says. A file stands in memory; among the arguments its name in braces
    stands for it."""
    numbers: List[int] = []
    try:
        words = list(arguments)
        for name, content in files:
            number = os.memfd_create(name)
            numbers.append(number)
            with open(number, "wb", closefd=False) as file:
                file.write(content)
            words = [word.replace("{" + name + "}", f"/dev/fd/{number}") for word in words]
        ended = subprocess.run(
            [path, *words], stdin=subprocess.DEVNULL, capture_output=True, check=False, pass_fds=numbers
        )
    except OSError as error:
        raise ToolError(f"{path}: {error.strerror}") from None
    finally:
        for number in numbers:
            os.close(number)
    said = ended.stderr.decode("utf-8", "replace")
    for (name, _), number in zip(files, numbers):
        said = said.replace(f"/dev/fd/{number}", name)
    if ended.returncode:
        _fail(ended.returncode, said.strip())
    return ended.stdout, said


def _fail(status: int, said: str) -> None:
    """A refusal of the library is a Refusal here too."""
    refused = re.search(r"refused, (\d+): ", said)
    if status == 1 and refused and int(refused[1]) in REFUSALS:
        raise Refusal(int(refused[1]))
    raise ToolError(said if said else f"belt ended with status {status}")
