"""python -m belt: the tool `belt`, the wheel's own or the one that is installed."""

import os
import sys

from . import _tool


def main() -> None:
    try:
        path = _tool.find()
    except _tool.ToolError as error:
        raise SystemExit(f"belt: {error}") from None
    if path is None:
        raise SystemExit("belt: the tool isn't installed here; tools/install of the repository does it")
    os.execv(path, [path, *sys.argv[1:]])


if __name__ == "__main__":
    main()
