"""Puts the library and the tool into the wheel, where they are built; all else is in pyproject.toml.

The library is BELT_LIB/libbelt.so, else the repository's target/library/libbelt.so (bindings/library --shared makes it);
the tool is BELT_TOOL, else the repository's (tools/cargo build --release in tools/belt). Without them the wheel has neither,
and the package takes those that are installed.
"""

import os
import shutil
from pathlib import Path

from setuptools import Distribution, setup
from setuptools.command.build_py import build_py

try:
    from setuptools.command.bdist_wheel import bdist_wheel
except ImportError:
    from wheel.bdist_wheel import bdist_wheel

TOP = Path(__file__).resolve().parents[2]


def place(named, own):
    """A file that an environment variable names must be there; the repository's own may."""
    if named:
        path = Path(named)
        if not path.is_absolute() or not path.is_file():
            raise SystemExit(f"belt: {path} isn't there; BELT_LIB and BELT_TOOL are absolute paths here")
        return path
    return TOP / own if (TOP / own).is_file() else None


def built():
    """Where each file that is built goes in the package."""
    folder = os.environ.get("BELT_LIB")
    library = place(folder and os.path.join(folder, "libbelt.so"), "target/library/libbelt.so")
    tool = place(os.environ.get("BELT_TOOL"), "tools/belt/target/release/belt")
    places = [(library, "lib/libbelt.so"), (tool, "bin/belt")]
    return [(path, goes) for path, goes in places if path]


class Build(build_py):
    def run(self):
        super().run()
        if getattr(self, "editable_mode", False):
            # the package stays in the repository, and finds them there
            return
        for path, goes in built():
            target = Path(self.build_lib, "belt", goes)
            target.parent.mkdir(parents=True, exist_ok=True)
            shutil.copy(path, target)
            target.chmod(0o755)


class Wheel(bdist_wheel):
    def get_tag(self):
        """For every Python 3, and for one machine where it holds programs."""
        platform = super().get_tag()[2]
        return "py3", "none", platform


class Package(Distribution):
    def has_ext_modules(self):
        return bool(built())


setup(cmdclass={"build_py": Build, "bdist_wheel": Wheel}, distclass=Package)
