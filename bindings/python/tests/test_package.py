"""The package as its users have it: installed by pip, typed, with an example to each name, as docs/PYTHON.md says."""

import doctest
import importlib
import inspect
import os
import pkgutil
import re
import shutil
import subprocess
import sys
import tempfile
import unittest
import zipfile
from pathlib import Path

PACKAGE = Path(__file__).resolve().parents[1]
TOP = PACKAGE.parents[1]
sys.path.insert(0, str(PACKAGE))
sys.path.insert(0, str(Path(__file__).resolve().parent))

import belt  # noqa: E402
import drawn  # noqa: E402

PAGE = TOP / "docs/PYTHON.md"
TOOL = drawn.tool()


def modules():
    names = [module.name for module in pkgutil.iter_modules(belt.__path__) if module.name != "__main__"]
    return [belt, *(importlib.import_module(f"belt.{name}") for name in names)]


class Names(unittest.TestCase):
    def test_all_is_all(self):
        public = {
            name for name, value in vars(belt).items() if not name.startswith("_") and not inspect.ismodule(value)
        }
        self.assertEqual(sorted(belt.__all__), sorted(public))
        self.assertEqual(len(belt.__all__), len(set(belt.__all__)))

    def test_an_example_to_each(self):
        for name in belt.__all__:
            value = getattr(belt, name)
            if inspect.isfunction(value) or inspect.isclass(value):
                self.assertIn(">>> ", inspect.getdoc(value), name)

    def test_examples_run(self):
        examples = 0
        for module in modules():
            failed, tried = doctest.testmod(module)
            self.assertEqual(failed, 0, module.__name__)
            examples += tried
        self.assertGreater(examples, 200)

    def test_annotations(self):
        self.assertTrue((PACKAGE / "belt/py.typed").is_file())
        try:
            import mypy  # noqa: F401
        except ImportError:
            self.skipTest("mypy isn't here")
        with tempfile.TemporaryDirectory() as cache:
            words = [sys.executable, "-m", "mypy", "--strict", "--cache-dir", cache, "belt"]
            ended = subprocess.run(words, cwd=PACKAGE, capture_output=True, text=True, check=False)
        self.assertEqual(ended.returncode, 0, ended.stdout + ended.stderr)


@unittest.skipUnless(TOOL, "the tool isn't built")
class Installed(unittest.TestCase):
    """The snippets of docs/PYTHON.md, from the installation on, in a copy of the repository's faces."""

    @classmethod
    def setUpClass(cls):
        try:
            import distributed, matplotlib, numpy, setuptools, wheel  # noqa: E401, F401
        except ImportError as error:
            raise unittest.SkipTest(str(error)) from None
        holder = tempfile.TemporaryDirectory()
        cls.addClassCleanup(holder.cleanup)
        cls.top = Path(holder.name, "a copy")
        cls.top.joinpath("bindings").mkdir(parents=True)
        for folder in (TOP, TOP / "bindings"):
            for path in folder.iterdir():
                own = cls.top / path.relative_to(TOP)
                if path.name not in ("bindings", "python", ".git"):
                    own.symlink_to(path)
        shutil.copytree(
            PACKAGE,
            cls.top / "bindings/python",
            ignore=shutil.ignore_patterns("build", "*.egg-info", "__pycache__", ".mypy_cache"),
        )
        cls.environment = {name: value for name, value in os.environ.items() if name not in ("BELT_LIB", "PYTHONPATH")}
        cls.environment.update(BELT_TOOL=TOOL, PATH=f"{os.path.dirname(sys.executable)}:{os.environ['PATH']}")
        cls.snippets = re.findall(r"^```sh\n(.*?)^```$", PAGE.read_text(encoding="utf-8"), re.M | re.S)
        cls.run_here(cls.snippets[0])

    @classmethod
    def run_here(cls, script, **more):
        environment = dict(cls.environment, **more)
        ended = subprocess.run(
            ["bash", "-euc", script], cwd=cls.top, env=environment, capture_output=True, text=True, check=False
        )
        if ended.returncode:
            raise AssertionError(f"{script}ended with {ended.returncode}\n{ended.stdout}{ended.stderr}")
        return ended.stdout

    def test_the_wheel_holds_library_and_tool(self):
        said = self.run_here(
            "env/bin/python -Ic 'import belt; print(belt.__file__); print(belt._library.library._name)'", BELT_TOOL=""
        )
        package, library = said.split("\n")[:2]
        self.assertEqual(Path(package).parent.parent.name, "site-packages")
        self.assertEqual(library, str(Path(package).parent / "lib/libbelt.so"))
        said = self.run_here("env/bin/python -Ic 'import belt; print(belt._tool.find())'", BELT_TOOL="")
        self.assertEqual(said.strip(), str(Path(package).parent / "bin/belt"))
        self.assertEqual(self.run_here("env/bin/python -m belt --version", BELT_TOOL=""), f"belt {belt.__version__}\n")
        self.assertTrue((Path(package).parent / "py.typed").is_file())

    def test_the_page(self):
        tests = Path(__file__).resolve().parent
        said = self.run_here(f"env/bin/python -I '{tests}/page.py' '{PAGE}'", BELT_TOOL="")
        self.assertEqual(int(said), len(re.findall(r"^```python$", PAGE.read_text(encoding="utf-8"), re.M)))
        self.assertTrue((self.top / "seen.png").read_bytes().startswith(b"\x89PNG"))
        for snippet in self.snippets[1:]:
            self.run_here(snippet, BELT_TOOL="")
        self.assertIn("clips/clip.y4m,", (self.top / "table.csv").read_text())

    def test_a_wheel_without_programs(self):
        """Where nothing is built the wheel is for every machine, and takes the library that is installed."""
        with tempfile.TemporaryDirectory() as folder:
            shutil.copytree(
                PACKAGE, Path(folder, "alone"), ignore=shutil.ignore_patterns("build", "*.egg-info", ".mypy_cache")
            )
            build = [
                sys.executable,
                "-m",
                "pip",
                "wheel",
                "--no-index",
                "--no-build-isolation",
                "--no-deps",
                "-w",
                folder,
            ]
            environment = {name: value for name, value in self.environment.items() if name != "BELT_TOOL"}
            subprocess.run([*build, str(Path(folder, "alone"))], env=environment, capture_output=True, check=True)
            (wheel,) = Path(folder).glob("*.whl")
            self.assertEqual(wheel.name, f"belt-{belt.__version__}-py3-none-any.whl")
            held = zipfile.ZipFile(wheel).namelist()
            self.assertIn("belt/py.typed", held)
            self.assertFalse([name for name in held if name.endswith(".so") or name.endswith("bin/belt")])
            unpacked = Path(folder, "unpacked")
            zipfile.ZipFile(wheel).extractall(unpacked)
            library = Path(folder, "lib")
            library.mkdir()
            soname = f"libbelt.so.{belt.__version__.split('.')[0]}"
            shutil.copy(belt._library.library._name, library / soname)
            environment.update(PYTHONPATH=str(unpacked), LD_LIBRARY_PATH=str(library))
            code = "import belt; print(belt._library.library._name, belt.root(4.0))"
            words = [sys.executable, "-c", code]
            ended = subprocess.run(words, cwd=folder, env=environment, capture_output=True, text=True, check=False)
            self.assertEqual((ended.stdout, ended.stderr), (f"{soname} 2.0\n", ""))


if __name__ == "__main__":
    unittest.main()
