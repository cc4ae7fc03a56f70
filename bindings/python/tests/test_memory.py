"""Nothing that a caller does reads or writes beyond his own buffers, and no number wraps."""

import os
import subprocess
import sys
import threading
import time
import unittest
from array import array
from pathlib import Path

PACKAGE = Path(__file__).resolve().parents[1]
sys.path.insert(0, str(PACKAGE))

import belt  # noqa: E402
from belt import IDENTITIES, Model, Settings, StoredModel, _library  # noqa: E402

WORD = 0x0006FB7C
MOVED = WORD + (8 << 2)


class Growing(list):
    """A list that says another length each time, as one may to which another thread appends."""

    def __init__(self, values):
        super().__init__(values)
        self.asked = 0

    def __len__(self):
        self.asked += 1
        return super().__len__() + 250_000 * self.asked


class Lengths(unittest.TestCase):
    """The length that the library is told is the copy's own."""

    def test_lists_that_say_another_length(self):
        # beyond the copy there would be more than 4,096 words, refused with 1, or memory that isn't there
        self.assertEqual(belt.fit_translation(Growing([MOVED] * 3)).numbers[:2], (1.0, 0.0))
        samples = Growing([(7.5, 7.5, 1.0, 0.0)] * 3)
        self.assertEqual(belt.fit_translation_samples(samples).numbers[:2], (1.0, 0.0))
        self.assertEqual(belt.fit_by_class([1], 1, Growing([MOVED]), Growing([1])).numbers[0], 1.0)
        self.assertTrue(belt.setup_shear(3, Growing(belt.STILL)).valid)
        self.assertEqual(belt.frame_price(False, Growing([0] * 7), Growing(IDENTITIES), 1, Growing(IDENTITIES)), 7)

    def test_lists_that_another_thread_lengthens(self):
        words, ended = [MOVED], threading.Event()

        def lengthen():
            while not ended.is_set():
                words.append(MOVED)
                if len(words) > 4000:
                    del words[1:]

        other = threading.Thread(target=lengthen)
        other.start()
        try:
            until = time.monotonic() + 2
            while time.monotonic() < until:
                self.assertEqual(belt.fit_translation(words).numbers[:2], (1.0, 0.0))
        finally:
            ended.set()
            other.join()

    def test_buffers_keep_their_length_during_a_call(self):
        lent = belt._lend.words(array("I", [WORD] * 4))
        self.assertEqual((lent.total, len(lent.elements)), (4, 4))
        held = array("I", [WORD] * 4)
        lent = belt._lend.words(held)
        self.assertRaises(BufferError, held.append, WORD)
        del lent
        held.append(WORD)

    def test_a_buffer_that_was_too_short_can_be_lengthened(self):
        blocks, header, shared = bytearray(511), bytearray(1), bytearray(1024)
        try:
            belt.write_frame(5, [WORD], [3], blocks)
        except belt.Refusal:
            blocks.extend(bytes(1))
        self.assertEqual(belt.write_frame(5, [WORD], [3], blocks), 1)
        moved = (StoredModel((8192, -8192, 65536, 0, 0, 65536)),) + IDENTITIES[1:]
        try:
            belt.Run(1, 2).frame(False, bytes([1, 0, 0, 0, 0, 0, 0]), moved, 0, header)
        except belt.Refusal as refusal:
            header.extend(bytes(refusal.wanted - refusal.given))
        self.assertEqual(len(header), 3)
        try:
            belt.to_form1(shared, shared)
        except ValueError:
            shared.clear()


class Overlaps(unittest.TestCase):
    """What is lent overlaps nothing else of the call."""

    def job(self, **changes):
        width, height = 64, 64
        plane = array("H", range(4096))
        buffers = belt.Buffers(width, height)
        own = {"input_y": plane, "reference": plane, "classes": bytearray(16)}
        own.update({name: value for name, value in changes.items() if name in own})
        for name, value in changes.items():
            if name not in own:
                setattr(buffers, name, value)
        lists = own["input_y"], own["reference"], width, height, Settings(1), own["classes"]
        return belt.job(*lists, buffers)

    def overlaps(self, *names, **changes):
        with self.assertRaises(ValueError) as caught:
            self.job(**changes)
        for name in names:
            self.assertIn(name, str(caught.exception))

    def test_of_a_job(self):
        self.job()
        half = array("H", bytes(2 * 1024))
        self.overlaps("input_half", "ref_half", input_half=half, ref_half=half)
        plane = array("H", range(4096))
        self.overlaps("input_half", "input_y", input_y=plane, input_half=memoryview(plane)[:1024])
        octets = bytearray(1024)
        self.overlaps("blocks", "header", blocks=octets, header=octets)
        self.overlaps("header", "classes", classes=memoryview(octets)[:16], header=memoryview(octets)[8:200])
        # one beside the other is no overlap, and what is only read may be one
        self.job(blocks=memoryview(octets)[:512], header=memoryview(octets)[512:637], input_y=plane, reference=plane)

    def test_of_the_other_calls(self):
        block = bytearray(512)
        belt.write_frame(5, [WORD], [3], block)
        self.assertRaises(ValueError, belt.to_form1, block, block)
        self.assertRaises(ValueError, belt.read_both, block, memoryview(block).cast("I"), bytearray(1))
        shared = bytearray(1024)
        self.assertRaises(ValueError, belt.write_frame, 5, memoryview(shared)[:4].cast("I"), [3], shared)
        plane = array("H", bytes(2 * 4))
        self.assertRaises(ValueError, belt.make_practice_planes, 1, 2, 2, 0, 0, plane, plane)
        run, header = belt.Run(1, 2), bytearray(200)
        self.assertRaises(ValueError, run.frame, False, memoryview(header)[:7], IDENTITIES, 0, header)


class Numbers(unittest.TestCase):
    """A number that doesn't fit its C type is an error, and never another number."""

    def test_sides(self):
        plane, classes = array("H", bytes(2 * 4096)), bytes(16)

        def job(width, height=64):
            return belt.job(plane, plane, width, height, Settings(1), classes, belt.Buffers(64, 64))

        self.assertEqual(job(64).samples, 16)
        for side in (2**64 + 64, -64, -(2**64) + 64):
            self.assertRaises(OverflowError, job, side)
            self.assertRaises(OverflowError, job, 64, side)
        for side in ([64], 64.0, "64", None):
            self.assertRaises(TypeError, job, side)

    def test_codes(self):
        words = [MOVED] * 4
        for code in (256, 257, -1, 2**64 + 1):
            self.assertRaises(OverflowError, belt.elect, code, words)
            self.assertRaises(OverflowError, belt.fit_trimmed, code, words)
            self.assertRaises(OverflowError, belt.set_of, code)
        self.assertRaises(OverflowError, belt.coefficient_prices, 1, 1, 0, 2**32)
        self.assertRaises(OverflowError, belt.quantize_global_param, 1, 1, 0, 2**31)
        self.assertRaises(OverflowError, belt.write_frame, 65536 + 5, [WORD], [0], bytearray(512))
        self.assertRaises(OverflowError, belt.fit_translation, [2**32 + WORD])
        self.assertRaises(OverflowError, belt.write_frame, 5, [WORD], [256], bytearray(512))
        self.assertRaises(OverflowError, belt.Run, 1, 2**32 + 1)
        self.assertRaises(TypeError, belt.fit_translation, [1.5])
        self.assertRaises(TypeError, belt.fit_translation, memoryview(bytes(4)).cast("I", ()))
        over = (StoredModel((2**32, 0, 65536, 0, 0, 65536)),) + IDENTITIES[:6]
        self.assertRaises(OverflowError, belt.frame_price, False, bytes(7), IDENTITIES, 1, over)
        self.assertRaises(OverflowError, belt.mean_sq_residual, Model((2**31, 0, 0, 0, 0, 0)), words)

    def test_short_samples_and_models(self):
        for sample in ((), (1.0,), (1.0, 2.0, 3.0), (1.0, 2.0, 3.0, 4.0, 5.0)):
            self.assertRaises(ValueError, belt.fit_translation_samples, [(1.0, 2.0, 3.0, 4.0), sample])
            self.assertRaises(ValueError, belt.elect_samples_by_class, [1], 1, [sample], [1])
        for numbers in ((), (1.0, 2.0), (0.0,) * 7):
            fitted = belt.Fitted(1, numbers)
            self.assertRaises(ValueError, belt.quantize_model, fitted, 1, [MOVED])
            self.assertRaises(ValueError, belt.quantize_by_class, [1], fitted, 1, [MOVED], [1])
            self.assertRaises(ValueError, belt.quantize_model_samples, fitted, 1, [(1.0, 2.0, 3.0, 4.0)])
            self.assertRaises(ValueError, belt.quantize_samples_by_class, [1], fitted, 1, [(0.0,) * 4], [1])
        self.assertRaises(ValueError, Model, (1, 2, 3))
        self.assertRaises(ValueError, StoredModel, (1, 2, 3))

    def test_sides_that_arent_the_buffers(self):
        try:
            import numpy
        except ImportError:
            rows = memoryview(array("H", range(64 * 32))).cast("B").cast("H", (32, 64))
        else:
            rows = numpy.arange(64 * 32, dtype=numpy.uint16).reshape(32, 64)
        belt.job(rows, rows, 64, 32, Settings(1), bytes(8), belt.Buffers(64, 32))
        with self.assertRaises(ValueError) as caught:
            belt.job(rows, rows, 32, 64, Settings(1), bytes(8), belt.Buffers(32, 64))
        self.assertIn("32×64", str(caught.exception))
        made = memoryview(bytearray(2 * 64 * 32)).cast("H", (32, 64)), array("H", bytes(2 * 64 * 32))
        belt.make_practice_planes(1, 64, 32, 0, 0, *made)
        self.assertRaises(ValueError, belt.make_practice_planes, 1, 32, 64, 0, 0, *made)
        classes = memoryview(bytearray(8)).cast("B", (4, 2))
        self.assertRaises(ValueError, belt.job, rows, rows, 64, 32, Settings(1), classes, belt.Buffers(64, 32))


class Found(unittest.TestCase):
    """The library is found, and held to its version."""

    def python(self, code, folder=None, **environment):
        own = {name: value for name, value in os.environ.items() if not name.startswith("BELT_")}
        own.update(environment, PYTHONPATH=str(PACKAGE))
        return subprocess.run(
            [sys.executable, "-c", code], cwd=folder, env=own, capture_output=True, text=True, check=False
        )

    def folder(self):
        return os.path.dirname(_library.library._name)

    def test_in_the_working_folder(self):
        ended = self.python("import belt; print(belt._library.library._name)", self.folder(), BELT_LIB=".")
        self.assertEqual((ended.stdout.strip(), ended.stderr), (os.path.join(self.folder(), "libbelt.so"), ""))

    def test_where_it_isnt(self):
        ended = self.python("import belt", BELT_LIB="/no/such/folder")
        self.assertIn("ImportError: /no/such/folder/libbelt.so", ended.stderr)

    def test_its_version(self):
        found = _library.library.belt_version()
        self.assertEqual(
            found, sum(int(part) * 1000**place for place, part in enumerate(belt.__version__.split(".")[::-1]))
        )
        major, minor = found // 1_000_000, found // 1_000 % 1_000
        for fits in (found, found + 1, found + 1_000):
            _library._judge(fits, "libbelt.so")
        for other in (found + 1_000_000, (major * 1_000 + minor - 1) * 1_000):
            with self.assertRaises(ImportError) as caught:
                _library._judge(other, "libbelt.so")
            self.assertIn(belt.__version__, str(caught.exception))
            self.assertIn(f"{other // 1_000_000}.{other // 1_000 % 1_000}.", str(caught.exception))

    def test_a_library_of_another_version(self):
        """A library with every call, which says the version after the next major one, isn't taken."""
        import tempfile

        calls = "\n".join(f"int {name}(void) {{ return 2000000; }}" for name in belt._raw.CALLS)
        older = "int belt_elect(void) { return 0; }"
        for source, said in ((calls, "is of version 2.0.0"), (older, "isn't of version " + belt.__version__)):
            with tempfile.TemporaryDirectory() as folder:
                build = ["cc", "-shared", "-fPIC", "-x", "c", "-", "-o", os.path.join(folder, "libbelt.so")]
                subprocess.run(build, input=source, text=True, check=True)
                ended = self.python("import belt", BELT_LIB=folder)
                self.assertIn("ImportError", ended.stderr)
                self.assertIn(said, ended.stderr)


if __name__ == "__main__":
    unittest.main()
