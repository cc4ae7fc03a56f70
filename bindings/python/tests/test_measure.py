"""belt.measure and belt.track: by the library alone, and by the tool, whose answers they are."""

import json
import math
import os
import random
import subprocess
import sys
import threading
import unittest
from array import array
from html.parser import HTMLParser
from pathlib import Path
from unittest import mock

sys.path.insert(0, str(Path(__file__).resolve().parents[1]))
sys.path.insert(0, str(Path(__file__).resolve().parent))

import belt  # noqa: E402
import drawn  # noqa: E402
from belt import Refusal, _by_tool, _tool  # noqa: E402

try:
    import numpy
except ImportError:
    numpy = None
try:
    import matplotlib

    matplotlib.use("Agg")
except ImportError:
    matplotlib = None

SIDE = 160
STILL = drawn.frame(SIDE, SIDE)
PANNED = drawn.frame(SIDE, SIDE, drawn.pan(4.25, -2.5))
TURNED_MODEL = (3.0, -1.5, 1.012, -0.01, 0.006, 0.994)
TURNED = drawn.frame(SIDE, SIDE, TURNED_MODEL)
TOOL = drawn.tool()


def bytes_of(values):
    return drawn.view(values, SIDE, SIDE)


def words_of(values, times=16):
    return drawn.view([times * value for value in values], SIDE, SIDE, "H")


def without_tool():
    return mock.patch.object(_tool, "find", lambda: None)


def with_tool():
    return mock.patch.dict(os.environ, BELT_TOOL=TOOL)


class ByLibrary(unittest.TestCase):
    """Without the tool, or where it isn't wanted, it is the library's election and fits."""

    def near(self, motion, u, v, within=0.1):
        self.assertLess(math.hypot(motion.u - u, motion.v - v), within, motion)

    def test_a_pan(self):
        for first, second in ((bytes_of(STILL), bytes_of(PANNED)), (words_of(STILL), words_of(PANNED))):
            with without_tool():
                seen = belt.measure(first, second)
            self.assertEqual(seen, belt.measure(first, second, robust=False))
            self.assertEqual(
                (seen.status, seen.how, seen.by, seen.type), ("measured", "elected", "library", "translation")
            )
            self.near(seen.motion, 4.25, -2.5)
            self.assertEqual((seen.usable, seen.blocks, len(seen.words)), (100, 100, 100))
            self.assertGreater(seen.share, 0.7)
            # the grid is an eighth of a pel, and the fit isn't on it
            self.assertEqual(seen.stored_model.shift, belt.Motion(4.25, -2.5))
            self.assertNotEqual(tuple(seen.numbers[:2]), seen.stored_model.shift)
            back = belt.read_global_motion_params(seen.header, 0, 1, belt.IDENTITIES)
            self.assertEqual(
                (back.types[0], back.models[0], back.bits), (seen.stored_type, seen.stored, seen.header_bits)
            )

    def test_types(self):
        first, second = bytes_of(STILL), bytes_of(TURNED)
        for name, code in (("rotzoom", 2), ("affine", 3)):
            seen = belt.measure(first, second, type=name, robust=False)
            self.assertEqual(seen, belt.measure(first, second, type=code, robust=False))
            self.assertEqual((seen.how, seen.stored_type), ("trimmed" if seen.status == "measured" else None, code))
            plain = belt.measure(first, second, type=name, trim=False, robust=False)
            self.assertEqual(plain.how, "plain" if plain.status == "measured" else None)
            if code == 3:
                self.assertEqual((seen.status, seen.type), ("measured", "affine"))
                for x, y in ((0, 0), (SIDE, 0), (0, SIDE), (SIDE, SIDE)):
                    m0, m1, m2, m3, m4, m5 = TURNED_MODEL
                    self.near(seen.motion_at(x, y), (m2 - 1) * x + m3 * y + m0, m4 * x + (m5 - 1) * y + m1, 0.15)
                model = belt.Model(round(65536 * number) for number in seen.numbers)
                self.assertAlmostEqual(seen.zoom, model.zoom, 4)
                self.assertAlmostEqual(seen.degrees, model.degrees, 2)

    def test_statuses(self):
        def status(first, second, **more):
            return belt.measure(first, second, robust=False, **more).status

        still = bytes_of(STILL)
        self.assertEqual(status(still, still), "still")
        self.assertEqual(status(still, still, type="translation"), "still")
        flat = bytes_of([9] * SIDE * SIDE)
        self.assertEqual([status(flat, flat), status(still, flat), status(flat, still)], ["flat"] * 3)
        small = drawn.view(STILL[: 15 * 40], 15, 40)
        self.assertEqual(status(small, small), "no-blocks")
        mixed = bytes_of(drawn.frame(SIDE, SIDE, drawn.pan(9, 0), is_own=lambda x, y: (x // 32 + y // 32) % 2))
        seen = belt.measure(still, mixed, robust=False)
        self.assertEqual((seen.status, seen.motion, seen.numbers, seen.type), ("unexplained", None, None, None))
        self.assertEqual([warning.name for warning in seen.warnings], ["few-agree"])
        self.assertIn("it isn't known how it moved", str(seen))

    def test_classes(self):
        # the left half moves, and is fibre; the right half stands, and is metal
        second = bytes_of(drawn.frame(SIDE, SIDE, drawn.pan(5, 3), is_own=lambda x, y: x < SIDE // 2))
        classes = [belt.FIBRE if place % 10 < 5 else belt.METAL for place in range(100)]
        fibre = belt.measure(bytes_of(STILL), second, classes=classes, set=[belt.FIBRE], robust=False)
        metal = belt.measure(bytes_of(STILL), second, classes=bytes(classes), set=1 << belt.METAL, robust=False)
        self.assertEqual((fibre.status, fibre.usable, fibre.classes), ("measured", 50, bytes(classes)))
        self.near(fibre.motion, 5, 3, 0.2)
        self.assertEqual((metal.status, metal.usable), ("still", 50))

    def test_what_is_turned_away(self):
        good = bytes_of(STILL)

        def raises(error, first, second=good, **more):
            self.assertRaises(error, belt.measure, first, second, robust=False, **more)

        raises(ValueError, drawn.view(STILL[: 80 * SIDE], SIDE, 80))
        raises(ValueError, drawn.view(STILL[: 80 * SIDE], 80, SIDE), drawn.view(STILL[: 80 * SIDE], SIDE, 80))
        raises(ValueError, array("B", STILL))
        raises(ValueError, memoryview(bytes(SIDE * SIDE)).cast("B", (SIDE, SIDE // 2, 2)))
        raises(TypeError, STILL)
        raises(TypeError, drawn.view(STILL, SIDE, SIDE, "i"), drawn.view(STILL, SIDE, SIDE, "i"))
        raises(TypeError, drawn.view([float(value) for value in STILL], SIDE, SIDE, "d"), good)
        raises(TypeError, words_of(STILL), good)
        raises(ValueError, good, type="turn")
        raises(Refusal, good, type=4)
        raises(Refusal, good, set=())
        raises(Refusal, good, set=[5])
        raises(Refusal, good, classes=bytes([5] * 100))
        raises(OverflowError, good, bits=9)
        raises(ValueError, words_of(STILL), words_of(PANNED), bits=10)
        with self.assertRaises(Refusal) as caught:
            belt.measure(good, good, classes=bytes(99), robust=False)
        self.assertEqual((caught.exception.name, caught.exception.given, caught.exception.wanted), ("classes", 99, 100))
        wide = memoryview(bytes(1025 * 16)).cast("B", (16, 1025))
        with self.assertRaises(Refusal) as caught:
            belt.measure(wide, wide)
        self.assertEqual(caught.exception.number, 1)

    def test_crops_and_views(self):
        """What lies otherwise in memory is copied, and is the same picture."""
        room = array("B", bytes(2 * 200 * 200))
        for y in range(SIDE):
            for x in range(SIDE):
                room[2 * (200 * (y + 7) + x + 9)] = STILL[SIDE * y + x]
        whole = memoryview(room)
        seen = belt.measure(bytes_of(STILL), bytes_of(PANNED), robust=False)
        if numpy is None:
            self.assertEqual(whole[::2].tobytes()[:3], bytes(3))
            return
        wide = numpy.asarray(whole).reshape(200, 400)
        crop = wide[7 : 7 + SIDE, 18 : 18 + 2 * SIDE : 2]
        panned = numpy.array(PANNED, dtype=numpy.uint8).reshape(SIDE, SIDE)
        read_only = numpy.frombuffer(bytes(STILL), dtype=numpy.uint8).reshape(SIDE, SIDE)
        for first in (crop, numpy.asfortranarray(crop), crop[::-1, ::-1][::-1, ::-1], read_only, crop.copy()):
            self.assertEqual(belt.measure(first, panned, robust=False), seen)
        deep, deeper = (numpy.array(values, dtype=numpy.uint16).reshape(SIDE, SIDE) for values in (STILL, PANNED))
        both = belt.measure(deep, deeper, robust=False), belt.measure(
            deep.astype(">u2"), deeper.astype(">u2"), robust=False
        )
        self.assertEqual(both[0], both[1])
        self.assertEqual(both[0].words, seen.words)
        swapped = belt.measure(crop.T, panned.T, robust=False)
        self.near(swapped.motion, -2.5, 4.25)

    def test_many_threads(self):
        pairs = [(STILL, PANNED), (PANNED, STILL), (STILL, STILL), (PANNED, TURNED)]
        wanted = [belt.measure(bytes_of(a), bytes_of(b), robust=False) for a, b in pairs]
        found = {}

        def work(number):
            a, b = pairs[number % 4]
            found[number] = belt.measure(bytes_of(a), bytes_of(b), robust=False)

        threads = [threading.Thread(target=work, args=(number,)) for number in range(12)]
        for thread in threads:
            thread.start()
        for thread in threads:
            thread.join()
        self.assertEqual([found[number] for number in range(12)], wanted * 3)


class Tracks(unittest.TestCase):
    def test_pairs_in_their_order(self):
        frames = [bytes_of(drawn.frame(SIDE, SIDE, drawn.pan(2.0 * k * k, 0))) for k in range(4)]
        for threads in (1, 2, 8):
            seen = list(belt.track(frames, robust=False, threads=threads))
            self.assertEqual([round(one.motion.u) for one in seen], [2, 6, 10])
        self.assertEqual(seen[1], belt.measure(frames[1], frames[2], robust=False))
        self.assertEqual(list(belt.track(frames[:1], robust=False)), [])
        self.assertEqual(list(belt.track([], robust=False)), [])

    def test_one_buffer_for_all_frames(self):
        room = bytearray(SIDE * SIDE)
        given = []

        def camera():
            for number, values in enumerate((STILL, PANNED, STILL)):
                room[:] = bytes(values)
                given.append(number)
                yield memoryview(room).cast("B", (SIDE, SIDE))

        seen = []
        for one in belt.track(camera(), robust=False, threads=1):
            seen.append((round(one.motion.u, 1), given[-1]))
        # each answer before the next frame is asked for
        self.assertEqual([last for _, last in seen], [1, 2])
        self.assertAlmostEqual(seen[0][0], 4.2, delta=0.2)
        self.assertAlmostEqual(seen[1][0], -4.2, delta=0.2)

    def test_an_end_on_the_way(self):
        endless = iter(lambda: bytes_of(STILL), None)
        answers = belt.track(endless, robust=False)
        self.assertEqual(next(answers).status, "still")
        answers.close()
        frames = [bytes_of(STILL), bytes_of(STILL), drawn.view(STILL[: 80 * SIDE], SIDE, 80)]
        answers = belt.track(frames, robust=False, threads=1)
        self.assertEqual(next(answers).status, "still")
        self.assertRaises(ValueError, next, answers)
        # what is asked wrongly is said at once, and not with the first pair
        self.assertRaises(ValueError, belt.track, frames, type="turn")


class Numbers(unittest.TestCase):
    def test_the_six_numbers_of_what_the_tool_says(self):
        draw = random.Random(43)
        for name in ("identity", "translation", "rotzoom", "affine"):
            for _ in range(100):
                width, height = draw.randrange(16, 1025), draw.randrange(16, 1025)
                u, v = draw.uniform(-30, 30), draw.uniform(-30, 30)
                a, b, c, d = (draw.uniform(-0.14, 0.14) for _ in range(4))
                numbers = {
                    "identity": (0.0, 0.0, 1.0, 0.0, 0.0, 1.0),
                    "translation": (u, v, 1.0, 0.0, 0.0, 1.0),
                    "rotzoom": (u, v, 1 + a, b, -b, 1 + a),
                    "affine": (u, v, 1 + a, b, c, 1 + d),
                }[name]
                m0, m1, m2, m3, m4, m5 = numbers
                x, y = (width - 1) / 2, (height - 1) / 2
                told = {
                    "type": name,
                    "first_pel_right": m0,
                    "first_pel_down": m1,
                    "right_pels": (m2 - 1) * x + m3 * y + m0,
                    "down_pels": m4 * x + (m5 - 1) * y + m1,
                    "zoom": math.hypot(m2 + m5, m4 - m3) / 2,
                    "angle_degrees": math.degrees(math.atan2(m4 - m3, m2 + m5)),
                }
                for own, wanted in zip(_by_tool.numbers_of(told, width, height), numbers):
                    self.assertAlmostEqual(own, wanted, delta=1e-11)
        self.assertIsNone(_by_tool.numbers_of({"type": None}, 64, 64))


@unittest.skipUnless(TOOL, "the tool isn't built")
class ByTool(unittest.TestCase):
    """Where the tool is installed, the answer is its own."""

    def setUp(self):
        patched = with_tool()
        patched.start()
        self.addCleanup(patched.stop)

    def said(self, first, second, *words):
        """What the tool says of two lists, by files."""
        import tempfile

        with tempfile.TemporaryDirectory() as folder:
            paths = []
            for name, values in (("a.pgm", first), ("b.pgm", second)):
                paths.append(os.path.join(folder, name))
                Path(paths[-1]).write_bytes(b"P5 %d %d 255\n" % (SIDE, SIDE) + bytes(values))
            ended = subprocess.run([TOOL, "measure", *paths, "--json", *words], capture_output=True, check=True)
        return json.loads(ended.stdout)

    def test_answers_are_the_tools(self):
        changed = bytes(min(255, value // 2 + 60) for value in PANNED)
        asked = [
            (STILL, PANNED, {}, ()),
            (STILL, TURNED, {}, ()),
            (STILL, changed, {}, ()),
            (STILL, STILL, {}, ()),
            (STILL, [9] * SIDE * SIDE, {}, ()),
            (STILL, TURNED, {"type": "affine"}, ("--type", "affine", "--trim")),
            (STILL, TURNED, {"type": 2, "trim": False}, ("--type", "rotzoom")),
        ]
        for first, second, more, words in asked:
            seen, said = belt.measure(bytes_of(first), bytes_of(second), **more), self.said(first, second, *words)
            with self.subTest(status=said["status"], type=said["measured"]["type"], words=words):
                self.assertEqual((seen.by, seen.status, seen.how), ("tool", said["status"], said["how"]))
                self.assertEqual(seen.type, said["measured"]["type"])
                self.assertEqual(
                    (seen.agree, seen.usable, seen.blocks), (said["agree"], said["usable"], said["blocks"])
                )
                self.assertEqual((seen.within, seen.predicted), (said["within_pels"], said["predicted"]))
                self.assertEqual(list(seen.stored), said["stored"]["numbers"])
                self.assertEqual([one.name for one in seen.warnings], [one["name"] for one in said["warnings"]])
                self.assertEqual(
                    (seen.header.hex().upper(), seen.header_bits), (said["header"]["bytes"], said["header"]["bits"])
                )
                if said["measured"]["type"]:
                    self.assertAlmostEqual(seen.motion.u, said["measured"]["right_pels"], delta=1e-9)
                    self.assertAlmostEqual(seen.motion.v, said["measured"]["down_pels"], delta=1e-9)
                    self.assertAlmostEqual(seen.zoom, said["measured"]["zoom"], delta=1e-11)
                    self.assertAlmostEqual(seen.degrees, said["measured"]["angle_degrees"], delta=1e-9)
                else:
                    self.assertIsNone(seen.motion)

    def test_real_motion_with_other_light(self):
        """The library elects nothing where the light changes; the tool measures."""
        changed = bytes_of([min(255, value // 2 + 60) for value in PANNED])
        seen = belt.measure(bytes_of(STILL), changed)
        self.assertEqual((seen.by, seen.status), ("tool", "measured"))
        self.assertLess(math.hypot(seen.motion.u - 4.25, seen.motion.v + 2.5), 0.1)
        self.assertEqual(belt.measure(bytes_of(STILL), changed, robust=False).by, "library")

    def test_deep_frames(self):
        """Pels of 12 bits in 16 are measured as 12 bits are."""
        for times, bits in ((1, None), (16, None), (16, 12), (256, 16)):
            seen = belt.measure(words_of(STILL, times), words_of(PANNED, times), bits=bits)
            self.assertEqual((seen.status, seen.by), ("measured", "tool"))
            self.assertLess(math.hypot(seen.motion.u - 4.25, seen.motion.v + 2.5), 0.1)

    def test_classes_and_sets(self):
        second = drawn.frame(SIDE, SIDE, drawn.pan(5, 3), is_own=lambda x, y: x < SIDE // 2)
        classes = bytes(belt.FIBRE if place % 10 < 5 else belt.METAL for place in range(100))
        fibre = belt.measure(bytes_of(STILL), bytes_of(second), classes=classes, set=[belt.FIBRE])
        self.assertEqual((fibre.status, fibre.classes), ("measured", classes))
        self.assertLess(math.hypot(fibre.motion.u - 5, fibre.motion.v - 3), 0.2)
        self.assertEqual(belt.measure(bytes_of(STILL), bytes_of(second), classes=classes, set=[3]).status, "still")
        small = drawn.view(STILL[: 15 * 40], 15, 40)
        seen = belt.measure(small, small)
        self.assertEqual((seen.status, seen.by, len(seen.words), seen.motion), ("no-blocks", "tool", 0, None))

    def test_refusals_and_errors(self):
        few = drawn.view(STILL[: 16 * 32], 32, 16)
        with self.assertRaises(Refusal) as caught:
            belt.measure(few, few, type="affine")
        self.assertEqual(caught.exception.number, 15)
        with mock.patch.dict(os.environ, BELT_TOOL="/no/such/belt"):
            self.assertRaises(belt.ToolError, belt.measure, few, few)
        with mock.patch.dict(os.environ, BELT_TOOL="/bin/true"):
            self.assertRaises(belt.ToolError, belt.measure, few, few)
            self.assertEqual(belt.measure(few, few, robust=False).by, "library")
        with mock.patch.object(_tool, "_version", lambda path: "0.13.9"):
            self.assertRaises(belt.ToolError, belt.measure, few, few)

    def test_tracks_are_the_tools(self):
        """A drawn clip by belt.track, and by belt track."""
        import tempfile

        frames = [STILL, PANNED, TURNED, TURNED, [9] * SIDE * SIDE]
        with tempfile.TemporaryDirectory() as folder:
            clip = os.path.join(folder, "clip.y4m")
            Path(clip).write_bytes(
                b"YUV4MPEG2 W%d H%d F25:1 Cmono\n" % (SIDE, SIDE) + b"".join(b"FRAME\n" + bytes(one) for one in frames)
            )
            ended = subprocess.run([TOOL, "track", clip, "--json"], capture_output=True, check=True)
        rows = [json.loads(line) for line in ended.stdout.splitlines()]
        seen = list(belt.track([bytes_of(one) for one in frames]))
        self.assertEqual(len(seen), len(rows))
        for one, row in zip(seen, rows):
            self.assertEqual((one.status, one.how, one.type), (row["status"], row["how"], row["type"]))
            self.assertEqual((one.agree, one.usable, one.blocks), (row["agree"], row["usable"], row["blocks"]))
            for own, name in ((one.motion, "right_pels"), (one.zoom, "zoom"), (one.degrees, "angle_degrees")):
                value = own.u if isinstance(own, belt.Motion) else own
                if row[name] is None:
                    self.assertIsNone(value)
                else:
                    self.assertAlmostEqual(value, row[name], delta=1e-6)

    def test_the_tool_as_a_module(self):
        package = str(Path(__file__).resolve().parents[1])
        environment = dict(os.environ, PYTHONPATH=package)
        ended = subprocess.run(
            [sys.executable, "-m", "belt", "--version"], env=environment, capture_output=True, text=True
        )
        self.assertEqual((ended.returncode, ended.stdout), (0, f"belt {belt.__version__}\n"))


class Table(HTMLParser):
    def __init__(self, text):
        super().__init__()
        self.open, self.words = [], []
        self.feed(text)

    def handle_starttag(self, tag, attributes):
        self.open.append(tag)

    def handle_endtag(self, tag):
        assert self.open.pop() == tag, tag

    def handle_data(self, data):
        self.words.append(data)


class Shown(unittest.TestCase):
    def setUp(self):
        self.seen = belt.measure(bytes_of(STILL), bytes_of(PANNED), robust=False)

    def test_html(self):
        table = Table(self.seen._repr_html_())
        self.assertEqual(table.open, [])
        text = " ".join(table.words)
        for part in (
            "It moved 4.",
            "pels right and 2.",
            "pels up",
            "stored translation",
            "-163840 278528",
            "agreement",
        ):
            self.assertIn(part, text)
        import dataclasses

        odd = dataclasses.replace(self.seen, warnings=(belt.Warned("<b>", "a & b"),))
        self.assertIn("&lt;b&gt;: a &amp; b", odd._repr_html_())

    def test_words(self):
        self.assertRegex(str(self.seen), r"^it moved 4\.\d+ pels right and 2\.\d+ pels up; \d+ of 100 blocks \(\d+ %\)")

    @unittest.skipUnless(numpy, "numpy isn't here")
    def test_samples(self):
        samples = self.seen.samples
        self.assertEqual(samples.dtype.names, ("row", "column", "x", "y", "u", "v", "class", "off"))
        self.assertEqual(samples.shape, (100,))
        self.assertEqual((samples["row"].max(), samples["column"].max(), samples["x"][13]), (9, 9, 55.5))
        self.assertEqual(int((samples["off"] <= self.seen.within).sum()), self.seen.agree)
        lent = numpy.stack([samples[name] for name in "xyuv"], axis=1)
        self.assertEqual(belt.elect_samples(1, lent), belt.elect(1, self.seen.words))
        self.assertEqual(belt.elect_samples(1, samples[["x", "y", "u", "v"]].tolist()), belt.elect(1, self.seen.words))
        self.assertRaises(ValueError, belt.elect_samples, 1, lent[:, :3].copy())

    @unittest.skipUnless(matplotlib and numpy, "matplotlib isn't here")
    def test_plots(self):
        import matplotlib.pyplot as pyplot
        from matplotlib.quiver import Quiver

        own = pyplot.subplots()[1]
        picture = numpy.array(STILL, dtype=numpy.uint8).reshape(SIDE, SIDE)
        self.assertIs(self.seen.plot(own, picture=picture), own)
        arrows = [drawn_arrows for drawn_arrows in own.collections if isinstance(drawn_arrows, Quiver)]
        self.assertEqual(sum(len(one.U) for one in arrows), 100)
        self.assertEqual((own.get_xlim(), own.get_ylim()), ((-0.5, 159.5), (159.5, -0.5)))
        self.assertEqual((len(own.images), own.get_title()[:9]), (1, "It moved "))
        unexplained = belt.measure(bytes_of(STILL), bytes_of(STILL[::-1]), robust=False)
        small = drawn.view(STILL[: 15 * 40], 15, 40)
        for seen in (unexplained, belt.measure(small, small, robust=False)):
            self.assertIsNotNone(seen.plot().figure)
        pyplot.close("all")


if __name__ == "__main__":
    unittest.main()
