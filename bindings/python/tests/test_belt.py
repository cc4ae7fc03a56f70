"""The Python package: the same jobs and refusals as the Rust crate's tests, with guard values around every buffer."""

import ctypes
import math
import sys
import unittest
from array import array
from dataclasses import replace
from pathlib import Path

sys.path.insert(0, str(Path(__file__).resolve().parents[1]))

import belt  # noqa: E402
from belt import IDENTITIES, Model, Refusal, Settings, StoredModel  # noqa: E402

GUARD = 37


def noise(y, x):
    h = (y * 2654435761 ^ x * 2246822519) & 0xFFFFFFFF
    h = (h ^ h >> 15) * 3266489917 & 0xFFFFFFFF
    return h >> 20


def noisy(width, height):
    return array("H", (noise(y, x) for y in range(height) for x in range(width)))


def moved(plane, width, height, dy, dx):
    """Each pel is the plane's at (y + dy, x + dx); edges repeat."""

    def held(at, side):
        return min(max(at, 0), side - 1)

    return array(
        "H", (plane[held(y + dy, height) * width + held(x + dx, width)] for y in range(height) for x in range(width))
    )


class Guarded:
    """A job's buffers as views into longer ones that are full of a pattern."""

    def __init__(self, width, height, shorter=None):
        needed = belt.Buffers(width, height)
        self.whole = {}
        for name, pattern in [
            ("input_half", 0xA55A),
            ("ref_half", 0x5AA5),
            ("words", 0xA5A55A5A),
            ("blocks", 0xA5),
            ("header", 0x5A),
        ]:
            own = getattr(needed, name)
            code = {"blocks": "B", "header": "B"}.get(name) or own.typecode
            length = len(own) - (1 if name == shorter else 0)
            self.whole[name] = array(code, [pattern] * (length + 2 * GUARD))
            setattr(self, name, memoryview(self.whole[name])[GUARD : GUARD + length])

    def state(self):
        return {name: whole.tobytes() for name, whole in self.whole.items()}

    def guards(self):
        return {name: (whole[:GUARD], whole[-GUARD:]) for name, whole in self.whole.items()}


def task(width=48, height=32, gm_type=1, **changes):
    plane = noisy(width, height)
    samples = belt.sample_count(width, height)
    arguments = dict(
        input_y=plane,
        reference=plane,
        width=width,
        height=height,
        settings=Settings(4660, gm_type=gm_type, reference=3, flag=1, start=5),
        classes=bytes(i % 5 for i in range(samples)),
        types=bytes(6),
        models=IDENTITIES[:6],
        prior=IDENTITIES,
    )
    arguments.update(changes)
    return arguments


def words(count):
    return array("I", ((i % 4096) << 20 | 223 << 11 | 223 << 2 for i in range(count)))


class Jobs(unittest.TestCase):
    def run_job(self, arguments):
        width, height = arguments["width"], arguments["height"]
        buffers = Guarded(width, height)
        guards = buffers.guards()
        report = belt.job(buffers=buffers, **arguments)
        self.assertEqual(buffers.guards(), guards)
        settings = arguments["settings"]
        samples = belt.sample_count(width, height)
        self.assertEqual(report.samples, samples)

        alone = Guarded(width, height)
        found = belt.collect_motion_samples(
            arguments["input_y"],
            arguments["reference"],
            width,
            height,
            arguments["classes"],
            alone.input_half,
            alone.ref_half,
            alone.words,
        )
        self.assertEqual(found.samples, samples)
        self.assertTrue(736 * samples <= found.rows <= 6184 * samples)
        for name in ("input_half", "ref_half", "words"):
            self.assertEqual(alone.whole[name], buffers.whole[name])

        fit = (belt.fit_translation, belt.fit_rotzoom, belt.fit_affine)[settings.gm_type - 1]
        fitted = fit(buffers.words)
        model = belt.quantize_model(fitted, settings.flag, buffers.words)
        self.assertEqual(report.models[settings.reference - 1], model.row_first(settings.gm_type))
        self.assertEqual(report.score, belt.mean_sq_residual(model, buffers.words))
        made = [belt.sample_of(word)[2:6] for word in buffers.words]
        fits = (belt.fit_translation_samples, belt.fit_rotzoom_samples, belt.fit_affine_samples)
        self.assertEqual(fits[settings.gm_type - 1](made), fitted)
        self.assertEqual(belt.quantize_model_samples(fitted, settings.flag, made), model)
        self.assertEqual(belt.mean_sq_residual_samples(model, made), report.score)
        for slot, number in enumerate(model):
            self.assertEqual(belt.quantize_global_param(settings.gm_type, settings.flag, slot, number), number)

        start = settings.start
        read = belt.read_global_motion_params(buffers.header, start, settings.flag, arguments["prior"])
        self.assertEqual((read.types, read.models, read.bits), (report.types, report.models, report.bits))
        again = bytearray(b"\x5a" * belt.HEADER_BYTES)
        prior = arguments["prior"]
        wrote = belt.encode_inter_global_motion(report.types, report.models, settings.flag, prior, start, again)
        self.assertEqual(wrote, report.bits)
        used = -(-(start + report.bits) // 8)
        self.assertEqual(again[:used], bytes(buffers.header[:used]))
        self.assertEqual(bytes(buffers.header[used:]), b"\x5a" * (belt.HEADER_BYTES - used))

        back, classes = array("I", [0] * samples), bytearray(samples)
        self.assertEqual(belt.read_both(buffers.blocks, back, classes), (settings.frame, samples))
        self.assertEqual((back.tolist(), classes), (buffers.words.tolist(), arguments["classes"]))
        for ordinal in range(len(buffers.blocks) // belt.BLOCK_BYTES):
            block = buffers.blocks[belt.BLOCK_BYTES * ordinal :]
            most = belt.FORM_SAMPLES[belt.FORM_2]
            count = min(most, samples - most * ordinal)
            self.assertEqual(belt.judge_block(block), (settings.frame, ordinal, count))
            lines = belt.list_block(block).splitlines()
            self.assertEqual(lines[0], f"frame {settings.frame} block {ordinal} count {count}")
            self.assertEqual(len(lines), 1 + count)
        return report, buffers

    def test_a_pan_by_whole_pels(self):
        for dy, dx in [(0, 0), (4, -6), (-8, 2)]:
            reference = noisy(96, 80)
            input_y = moved(reference, 96, 80, dy, dx)
            report, buffers = self.run_job(task(96, 80, input_y=input_y, reference=reference))
            model = report.models[2].x_first(belt.TRANSLATION)
            self.assertEqual(model.shift, (dx, dy))
            self.assertEqual((model.zoom, model.degrees, report.score), (1.0, 0.0, 0.0))
            self.assertEqual(model.agreeing(buffers.words, 0.0), 30)
            sample = belt.sample_of(buffers.words[7])
            self.assertEqual(sample, (1, 1, 23.5, 23.5, dx, dy, 0))

    def test_all_types_and_two_blocks(self):
        reference = noisy(192, 176)
        input_y = moved(reference, 192, 176, 3, 5)
        for gm_type in (1, 2, 3):
            report, _ = self.run_job(task(192, 176, gm_type, input_y=input_y, reference=reference))
            self.assertEqual(report.samples, 132)

    def test_a_pan_beyond_the_range(self):
        reference = noisy(192, 96)
        input_y = moved(reference, 192, 96, 0, 40)
        report, buffers = self.run_job(task(192, 96, input_y=input_y, reference=reference))
        self.assertLess(report.models[2].x_first(1).agreeing(buffers.words, 0.25), report.samples // 3)

    def test_other_models_and_priors(self):
        affine = StoredModel((1024, -2048, 65538, 2, -4, 65534))
        rotzoom = StoredModel((-1024, 2048, 65546, -6, 6, 65546))
        translation = StoredModel((8192, -16384, 65536, 0, 0, 65536))
        models = (affine, rotzoom, translation, IDENTITIES[0], translation, affine)
        prior = (StoredModel((4_000_000, -77, 65536 + 8192, -8192, 5, 65536 - 8192)),) * 7
        report, _ = self.run_job(task(64, 64, 3, types=[3, 2, 1, 0, 1, 3], models=models, prior=prior))
        self.assertEqual(report.models[:2] + report.models[3:], models)

    def test_no_samples_touch_nothing(self):
        buffers = Guarded(15, 40)
        before = buffers.state()
        report = belt.job(buffers=buffers, **task(15, 40))
        self.assertEqual((report.samples, report.score), (0, 0.0))
        after = buffers.state()
        self.assertNotEqual(after.pop("header"), before.pop("header"))
        self.assertEqual(after, before)


def bowl(place=lambda r, c: (r, c)):
    """The bowl of docs/RULES.md, 'Job', at the places that are given of row and column."""

    def square(at, middle):
        return (min(max(at, 0), 63) - middle) ** 2

    places = [place(r, c) for r in range(64) for c in range(64)]
    return array("H", [square(r, 31) + 2 * square(c, 29) for r, c in places])


class Elections(unittest.TestCase):
    def job(self, place, gm_type=1, trim=0):
        settings = Settings(5, gm_type=gm_type, reference=7, flag=1, start=5, trim=trim, elect=1)
        buffers = Guarded(64, 64)
        buffers.header[:] = array("B", b"\xff" * belt.HEADER_BYTES)
        guards = buffers.guards()
        report = belt.job(buffers=buffers, **task(64, 64, input_y=bowl(place), reference=bowl(), settings=settings))
        self.assertEqual(buffers.guards(), guards)
        read = belt.read_global_motion_params(buffers.header, 5, 1, IDENTITIES)
        self.assertEqual((read.types, read.models, read.bits), (report.types, report.models, report.bits))
        words, classes = array("I", [0] * 16), bytearray(16)
        self.assertEqual(belt.read_both(buffers.blocks, words, classes), (5, 16))
        self.assertEqual((words.tolist(), classes), (buffers.words.tolist(), bytes(i % 5 for i in range(16))))
        elected = belt.elect(1, words)
        self.assertEqual((elected.gm_type, elected.model), (report.types[6], report.models[6]))
        self.assertEqual(elected.score, report.score)
        self.assertEqual(belt.mean_sq_residual(elected.model.x_first(elected.gm_type), words), report.score)
        self.assertEqual(belt.elect_samples(1, [belt.sample_of(word)[2:6] for word in words]), elected)
        used = -(-(5 + report.bits) // 8)
        return elected, report.bits, bytes(buffers.header[:used]).hex().upper()

    def test_bowls(self):
        for place, gm_type, model, score, bits, header in [
            (lambda r, c: (r, c), 0, belt.STILL, 0.0, 7, "F800"),
            (
                lambda r, c: (r + 2, c - 3),
                belt.TRANSLATION,
                (131072, -196608, 65536, 0, 0, 65536),
                float.fromhex("0x1.8p-9"),
                27,
                "F81781CF",
            ),
            (
                lambda r, c: (r + c // 16 - 2, c - r // 16 + 1),
                belt.ROTZOOM,
                (95232, -160768, 65542, -4078, 4078, 65542),
                float.fromhex("0x1.cb15ap-11"),
                61,
                "F81B7FDFB7E75F8E40",
            ),
            (
                lambda r, c: (r, c + r // 8),
                belt.AFFINE,
                (-1024, -108544, 65742, 6708, 4826, 64626),
                float.fromhex("0x1.55dc03250p+0"),
                100,
                "F813E9DFFD1A7FE5B5FD8D1FA980",
            ),
        ]:
            for asked, trim in [(1, 0), (0, 255), (255, 2)]:
                with self.subTest(elected=gm_type, asked=asked):
                    elected = belt.Elected(gm_type, StoredModel(model), score)
                    self.assertEqual(self.job(place, asked, trim), (elected, bits, header))

    def test_zoom(self):
        elected, bits, _ = self.job(lambda r, c: (r + r // 16, c + c // 16))
        self.assertEqual((elected.gm_type, bits), (belt.ROTZOOM, 55))
        self.assertEqual(elected.model, StoredModel((-29696, -30720, 69638, -22, 22, 69638)))
        self.assertEqual(elected.score, float.fromhex("0x1.58af304p-4"))

    def test_few_samples(self):
        for width, samples in [(15, 0), (16, 1), (48, 3)]:
            buffers = Guarded(width, 16)
            reference = noisy(width, 16)
            arguments = task(width, 16, input_y=moved(reference, width, 16, 0, 4), reference=reference)
            report = belt.job(
                buffers=buffers,
                **dict(arguments, settings=Settings(1, gm_type=3, reference=1, flag=1, start=0, trim=1, elect=1)),
            )
            energy = belt.mean_sq_residual(Model(belt.STILL), buffers.words)
            self.assertEqual(report, ((0,) * 7, IDENTITIES, energy, 7, samples))


class Sets(unittest.TestCase):
    # four blocks of fibre that move by 10 pels to the right, and four of film that move by 5 up
    WORDS = [column << 20 | 223 << 11 | 303 << 2 for column in range(4)]
    WORDS += [1 << 26 | column << 20 | 183 << 11 | 223 << 2 for column in range(4)]
    CLASSES = bytes([belt.FIBRE] * 4 + [belt.FILM] * 4)

    def test_fibre_and_film(self):
        for class_bits in (0, 3):
            words, classes = [word | class_bits for word in self.WORDS], self.CLASSES
            for named, motion, energy, stored, count in [
                ([belt.FIBRE], (10.0, 0.0), 100.0, (0, 655360), 4),
                ((belt.FILM,), (0.0, -5.0), 25.0, (-327680, 0), 4),
                ({belt.FIBRE, belt.FILM}, (5.0, -2.5), 62.5, (0, 0), 8),
                (belt.ALL_CLASSES, (5.0, -2.5), 62.5, (0, 0), 8),
                (range(5), (5.0, -2.5), 62.5, (0, 0), 8),
            ]:
                with self.subTest(named=named, class_bits=class_bits):
                    fitted = belt.fit_by_class(named, 1, words, classes)
                    self.assertEqual(fitted, belt.Fitted(1, motion + (0.0,) * 4))
                    model = belt.quantize_by_class(named, fitted, 1, words, classes)
                    self.assertEqual(model.shift, motion)
                    self.assertEqual(belt.score_by_class(named, Model(belt.STILL), words, classes), energy)
                    self.assertEqual(belt.fit_trimmed_by_class(named, 1, words, classes), (fitted, count))
                    self.assertEqual(belt.quantize_trimmed_by_class(named, 1, 1, words, classes), (model, count))
                    elected = belt.elect_by_class(named, 1, words, classes)
                    self.assertEqual((elected.gm_type, elected.model[:2]), (int(any(stored)), stored))
                    self.assertEqual(elected.score, 0.0 if any(stored) else energy)

    def test_samples(self):
        """Samples that are made from words have the words' answers, whatever stands in those that aren't named."""
        made = [belt.sample_of(word)[2:6] for word in self.WORDS]
        strange = (math.nan, math.inf, -0.0, 1e300)
        for named in ([belt.FIBRE], [belt.FILM], [belt.FIBRE, belt.FILM], [belt.METAL], belt.ALL_CLASSES):
            bits = belt.set_of(named)
            others = [x if bits >> kind & 1 else strange for x, kind in zip(made, self.CLASSES)]
            lists, still = (self.WORDS, self.CLASSES), Model(belt.STILL)
            for samples in (made, others):
                lent = samples, self.CLASSES
                with self.subTest(named=named):
                    fitted = belt.fit_samples_by_class(named, 1, *lent)
                    self.assertEqual(str(fitted), str(belt.fit_by_class(named, 1, *lists)))
                    model = belt.quantize_samples_by_class(named, fitted, 1, *lent)
                    self.assertEqual(model, belt.quantize_by_class(named, fitted, 1, *lists))
                    score = belt.score_samples_by_class(named, still, *lent)
                    self.assertEqual(score, belt.score_by_class(named, still, *lists))
                    elected = belt.elect_samples_by_class(named, 1, *lent)
                    self.assertEqual(elected, belt.elect_by_class(named, 1, *lists))
                    if named != [belt.METAL]:
                        trimmed = belt.fit_trimmed_samples_by_class(named, 1, *lent)
                        self.assertEqual(trimmed, belt.fit_trimmed_by_class(named, 1, *lists))
                        trimmed = belt.quantize_trimmed_samples_by_class(named, 1, 0, *lent)
                        self.assertEqual(trimmed, belt.quantize_trimmed_by_class(named, 1, 0, *lists))

    def test_a_class_without_samples(self):
        named = [belt.METAL]
        fitted = belt.fit_by_class(named, 1, self.WORDS, self.CLASSES)
        self.assertTrue(all(number != number for number in fitted.numbers[:2]))
        self.assertEqual(belt.quantize_by_class(named, fitted, 1, self.WORDS, self.CLASSES), Model(belt.STILL))
        self.assertEqual(belt.score_by_class(named, Model(range(6)), self.WORDS, self.CLASSES), 0.0)
        self.assertEqual(belt.elect_by_class(named, 1, self.WORDS, self.CLASSES), (0, StoredModel(belt.STILL), 0.0))

    def test_bits(self):
        self.assertEqual([belt.set_of(named) for named in ((), [4, 1, 4], b"\x00\x03", 255)], [0, 18, 9, 255])
        self.assertEqual([belt.set_of([number]) for number in (5, 7, 8, 200, 10**9)], [32, 128, 128, 128, 128])
        for named in (-1, 256, [-1]):
            with self.assertRaises(OverflowError):
                belt.set_of(named)

    def job(self, place, named, gm_type=0, trim=0, elect=1):
        settings = Settings(5, gm_type=gm_type, reference=7, flag=1, start=5, trim=trim, elect=elect, set=named)
        buffers = Guarded(64, 64)
        buffers.header[:] = array("B", b"\xff" * belt.HEADER_BYTES)
        guards = buffers.guards()
        arguments = task(64, 64, input_y=bowl(place), reference=bowl(), settings=settings)
        report = belt.job(buffers=buffers, **arguments)
        self.assertEqual(buffers.guards(), guards)
        words, classes = array("I", [0] * 16), bytearray(16)
        self.assertEqual(belt.read_both(buffers.blocks, words, classes), (5, 16))
        self.assertEqual((words.tolist(), classes), (buffers.words.tolist(), arguments["classes"]))
        return report, buffers

    def test_bowls(self):
        three = (belt.UNSORTED, belt.FIBRE, belt.FILM)
        for place, named, gm_type, model, score, bits in [
            (
                lambda r, c: (r + r // 16, c + c // 16),
                three,
                belt.ROTZOOM,
                (-29696, -31744, 69644, -38, 38, 69644),
                "0x1.46e6ce6666666p-10",
                57,
            ),
            (
                lambda r, c: (r, c + r // 8),
                three,
                belt.AFFINE,
                (9216, -86016, 64810, 7296, 4182, 64256),
                "0x1.4119e0d866666p+0",
                109,
            ),
            (lambda r, c: (r + 2, c - 3), [belt.RIGID_PLASTIC], 0, belt.STILL, "0x1.9ad5555555555p+3", 7),
        ]:
            with self.subTest(elected=gm_type):
                report, buffers = self.job(place, named)
                self.assertEqual((report.types[6], report.models[6]), (gm_type, StoredModel(model)))
                self.assertEqual((report.score, report.bits), (float.fromhex(score), bits))
                classes = bytes(i % 5 for i in range(16))
                elected = belt.elect_by_class(named, 1, buffers.words, classes)
                self.assertEqual(elected, (gm_type, report.models[6], report.score))
        self.assertEqual(bytes(buffers.header[:2]) + bytes(buffers.blocks[508:]), bytes.fromhex("F8005BAFD427"))

    def test_all_five(self):
        for gm_type, trim, elect in [(1, 0, 0), (2, 1, 0), (3, 0, 0), (0, 0, 1)]:
            by_default = Settings(5, gm_type=gm_type, reference=7, flag=1, start=5, trim=trim, elect=elect)
            reports = []
            for settings in (by_default, replace(by_default, set=range(5)), replace(by_default, set=31)):
                buffers = Guarded(64, 64)
                place = lambda r, c: (r + r // 16, c + c // 16)  # noqa: E731
                arguments = task(64, 64, input_y=bowl(place), reference=bowl(), settings=settings)
                reports.append((belt.job(buffers=buffers, **arguments), buffers.state()))
            self.assertEqual(reports[1:], reports[:1] * 2)


class Refused(unittest.TestCase):
    def refused(self, number, call, *arguments, **named):
        with self.assertRaises(Refusal) as caught:
            call(*arguments, **named)
        self.assertEqual((caught.exception.number, caught.exception.text), (number, belt.REFUSALS[number]))
        refusal = caught.exception
        length = f": {refusal.name} has {refusal.given} elements, {refusal.wanted} are wanted" if refusal.name else ""
        self.assertEqual(str(refusal), f"{number}: {belt.REFUSALS[number]}{length}")
        # rows 2 and 3 are those of a length, and say whose
        self.assertEqual(refusal.name is not None, number in (2, 3))


class Refusals(Refused):
    def test_the_table(self):
        self.assertEqual(list(belt.REFUSALS), [1, 18, 2, 4, 19, 5, 14, 7, 8, 12, 13, 3, 15, 17, 6, 16, 9, 10, 11])
        rules = (Path(__file__).resolve().parents[3] / "docs" / "RULES.md").read_text(encoding="utf-8")
        for number, text in belt.REFUSALS.items():
            self.assertIn(f"| {number} | {text} |", rules)

    def test_job(self):
        def stored(place, value):
            numbers = list(belt.STILL)
            numbers[place] = value
            return StoredModel(numbers)

        changes = [
            (1, dict(width=1025)),
            (1, dict(height=2**40)),
            (2, dict(width=47)),
            (2, dict(input_y=noisy(48, 32)[:-1])),
            (2, dict(reference=array("H"))),
            (2, dict(classes=bytes(5))),
            (2, dict(types=bytes(7))),
            (2, dict(models=IDENTITIES[:5])),
            (2, dict(prior=IDENTITIES[:6])),
            (4, dict(classes=bytes([0, 0, 0, 0, 0, 5]))),
            (4, dict(settings=Settings(1, gm_type=0, reference=1, flag=1))),
            (4, dict(settings=Settings(1, gm_type=4, reference=1, flag=1))),
            (4, dict(settings=Settings(1, gm_type=1, reference=1, flag=2))),
            (4, dict(settings=Settings(1, gm_type=1, reference=1, flag=1, trim=2))),
            (4, dict(settings=Settings(1, gm_type=1, reference=1, flag=1, elect=2))),
            (4, dict(settings=Settings(1, gm_type=1, reference=1, flag=2, elect=1))),
            (4, dict(settings=Settings(1, gm_type=1, reference=1, flag=1, set=[belt.FIBRE, 5]))),
            (4, dict(settings=Settings(1, gm_type=1, reference=1, flag=1, set=[200]))),
            (4, dict(settings=Settings(1, gm_type=1, reference=0, flag=1, set=32))),
            (19, dict(settings=Settings(1, gm_type=1, reference=0, flag=1, set=0))),
            (19, dict(settings=Settings(1, gm_type=1, reference=1, flag=1, start=8, elect=1, set=()))),
            (4, dict(types=bytes([0, 0, 0, 0, 0, 4]))),
            (5, dict(settings=Settings(1, gm_type=1, reference=0, flag=1))),
            (5, dict(settings=Settings(1, gm_type=1, reference=8, flag=1))),
            (14, dict(settings=Settings(1, gm_type=1, reference=1, flag=1, start=8))),
            (14, dict(settings=Settings(1, gm_type=1, reference=1, flag=1, start=2**64 - 1))),
            (7, dict(models=(stored(0, 1),) + IDENTITIES[:5])),
            (7, dict(models=IDENTITIES[:5] + (stored(2, 65537),), types=[0, 0, 0, 0, 0, 3])),
            (8, dict(prior=(stored(3, 8193),) + IDENTITIES[:6])),
            (8, dict(prior=IDENTITIES[:6] + (stored(1, -(2**31)),))),
            (15, dict(settings=Settings(1, gm_type=3, reference=1, flag=1, trim=1))),
            (15, dict(settings=Settings(0, gm_type=3, reference=1, flag=1, trim=1))),
            (15, dict(settings=Settings(0, gm_type=1, reference=1, flag=1, trim=1, set=[belt.FILM]))),
            (17, dict(settings=Settings(0, gm_type=2, reference=1, flag=1, trim=1))),
            (17, dict(settings=Settings(0, gm_type=3, reference=1, flag=1, trim=1, elect=1))),
        ]
        for number, change in changes:
            buffers = Guarded(48, 32)
            before = buffers.state()
            with self.subTest(number=number, change=list(change)):
                arguments = task()
                arguments.update(change)
                self.refused(number, belt.job, buffers=buffers, **arguments)
                self.assertEqual(buffers.state(), before)
        for name in ("input_half", "ref_half", "words", "blocks", "header"):
            buffers = Guarded(48, 32, shorter=name)
            before = buffers.state()
            self.refused(3, belt.job, buffers=buffers, **task())
            self.assertEqual(buffers.state(), before)

    def test_a_singular_job_leaves_the_search_behind(self):
        for gm_type in (2, 3):
            buffers, alone = Guarded(16, 16), Guarded(16, 16)
            arguments = task(16, 16, gm_type)
            self.refused(6, belt.job, buffers=buffers, **arguments)
            lists = arguments["input_y"], arguments["reference"], 16, 16, arguments["classes"]
            belt.collect_motion_samples(*lists, alone.input_half, alone.ref_half, alone.words)
            self.assertEqual(buffers.state(), alone.state())

    def test_search(self):
        def call(width=48, pels=1536, ref_pels=1536, classes=bytes(6), rooms=(384, 384, 6)):
            plane = noisy(48, 32)
            lent = array("H", [9] * rooms[0]), array("H", [8] * rooms[1]), array("I", [7] * rooms[2])
            before = [one.tobytes() for one in lent]
            try:
                return belt.collect_motion_samples(plane[:pels], plane[:ref_pels], width, 32, classes, *lent)
            except Refusal:
                self.assertEqual([one.tobytes() for one in lent], before)
                raise

        self.assertEqual(call().samples, 6)
        self.refused(1, call, width=1025)
        self.refused(2, call, pels=1535)
        self.refused(2, call, ref_pels=1535)
        self.refused(2, call, classes=bytes(5))
        self.assertEqual(call(classes=bytes([belt.FILM] * 6)).samples, 6)
        self.refused(4, call, classes=bytes([5] * 6))
        self.refused(3, call, rooms=(383, 384, 6))
        self.refused(3, call, rooms=(384, 383, 6))
        self.refused(3, call, rooms=(384, 384, 5))

    def test_fits_scores_and_grid(self):
        many = words(4097)
        for fit in (belt.fit_translation, belt.fit_rotzoom, belt.fit_affine):
            self.refused(1, fit, many)
            fit(many[:4096])
        for fit in (belt.fit_rotzoom, belt.fit_affine):
            self.refused(6, fit, [])
            self.refused(6, fit, many[:1])
        self.assertTrue(all(number != number for number in belt.fit_translation([]).numbers[:2]))
        still = Model(belt.STILL)
        self.refused(1, belt.mean_sq_residual, still, many)
        self.assertEqual(belt.mean_sq_residual(still, []), 0.0)
        self.assertEqual(belt.mean_sq_residual(Model((65536, 0, 65536, 0, 0, 65536)), many[:3]), 1.0)
        numbers = (0.0, 0.0, 1.0, 0.0, 0.0, 1.0)
        self.refused(1, belt.quantize_model, belt.Fitted(3, numbers), 1, many)
        self.refused(4, belt.quantize_model, belt.Fitted(0, numbers), 1, many[:9])
        self.refused(4, belt.quantize_model, belt.Fitted(3, numbers), 2, many[:9])
        self.assertEqual(belt.quantize_model(belt.Fitted(3, numbers), 1, many[:9]), still)
        self.refused(4, belt.quantize_global_param, 4, 0, 0, 0)
        self.refused(5, belt.quantize_global_param, 3, 1, 6, 0)
        self.assertEqual(belt.quantize_global_param(3, 0, 2, 65537), 65538)
        self.assertEqual(belt.quantize_global_param(1, 1, 1, -4096), -8192)

    def test_fits_after_trimming(self):
        def moving(*eighths):
            return [place << 20 | 223 << 11 | (223 + u) << 2 for place, u in enumerate(eighths)]

        self.assertEqual(belt.fit_trimmed(1, moving(0, 0, 0, 0, 80)), (belt.Fitted(1, (0.0,) * 6), 4))
        self.assertEqual(belt.fit_trimmed(1, moving(0, 0, 0, 80, -40)), (belt.Fitted(1, (1.0,) + (0.0,) * 5), 5))
        self.assertEqual(belt.quantize_trimmed(1, 1, moving(0, 0, 0, 0, 80)), (Model(belt.STILL), 4))
        self.refused(1, belt.fit_trimmed, 1, words(4097))
        self.refused(4, belt.fit_trimmed, 0, [])
        self.refused(4, belt.quantize_trimmed, 1, 2, [])
        for gm_type, least in ((1, 4), (2, 6), (3, 8)):
            self.refused(15, belt.fit_trimmed, gm_type, words(least - 1))
            self.refused(15, belt.quantize_trimmed, gm_type, 1, words(least - 1))
        self.refused(6, belt.fit_trimmed, 2, [words(1)[0]] * 6)

    def test_fits_of_samples_after_trimming(self):
        def moving(*motions):
            return [(0.1 * place, -0.2, u, 0.0) for place, u in enumerate(motions)]

        fitted, used = belt.fit_trimmed_samples(1, moving(0.1, 0.1, 0.1, 0.1, 80))
        self.assertEqual((fitted.numbers, used), ((0.1,) + (0.0,) * 5, 4))
        self.assertEqual(belt.fit_trimmed_samples(1, moving(1e150, 0, 0, 0)).used, 4)
        self.assertEqual(belt.quantize_trimmed_samples(1, 1, moving(0, 0, 0, 0, 80)), (Model(belt.STILL), 4))
        self.refused(1, belt.fit_trimmed_samples, 0, moving(*[0.0] * 4097))
        self.refused(1, belt.quantize_trimmed_samples, 1, 2, moving(*[0.0] * 4097))
        self.refused(4, belt.fit_trimmed_samples, 4, [])
        self.refused(4, belt.quantize_trimmed_samples, 1, 2, [])
        self.refused(15, belt.fit_trimmed_samples, 1, moving(math.nan, 0, 0))
        self.refused(6, belt.fit_trimmed_samples, 2, [(1.0, 2.0, math.nan, 0.0)] * 6)
        for far in (1e200, math.inf, math.nan):
            self.refused(16, belt.fit_trimmed_samples, 1, moving(far, 0, 0, 0))
            self.refused(16, belt.quantize_trimmed_samples, 1, 0, moving(far, 0, 0, 0))

    def test_by_class(self):
        def unmoved(gm_type):
            return belt.Fitted(gm_type, (0.0, 0.0, 1.0, 0.0, 0.0, 1.0))

        calls = {
            "fit": lambda named, *lists: belt.fit_by_class(named, 1, *lists),
            "quantize": lambda named, *lists: belt.quantize_by_class(named, unmoved(1), 1, *lists),
            "score": lambda named, *lists: belt.score_by_class(named, Model(belt.STILL), *lists),
            "fit_trimmed": lambda named, *lists: belt.fit_trimmed_by_class(named, 1, *lists),
            "quantize_trimmed": lambda named, *lists: belt.quantize_trimmed_by_class(named, 1, 1, *lists),
            "elect": lambda named, *lists: belt.elect_by_class(named, 1, *lists),
        }
        film = bytes([belt.FILM] * 9)
        for name, call in calls.items():
            with self.subTest(call=name):
                self.refused(1, call, (), words(4097), film)
                self.refused(2, call, (), words(9), film[1:])
                self.refused(2, call, [9], words(8), film)
                self.refused(4, call, (), words(9), film[1:] + b"\x05")
                self.refused(4, call, [belt.FIBRE], words(9), film[1:] + b"\x05")
                self.refused(4, call, [belt.FILM, 5], words(9), film)
                self.refused(19, call, (), words(9), film)
                self.refused(19, call, 0, [], b"")
                call([belt.FILM], words(9), film)
                call(belt.ALL_CLASSES, words(4096), bytes(4096))
                if "trimmed" in name:
                    self.refused(15, call, [belt.FIBRE], words(9), film)
                else:
                    call([belt.FIBRE], words(9), film)
        lent = {
            "fit": lambda named, *lists: belt.fit_samples_by_class(named, 1, *lists),
            "quantize": lambda named, *lists: belt.quantize_samples_by_class(named, unmoved(1), 1, *lists),
            "score": lambda named, *lists: belt.score_samples_by_class(named, Model(belt.STILL), *lists),
            "fit_trimmed": lambda named, *lists: belt.fit_trimmed_samples_by_class(named, 1, *lists),
            "quantize_trimmed": lambda named, *lists: belt.quantize_trimmed_samples_by_class(named, 1, 1, *lists),
            "elect": lambda named, *lists: belt.elect_samples_by_class(named, 1, *lists),
        }
        samples = [(1.0, 2.0, 3.0, 4.0)] * 4097
        for name, call in lent.items():
            with self.subTest(call=name, over="samples"):
                self.refused(1, call, (), samples, film)
                self.refused(2, call, (), samples[:9], film[1:])
                self.refused(4, call, (), samples[:9], film[1:] + b"\x05")
                self.refused(4, call, [belt.FILM, 5], samples[:9], film)
                self.refused(19, call, (), samples[:9], film)
                call([belt.FILM], samples[:9], film)
                if "trimmed" in name:
                    self.refused(15, call, [belt.FIBRE], samples[:9], film)
                else:
                    call([belt.FIBRE], samples[:9], film)
        for named in ((), belt.ALL_CLASSES):
            self.refused(4, belt.fit_samples_by_class, named, 0, samples[:9], film)
            self.refused(4, belt.quantize_samples_by_class, named, unmoved(3), 2, samples[:9], film)
            self.refused(4, belt.fit_trimmed_samples_by_class, named, 4, samples[:9], film)
            self.refused(4, belt.quantize_trimmed_samples_by_class, named, 3, 2, samples[:9], film)
            self.refused(4, belt.elect_samples_by_class, named, 2, samples[:9], film)
        far = [(0.0, 0.0, 1e200, 0.0)] + samples[:4]
        classes = bytes([belt.FILM] + [belt.FIBRE] * 4)
        self.refused(16, belt.fit_trimmed_samples_by_class, belt.ALL_CLASSES, 1, far, classes)
        self.assertEqual(belt.fit_trimmed_samples_by_class([belt.FIBRE], 1, far, classes).used, 4)
        self.refused(16, belt.elect_samples_by_class, belt.ALL_CLASSES, 1, far, classes)
        self.assertEqual(belt.elect_samples_by_class([belt.FIBRE], 1, far, classes).gm_type, 1)
        for named in ((), belt.ALL_CLASSES):
            self.refused(4, belt.fit_by_class, named, 0, words(9), film)
            self.refused(4, belt.quantize_by_class, named, unmoved(3), 2, words(9), film)
            self.refused(4, belt.fit_trimmed_by_class, named, 4, words(9), film)
            self.refused(4, belt.quantize_trimmed_by_class, named, 3, 2, words(9), film)
            self.refused(4, belt.elect_by_class, named, 2, words(9), film)
        for gm_type in (2, 3):
            self.refused(6, belt.fit_by_class, [belt.FIBRE], gm_type, words(9), film)
        mixed = film[:4] + bytes([belt.FIBRE] * 5)
        self.refused(15, belt.fit_trimmed_by_class, [belt.FILM], belt.ROTZOOM, words(9), mixed)
        self.assertRaises(TypeError, belt.score_by_class, [belt.FILM], StoredModel(belt.STILL), words(9), film)

    def test_elections(self):
        def moving(*eighths):
            return [place << 20 | 223 << 11 | (223 + u) << 2 for place, u in enumerate(eighths)]

        def elected(flag, words):
            answer = belt.elect(flag, words)
            self.assertEqual(belt.elect_samples(flag, [belt.sample_of(word)[2:6] for word in words]), answer)
            return answer.gm_type, answer.model[:2], answer.score

        self.assertEqual(elected(1, moving(4, 4, 4, 4)), (1, (0, 32768), 0.0))
        self.assertEqual(elected(1, moving(3, 3, 3, 3)), (0, (0, 0), 0.140625))
        self.assertEqual(elected(1, moving(80, 80, 80)), (0, (0, 0), 100.0))
        self.assertEqual(elected(0, moving(13, 13, 13, 13)), (1, (0, 114688), 0.015625))
        self.assertEqual(elected(1, moving(13, 13, 13, 13)), (1, (0, 106496), 0.0))
        self.assertEqual(elected(1, moving(80) * 8), (1, (0, 655360), 0.0))
        self.assertEqual(elected(1, []), (0, (0, 0), 0.0))
        self.refused(1, belt.elect, 2, words(4097))
        self.refused(4, belt.elect, 2, [])
        self.refused(1, belt.elect_samples, 2, [(0.0,) * 4] * 4097)
        self.refused(4, belt.elect_samples, 255, [])

        def row(*motions):
            return [(7.5 + 16 * place, 7.5, u, 0.0) for place, u in enumerate(motions)]

        self.assertEqual(belt.elect_samples(1, row(math.nan, 8.0, 8.0)).gm_type, 0)
        self.assertEqual(belt.elect_samples(1, row(*[1.2e154, -1.2e154] * 2)), (0, StoredModel(belt.STILL), math.inf))
        for far in (1e200, math.inf, math.nan):
            self.refused(16, belt.elect_samples, 1, row(far, 8.0, 8.0, 8.0))

    def test_fits_and_scores_of_samples(self):
        many = [(0.1 * i, 0.2, math.inf, -0.0) for i in range(4097)]
        for fit in (belt.fit_translation_samples, belt.fit_rotzoom_samples, belt.fit_affine_samples):
            self.refused(1, fit, many)
        self.assertEqual(belt.fit_translation_samples(many[:4096]).numbers[0], math.inf)
        for fit in (belt.fit_rotzoom_samples, belt.fit_affine_samples):
            self.refused(6, fit, [])
            self.refused(6, fit, many[:1])
        self.assertTrue(all(number != number for number in belt.fit_translation_samples([]).numbers[:2]))
        still = Model(belt.STILL)
        self.refused(1, belt.mean_sq_residual_samples, still, many)
        self.assertEqual(belt.mean_sq_residual_samples(still, []), 0.0)
        self.assertEqual(belt.mean_sq_residual_samples(still, [(0.0, 0.0, 3.0, 4.0)]), 25.0)
        numbers = (0.0, 0.0, 1.0, 0.0, 0.0, 1.0)
        self.refused(1, belt.quantize_model_samples, belt.Fitted(3, numbers), 1, many)
        self.refused(4, belt.quantize_model_samples, belt.Fitted(0, numbers), 1, many[:9])
        self.refused(4, belt.quantize_model_samples, belt.Fitted(3, numbers), 2, many[:9])
        unmoved = [(0.1 * i, 0.2, 0.0, -0.0) for i in range(9)]
        self.assertEqual(belt.quantize_model_samples(belt.Fitted(3, numbers), 1, unmoved), still)

    def test_frames(self):
        good, metal, film = words(126), bytes([belt.METAL] * 126), bytes([belt.FILM] * 126)
        blocks, filmed, old = bytearray(1024), bytearray(1024), bytearray(1024)
        self.assertEqual(belt.write_frame(7, good, metal, blocks), 2)
        self.assertEqual(belt.write_frame(7, good, film, filmed), 2)
        self.assertEqual(belt.to_form1(blocks, old), 2)
        for number, stored, classes, room in [
            (1, words(4097), b"", 40_000),
            (2, good, film[1:], 1024),
            (4, [good[1], good[0]], bytes([4, 5]), 512),
            (12, [447 << 11], bytes(1), 512),
            (12, [good[0] | 1], bytes(1), 512),
            (12, [good[1], good[0]], bytes(2), 512),
            (3, good, film, 1023),
        ]:
            lent = bytearray(b"\xee" * room)
            self.refused(number, belt.write_frame, 7, stored, classes, lent)
            self.assertEqual(lent, b"\xee" * room)
        for number, data, rooms in [
            (9, blocks[:1023], (126, 126)),
            (10, bytes(512), (126, 126)),
            (11, blocks[:512] + blocks[:512], (126, 126)),
            (11, blocks[:512] + old[512:], (126, 126)),
            (11, old[:512] + blocks[512:], (126, 126)),
            (3, blocks, (125, 126)),
            (3, old, (126, 125)),
        ]:
            lent, classes = array("I", [0xEEEEEEEE] * rooms[0]), bytearray(b"\xee" * rooms[1])
            self.refused(number, belt.read_both, data, lent, classes)
            self.assertEqual((lent, classes), (array("I", [0xEEEEEEEE] * rooms[0]), b"\xee" * rooms[1]))
        for data, wanted in [(blocks, metal), (filmed, film), (old, metal)]:
            lent, classes = array("I", [0] * 126), bytearray(126)
            self.assertEqual(belt.read_both(data, lent, classes), (7, 126))
            self.assertEqual((lent, classes), (good, wanted))
        self.assertEqual(belt.read_both(b"", array("I"), bytearray()), (0, 0))
        lent = array("I", [0] * 126)
        self.refused(11, belt.read_frame, blocks, lent)
        self.refused(3, belt.read_frame, old, lent[1:])
        self.assertEqual(belt.read_frame(old, lent), (7, 126))
        self.assertEqual(lent, array("I", (word | belt.METAL for word in good)))
        self.assertEqual([belt.sample_of(word).class_bits for word in lent], [belt.METAL] * 126)

    def test_conversions(self):
        good = words(130)
        blocks, filmed, old = bytearray(1024), bytearray(1024), bytearray(1024)
        belt.write_frame(7, good, bytes(i % 4 for i in range(130)), blocks)
        belt.write_frame(7, good, bytes(i % 5 for i in range(130)), filmed)
        self.assertEqual(belt.to_form1(blocks, old), 2)
        back = bytearray(1024)
        self.assertEqual(belt.to_form2(old, back), 2)
        self.assertEqual(back, blocks)
        for number, convert, data, room in [
            (11, belt.to_form1, old, 1024),
            (11, belt.to_form2, blocks, 1024),
            (13, belt.to_form1, filmed, 0),
            (9, belt.to_form1, filmed[:512], 0),
            (10, belt.to_form1, filmed[:512] + bytes(512), 0),
            (3, belt.to_form1, blocks, 1023),
            (3, belt.to_form2, old, 1023),
        ]:
            lent = bytearray(b"\xee" * room)
            self.refused(number, convert, data, lent)
            self.assertEqual(lent, b"\xee" * room)
        for convert in (belt.to_form1, belt.to_form2):
            self.assertEqual(convert(b"", bytearray()), 0)

    def test_blocks_alone(self):
        blocks = bytearray(1024)
        belt.write_frame(7, words(126), bytes(126), blocks)
        form = bytearray(blocks[512:])
        form[2] = 0
        form[508:] = (int.from_bytes(form[508:], "big") - 0x200).to_bytes(4, "big")
        self.refused(9, belt.judge_block, blocks[513:])
        self.refused(10, belt.judge_block, bytes(512))
        self.refused(11, belt.judge_block, form)
        self.assertEqual(belt.judge_block(blocks), (7, 0, 100))
        self.assertEqual(belt.list_block(form), "refused 11\n")
        self.assertEqual(belt.list_block(b""), "refused 9\n")
        block = bytearray(512)
        belt.write_frame(5, [0x0006FB7C], [belt.FILM], block)
        self.assertEqual(belt.list_block(block), "frame 5 block 0 count 1\n0 0 0 0 4\n")
        self.assertEqual(block[508:], bytes([0x04, 0x0C, 0xFD, 0x7E]))

    def test_a_closed_shutter(self):
        block = bytearray(512)
        self.refused(17, belt.write_frame, 0, [], b"", bytearray())
        self.refused(3, belt.write_frame, 0, words(1), bytes(1), bytearray(511))
        self.refused(17, belt.write_frame, 0, words(1), bytes(1), block)
        belt.write_frame(5, [0x0006FB7C], [belt.FILM], block)
        block[1] = 0
        block[508:] = bytes([0x04, 0x07, 0xFD, 0x7E])
        self.refused(17, belt.read_both, block, array("I"), bytearray())
        self.refused(17, belt.to_form1, block, bytearray())
        self.assertEqual(belt.list_block(block), "frame 0 block 0 count 1 closed\n0 0 0 0 4\n")

    def test_sizes(self):
        for form, wanted in [(belt.FORM_1, [1, 1, 2, 33]), (belt.FORM_2, [1, 2, 2, 41])]:
            self.assertEqual([belt.blocks_of(samples, form) for samples in (100, 101, 126, 4096)], wanted)
        self.assertEqual(belt.CLASSES[belt.FILM], "film")

    def test_key_frames(self):
        header = bytearray(b"\xff")
        self.assertEqual(belt.encode_global_motion(True, bytes(7), IDENTITIES, 1, IDENTITIES[:1], 3, header), 0)
        self.assertEqual(header, b"\xff")
        self.assertEqual(belt.read_global_motion(True, b"", 99, 1, ()), ((0,) * 7, IDENTITIES, 0))
        self.refused(4, belt.read_global_motion, True, b"", 99, 2, ())
        self.refused(14, belt.encode_global_motion, True, b"\x01" + bytes(6), IDENTITIES, 1, (), 8, header)
        self.refused(7, belt.encode_global_motion, True, b"\x01" + bytes(6), IDENTITIES, 1, (), 0, header)
        self.assertEqual(belt.encode_global_motion(False, bytes(7), IDENTITIES, 1, IDENTITIES, 0, header), 7)
        self.assertEqual(header, b"\x00")
        self.assertEqual(belt.read_global_motion(False, header, 0, 1, IDENTITIES).bits, 7)

    def test_headers(self):
        model = StoredModel((8192, -8192, 65536, 0, 0, 65536))
        models, types = (model,) + IDENTITIES[:6], bytes([1, 0, 0, 0, 0, 0, 0])
        header = bytearray(b"\xee" * 5)
        self.assertEqual(belt.encode_inter_global_motion(types, models, 1, IDENTITIES, 0, header), 17)
        self.assertEqual(header, b"\xa4\x20\x00\xee\xee")
        later = bytearray(b"\xff" * 4)
        self.assertEqual(belt.encode_inter_global_motion(types, models, 1, IDENTITIES, 6, later), 17)
        self.assertEqual(later, b"\xfe\x90\x80\xff")
        off = StoredModel((0, 0, 65537, 0, 0, 65536))
        out = (StoredModel((0, 0, 65536, 8193, 0, 65536)),) + IDENTITIES[:6]
        for number, arguments in [
            (2, (types[:6], models, 1, IDENTITIES)),
            (2, (types, models[:6], 1, IDENTITIES)),
            (4, (b"\x04" + types[1:], models, 1, IDENTITIES)),
            (4, (types, models, 2, IDENTITIES)),
            (7, (b"\x03" + types[1:], (off,) + IDENTITIES[:6], 1, IDENTITIES)),
            (8, (types, models, 1, out)),
        ]:
            self.refused(number, belt.encode_inter_global_motion, *arguments, 0, bytearray(30))
        self.refused(14, belt.encode_inter_global_motion, types, models, 1, IDENTITIES, 8, bytearray(30))
        self.refused(3, belt.encode_inter_global_motion, types, models, 1, IDENTITIES, 0, bytearray(2))
        read = belt.read_global_motion_params(b"\xa4\x20\x00", 0, 1, IDENTITIES)
        self.assertEqual(read, (tuple(types), models, 17))
        self.assertEqual(belt.read_global_motion_params(b"\xff\xf4\x84\x00", 11, 1, IDENTITIES), read)
        self.refused(2, belt.read_global_motion_params, header, 0, 1, IDENTITIES[:6])
        self.refused(4, belt.read_global_motion_params, header, 0, 2, IDENTITIES)
        self.refused(8, belt.read_global_motion_params, header, 0, 1, out)
        self.refused(9, belt.read_global_motion_params, b"", 0, 1, IDENTITIES)
        self.refused(9, belt.read_global_motion_params, header, 2**64 - 1, 1, IDENTITIES)


class Runs(Refused):
    """Runs of frames ('A run of frames'): the values of docs/RULES.md, the rows, and a reader begun alike."""

    TYPES = bytes([1, 0, 0, 0, 0, 0, 0])

    @staticmethod
    def moving(row, column):
        return (StoredModel((row, column, 65536, 0, 0, 65536)),) + IDENTITIES[1:]

    def same(self, run, reader):
        self.assertEqual((run.prior, run.flag, run.form), (reader.prior, reader.flag, reader.form))

    def frame(self, run, reader, models, types=TYPES, intra=False, start=0):
        header = bytearray(b"\xff" * 6)
        bits = run.frame(intra, types, models, start, header)
        read = reader.read(intra, header, start)
        self.assertEqual((read.types, read.models, read.bits), (tuple(types), tuple(models), bits))
        self.assertEqual(run.prior, tuple(models))
        self.same(run, reader)
        self.assertEqual(header[3:], b"\xff" * 3)
        return header[:3].hex().upper()

    def test_a_recording(self):
        run, reader = belt.Run(1, 1), belt.RunReader(1, 1)
        p, q = self.moving(8192, -8192), self.moving(16384, -16384)
        turned = (IDENTITIES[0], StoredModel((1024, 0, 65538, 2, -2, 65538))) + IDENTITIES[2:]
        self.assertEqual(self.frame(run, reader, p), "A42000")
        self.assertEqual(self.frame(run, reader, p), "A00000")
        self.assertEqual(self.frame(run, reader, turned, bytes([0, 2, 0, 0, 0, 0, 0])), "644400")
        self.assertEqual(self.frame(run, reader, p), "A42000")
        for each in (run, reader):
            each.switch(belt.TO_LOW_PRECISION)
        before, header = belt.Run.of_parts(run.prior, run.flag, run.form), bytearray(b"\xff" * 6)
        self.assertEqual(run, before)
        self.refused(7, run.frame, False, self.TYPES, self.moving(24576, -8192), 0, header)
        self.refused(4, run.switch, 3)
        self.assertEqual((run, header), (before, bytearray(b"\xff" * 6)))
        self.assertEqual(self.frame(run, reader, q), "A40000")
        for each in (run, reader):
            each.switch(belt.TO_FORM_2)
        self.assertEqual((run.flag, run.form), (0, 2))
        self.assertEqual(self.frame(run, reader, IDENTITIES, bytes(7), True, 2), "FFFFFF")
        self.assertEqual(self.frame(run, reader, q), "A42000")
        self.assertEqual(self.frame(run, reader, q), "A00000")

    def test_bad_runs(self):
        for flag, form in ((2, 1), (1, 0), (0, 3)):
            self.refused(4, belt.Run, flag, form)
            self.refused(4, belt.RunReader, flag, form)
        out = (StoredModel((4194305, 0, 65536, 0, 0, 65536)),) + IDENTITIES[1:]
        for parts, row in (((out, 1, 1), 8), ((out, 2, 1), 4), ((IDENTITIES, 1, 0), 4)):
            run, reader = belt.Run.of_parts(*parts), belt.RunReader.of_parts(*parts)
            self.refused(row, run.switch, 1)
            self.refused(4, run.switch, 3)
            self.refused(row, run.frame, True, bytes(7), IDENTITIES, 0, bytearray(1))
            self.refused(row, run.frame, False, bytes(7), IDENTITIES, 0, bytearray(1))
            self.refused(min(row, 7), run.frame, True, self.TYPES, IDENTITIES, 0, bytearray(1))
            self.refused(row, run.store, 5, array("I", [0x0006FB7C]), bytes(1), bytearray(512))
            buffers = Guarded(48, 32)
            state = buffers.state()
            arguments = task()
            del arguments["prior"]
            self.refused(row, run.job, buffers=buffers, **arguments)
            self.assertEqual(buffers.state(), state)
            self.refused(row, reader.read, True, b"", 99)
            self.refused(row, reader.read, False, b"", 0)
            self.assertEqual((run, reader), (belt.Run.of_parts(*parts), belt.RunReader.of_parts(*parts)))
        self.refused(9, belt.RunReader(1, 1).read, False, bytes([0xA4, 0x20]), 0)
        with self.assertRaises(ValueError):
            belt.Run.of_parts(IDENTITIES[:6], 1, 1)

    def test_stores(self):
        run, word, block = belt.Run(1, 1), array("I", [0x0006FB7C]), bytearray(512)
        self.refused(2, run.store, 5, word, bytes(2), block)
        self.refused(4, run.store, 5, word, bytes([5]), block)
        self.refused(12, run.store, 5, array("I", [0x0006FB7D]), bytes([belt.FILM]), block)
        self.refused(13, run.store, 0, word, bytes([belt.FILM]), bytearray(511))
        self.refused(3, run.store, 0, word, bytes([belt.METAL]), bytearray(511))
        self.refused(17, run.store, 0, word, bytes([belt.METAL]), block)
        self.assertEqual(run.store(5, word, bytes([belt.METAL]), block), 1)
        self.assertEqual((block[2], block[508:].hex()), (1, "000cfc81"))
        run.switch(belt.TO_FORM_2)
        self.assertEqual(run.store(5, word, bytes([belt.FILM]), block), 1)
        self.assertEqual((block[2], block[508:].hex()), (2, "040cfd7e"))

    def test_bowls(self):
        run, reader = belt.Run(1, 1), belt.RunReader(1, 1)

        def job(classes, frame=5):
            buffers = Guarded(64, 64)
            settings = Settings(frame, gm_type=0, reference=1, flag=2, elect=1)
            lying = bytes(q % classes for q in range(16))
            planes = bowl(lambda r, c: (r + 2, c - 3)), bowl()
            return run.job(*planes, 64, 64, settings, lying, buffers), buffers

        self.refused(13, job, 5)
        self.refused(13, job, 5, 0)
        for classes, check in ((4, "620caae9"), (5, "5bafd427")):
            report, buffers = job(classes)
            self.assertEqual((report.types[0], report.models[0][:2]), (1, (131072, -196608)))
            self.assertEqual((buffers.blocks[2], bytes(buffers.blocks[508:512]).hex()), (run.form, check))
            read = reader.read(False, buffers.header, 0)
            self.assertEqual((read.types, read.models, read.bits), (report.types, report.models, report.bits))
            self.assertEqual(run.prior, report.models)
            self.same(run, reader)
            self.refused(17, job, classes, 0)
            self.same(run, reader)
            for each in (run, reader):
                each.switch(belt.TO_FORM_2)


class Shears(Refused):
    def test_shear(self):
        kept = belt.setup_shear(3, Model((0, 0, 65536, 8192, -8192, 65536)))
        self.assertEqual((kept.valid, kept.beta, kept.gamma, kept.delta), (True, 8192, -8192, 1024))
        self.assertFalse(belt.setup_shear(3, Model((0, 0, 67584, 8192, 0, 65536))).valid)
        self.refused(2, belt.setup_shear, 3, belt.STILL[:5])
        self.refused(4, belt.setup_shear, 4, belt.STILL)
        self.refused(7, belt.setup_shear, 1, belt.STILL)


class Roots(unittest.TestCase):
    def test_root(self):
        self.assertEqual(belt.root(2.0).hex(), "0x1.6a09e667f3bcdp+0")
        self.assertEqual(str(belt.root(-0.0)), "-0.0")
        self.assertEqual(belt.root(float("inf")), float("inf"))
        self.assertNotEqual(belt.root(-1.0), belt.root(-1.0))


class Prices(Refused):
    def test_coefficient(self):
        self.assertEqual(belt.coefficient_prices(1, 1, 0, 0), (8, 8, 0, 16, 0, 32, 0, 64, 0, 128, 0, 256, 511, 2))
        self.assertEqual(sum(belt.coefficient_prices(3, 0, 2, 65536)), 2 * 4096 + 1)
        self.refused(4, belt.coefficient_prices, 3, 2, 6, 0)
        self.refused(5, belt.coefficient_prices, 2, 1, 4, 99999)
        self.refused(8, belt.coefficient_prices, 3, 0, 5, 57343)

    def test_frame(self):
        still = (0,) * 7
        self.assertEqual(belt.frame_price(False, still, belt.IDENTITIES, 0, belt.IDENTITIES), 7)
        self.assertEqual(belt.frame_price(True, still, belt.IDENTITIES, 0, ()), 0)
        self.refused(7, belt.frame_price, True, (1,) + (0,) * 6, belt.IDENTITIES, 0, ())
        self.refused(2, belt.frame_price, False, still, belt.IDENTITIES, 0, belt.IDENTITIES[:6])


class Practice(Refused):
    def test_planes(self):
        planes = array("H", [7] * 6), array("H", [7] * 6)
        self.assertEqual(belt.make_practice_planes(1, 2, 2, 1, -1, *planes), 4)
        self.assertEqual(planes, (array("H", [33046] * 4 + [7, 7]), array("H", [15496, 24200, 33046, 46195, 7, 7])))
        self.refused(1, belt.make_practice_planes, 1, 1025, 1, 0, -25, *planes)
        self.refused(18, belt.make_practice_planes, 1, 5, 5, 25, 0, *planes)
        self.refused(3, belt.make_practice_planes, 1, 5, 5, 24, 0, *planes)


class Taken(unittest.TestCase):
    """What is taken as a list, and what isn't."""

    def test_kinds_of_list(self):
        kinds = [
            words(3),
            list(words(3)),
            tuple(words(3)),
            memoryview(words(4))[:3],
            memoryview(bytes(words(3))).cast("I"),
            (ctypes.c_uint32 * 3)(*words(3)),
        ]
        answers = {belt.mean_sq_residual(Model((65536, 0, 65536, 0, 0, 65536)), kind) for kind in kinds}
        self.assertEqual(answers, {1.0})

    def test_numpy(self):
        try:
            import numpy
        except ImportError:
            self.skipTest("numpy isn't here")
        plane = numpy.frombuffer(noisy(48, 32), dtype=numpy.uint16).reshape(32, 48)
        buffers = belt.Buffers(48, 32)
        report = belt.job(buffers=buffers, **task(input_y=plane, reference=plane))
        self.assertEqual(report.score, 0.0)

    def test_what_is_turned_away(self):
        with self.assertRaises(TypeError):
            belt.fit_translation(array("i", [1]))
        with self.assertRaises(TypeError):
            belt.fit_translation(memoryview(words(4))[::2])
        with self.assertRaises(TypeError):
            belt.write_frame(1, words(1), bytes(1), bytes(512))
        with self.assertRaises(OverflowError):
            belt.fit_translation([2**32])
        with self.assertRaises(TypeError):
            belt.mean_sq_residual(StoredModel(belt.STILL), words(1))
        with self.assertRaises(TypeError):
            belt.encode_inter_global_motion(bytes(7), (Model(belt.STILL),) * 7, 1, IDENTITIES, 0, bytearray(9))
        with self.assertRaises(ValueError):
            Model((1, 2, 3))

    def test_the_two_orders(self):
        model = Model((1, 2, 3, 4, 5, 6))
        self.assertEqual(model.row_first(1), StoredModel((2, 1, 3, 4, 5, 6)))
        for gm_type in range(4):
            self.assertEqual(model.row_first(gm_type).x_first(gm_type), model)
        self.assertNotEqual(model, StoredModel(model))
        turned = Model((0, 0, 65526, -1144, 1144, 65526))
        self.assertAlmostEqual(turned.degrees, 1.0, 3)
        self.assertAlmostEqual(turned.zoom, 1.0, 5)


if __name__ == "__main__":
    unittest.main()
