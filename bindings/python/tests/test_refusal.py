"""A refusal travels between processes, and says whose length is wrong."""

import copy
import multiprocessing
import pickle
import sys
import unittest
from array import array
from concurrent.futures import ProcessPoolExecutor
from pathlib import Path

PACKAGE = Path(__file__).resolve().parents[1]
sys.path.insert(0, str(PACKAGE))

import belt  # noqa: E402
from belt import IDENTITIES, Refusal, Settings  # noqa: E402

# A refused frame must not hang a pool: so long may the answer take.
SECONDS = 60


def store(frame):
    """Frame 0 is refused: the shutter was closed."""
    return belt.write_frame(frame, [0x0006FB7C], [belt.FILM], bytearray(512))


def short(frame):
    return belt.write_frame(frame, [0x0006FB7C], [belt.FILM], bytearray(511))


class Travelling(unittest.TestCase):
    def alike(self, one, other):
        self.assertIs(type(one), type(other))
        self.assertEqual(vars(one), vars(other))
        self.assertEqual((str(one), one.args), (str(other), other.args))

    def test_every_row_is_pickled(self):
        for number in belt.REFUSALS:
            for refusal in (Refusal(number), Refusal(number, "classes", 5, 6)):
                for protocol in range(pickle.HIGHEST_PROTOCOL + 1):
                    self.alike(pickle.loads(pickle.dumps(refusal, protocol)), refusal)
                self.alike(copy.copy(refusal), refusal)

    def test_a_pool(self):
        with multiprocessing.get_context("spawn").Pool(2) as pool:
            self.assertEqual(pool.map_async(store, [1, 2, 3]).get(SECONDS), [1, 1, 1])
            with self.assertRaises(Refusal) as caught:
                pool.map_async(store, [1, 0, 3]).get(SECONDS)
            self.assertEqual((caught.exception.number, caught.exception.text), (17, belt.REFUSALS[17]))
            with self.assertRaises(Refusal) as caught:
                pool.map_async(short, [1]).get(SECONDS)
            self.assertEqual(
                (caught.exception.name, caught.exception.given, caught.exception.wanted), ("blocks", 511, 512)
            )

    def test_an_executor(self):
        with ProcessPoolExecutor(2, mp_context=multiprocessing.get_context("spawn")) as pool:
            refused, done = pool.submit(store, 0), pool.submit(store, 5)
            self.assertEqual(done.result(SECONDS), 1)
            self.alike(refused.exception(SECONDS), Refusal(17))

    def test_answers_are_pickled_too(self):
        plane, buffers = array("H", bytes(2 * 1024)), belt.Buffers(32, 32)
        run = belt.Run(1, 2)
        report = run.job(plane, plane, 32, 32, Settings(5), bytes(4), buffers)
        frame = memoryview(plane).cast("B").cast("H", (32, 32))
        for value in (report, run, Settings(5, set=[1, 2]), belt.measure(frame, frame, robust=False), buffers.words):
            self.assertEqual(pickle.loads(pickle.dumps(value)), value)


class Lengths(unittest.TestCase):
    """Row 2 and row 3 name the list, what it has and what is wanted."""

    def names(self, number, name, given, wanted, call, *arguments):
        with self.assertRaises(Refusal) as caught:
            call(*arguments)
        refusal = caught.exception
        self.assertEqual((refusal.number, refusal.name, refusal.given, refusal.wanted), (number, name, given, wanted))
        self.assertTrue(str(refusal).endswith(f": {name} has {given} elements, {wanted} are wanted"))

    def job(self, short, planes=1024, **changes):
        room = belt.Buffers(32, 32)
        for name in short:
            setattr(room, name, getattr(room, name)[:-1])
        lists = dict(input_y=[0] * planes, reference=[0] * 1024, classes=bytes(4), types=bytes(6), models=None)
        lists.update(changes)
        belt.job(width=32, height=32, settings=Settings(1), buffers=room, **lists)

    def test_lists_of_a_job(self):
        def job(**changes):
            return lambda: self.job((), **changes)

        self.names(2, "input_y", 1023, 1024, job(planes=1023))
        self.names(2, "reference", 0, 1024, job(reference=[]))
        self.names(2, "classes", 5, 4, job(classes=bytes(5)))
        self.names(2, "types", 7, 6, job(types=bytes(7)))
        self.names(2, "models", 5, 6, job(models=IDENTITIES[:5]))
        self.names(2, "prior", 6, 7, job(prior=IDENTITIES[:6]))

    def test_rooms_of_a_job(self):
        for name, wanted in (("input_half", 256), ("ref_half", 256), ("words", 4), ("blocks", 512), ("header", 125)):
            self.names(3, name, wanted - 1, wanted, lambda: self.job((name,)))

    def test_the_other_calls(self):
        words, samples = [0x0006FB7C] * 3, [(0.0, 0.0, 0.0, 0.0)] * 3
        self.names(2, "classes", 2, 3, belt.elect_by_class, [1], 1, words, bytes(2))
        self.names(2, "classes", 2, 3, belt.elect_samples_by_class, [1], 1, samples, bytes(2))
        self.names(2, "params", 5, 6, belt.setup_shear, 3, belt.STILL[:5])
        self.names(2, "prior", 6, 7, belt.frame_price, False, bytes(7), IDENTITIES, 1, IDENTITIES[:6])
        moved = (belt.StoredModel((8192, -8192, 65536, 0, 0, 65536)),) + IDENTITIES[1:]
        header = bytearray(2), bytes([1, 0, 0, 0, 0, 0, 0])
        self.names(3, "header", 2, 3, belt.encode_inter_global_motion, header[1], moved, 1, IDENTITIES, 0, header[0])
        self.names(3, "header", 2, 3, belt.Run(1, 2).frame, False, header[1], moved, 0, header[0])
        blocks = bytearray(1024)
        belt.write_frame(5, [place << 20 | 0x6FB7C for place in range(60)] + [1 << 26 | 0x6FB7C], bytes(61), blocks)
        self.names(3, "words", 60, 61, belt.read_both, blocks, array("I", [0] * 60), bytearray(61))
        self.names(3, "classes", 60, 61, belt.read_both, blocks, array("I", [0] * 61), bytearray(60))
        self.names(3, "blocks", 511, 512, belt.to_form1, blocks, bytearray(511))


class ByName(unittest.TestCase):
    """Settings go by name, so that no order can be mistaken for another."""

    def test_settings(self):
        with self.assertRaises(TypeError):
            Settings(5, 1, 1, 1)
        self.assertEqual(Settings(5), Settings(5, gm_type=None, reference=1, flag=1, trim=0, elect=1, set=31, start=0))
        self.assertEqual((Settings(5).elect, Settings(5).gm_type), (1, 0))
        self.assertEqual(Settings(5, gm_type=2).elect, 0)
        with self.assertRaises(AttributeError):
            Settings(5).frame = 6


class Directions(unittest.TestCase):
    def test_moved_since_reference(self):
        """The load went by (−6, 4) from the earlier frame to the later one."""
        earlier, later = array("H", bytes(2 * 96 * 80)), array("H", bytes(2 * 96 * 80))
        belt.make_practice_planes(1, 96, 80, 4, -6, earlier, later)

        def model(input_y, reference):
            report = belt.job(input_y, reference, 96, 80, Settings(1), bytes(30), belt.Buffers(96, 80))
            return report.models[0].x_first(report.types[0])

        self.assertEqual(model(earlier, later).motion_at(9.0, 9.0), (-6.0, 4.0))
        self.assertEqual(model(later, earlier).motion_at(9.0, 9.0), (6.0, -4.0))
        self.assertEqual(model(later, earlier).moved_since_reference(9.0, 9.0), (-6.0, 4.0))
        turned = belt.Model((65536, 0, 65526, -1144, 1144, 65526))
        motion, moved = turned.motion_at(100.0, 7.5), turned.moved_since_reference(100.0, 7.5)
        self.assertEqual((moved.u, moved.v), (-motion.u, -motion.v))
        self.assertEqual(str(belt.Model(belt.STILL).moved_since_reference(0.0, 0.0)), "Motion(u=0.0, v=0.0)")


if __name__ == "__main__":
    unittest.main()
