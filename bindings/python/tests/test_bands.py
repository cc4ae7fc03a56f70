"""A frame in bands, by the caller's threads: the words, blocks and headers of the calls without bands, and Python's lock is
free meanwhile."""

import os
import random
import sys
import threading
import time
import unittest
from array import array
from concurrent.futures import ThreadPoolExecutor
from pathlib import Path

sys.path.insert(0, str(Path(__file__).resolve().parents[1]))
sys.path.insert(0, str(Path(__file__).resolve().parent))

import belt  # noqa: E402
from belt import IDENTITIES, Refusal, Settings, StoredModel  # noqa: E402

STILL = 223 << 11 | 223 << 2
PROCESSORS = len(os.sched_getaffinity(0))
# the flag of ctypes by which a call keeps the lock (FUNCFLAG_PYTHONAPI)
KEEPS_THE_LOCK = 4


def practice(width, height, dy, dx):
    planes = [array("H", bytes(2 * width * height)) for _ in range(2)]
    belt.make_practice_planes(1, width, height, dy, dx, *planes)
    return planes


def halves(planes, width, height):
    made = [array("H", bytes(2 * (width // 2) * (height // 2))) for _ in planes]
    for plane, half in zip(planes, made):
        belt.half_plane(plane, width, height, half)
    return made


def in_bands(pool, planes, width, height, cuts):
    """The words of a frame that is searched in bands between the cuts, and the rows added."""
    made, columns = halves(planes, width, height), width // 16
    words = array("I", [0xA5A55A5A] * (columns * (height // 16)))

    def band(first, end):
        own = memoryview(words)[first * columns : end * columns]
        return belt.search_band(*planes, width, height, *made, first, end, own)

    found = list(pool.map(band, cuts[:-1], cuts[1:]))
    return made, words, sum(one.rows for one in found), sum(one.samples for one in found)


class Bands(unittest.TestCase):
    def test_the_frame_is_that_of_a_job(self):
        chance = random.Random(1)
        with ThreadPoolExecutor(4) as pool:
            for _ in range(60):
                width, height = chance.randrange(16, 120), chance.randrange(16, 120)
                planes = practice(width, height, chance.randrange(-9, 10), chance.randrange(-9, 10))
                samples, rows = belt.sample_count(width, height), height // 16
                classes = bytes(chance.randrange(4) for _ in range(samples))
                settings = Settings(7, gm_type=chance.choice([None, 1, 2, 3]), reference=2, start=chance.randrange(8))
                whole, parted = belt.Buffers(width, height), belt.Buffers(width, height)
                cuts = sorted(chance.choices(range(rows + 1), k=chance.randrange(5)) + [0, rows])
                made, words, added, found = in_bands(pool, planes, width, height, cuts)
                run, other = belt.Run(1, chance.choice([1, 2])), None
                other = belt.Run.of_parts(run.prior, run.flag, run.form)

                def outcome(work):
                    try:
                        return work()
                    except Refusal as refusal:
                        return refusal.number

                one = outcome(lambda: belt.job(*planes, width, height, settings, classes, whole))
                searched = belt.collect_motion_samples(
                    *planes, width, height, classes, whole.input_half, whole.ref_half, whole.words
                )
                self.assertEqual((found, added), searched)
                self.assertEqual((made, words), ([whole.input_half, whole.ref_half], whole.words))
                two = outcome(lambda: belt.job_of_words(words, settings, classes, parted.blocks, parted.header))
                self.assertEqual(one, two)
                self.assertEqual((whole.blocks, whole.header), (parted.blocks, parted.header))
                one = outcome(lambda: run.job(*planes, width, height, settings, classes, whole))
                two = outcome(lambda: other.job_of_words(words, settings, classes, parted.blocks, parted.header))
                self.assertEqual((one, run), (two, other))
                self.assertEqual((whole.blocks, whole.header), (parted.blocks, parted.header))

    def refused(self, number, name, call, *arguments):
        with self.assertRaises(Refusal) as caught:
            call(*arguments)
        self.assertEqual((caught.exception.number, caught.exception.name), (number, name))

    def test_rows_of_a_half_plane(self):
        out, plane = array("H", bytes(12)), array("H", range(35))
        self.refused(1, None, belt.half_plane, plane, 1025, 5, out)
        self.refused(2, "values", belt.half_plane, plane[1:], 7, 5, out)
        self.refused(3, "out", belt.half_plane, plane, 7, 5, out[:5])
        self.assertEqual(out.tolist(), [0] * 6)
        belt.half_plane(plane, 7, 5, out)
        self.assertEqual(out.tolist(), [4, 6, 8, 18, 20, 22])
        with self.assertRaises(ValueError):
            belt.half_plane(plane, 7, 5, memoryview(plane)[:6])
        with self.assertRaises(OverflowError):
            belt.half_plane(plane, -1, 5, out)

    def test_rows_of_a_band(self):
        planes = practice(48, 40, 2, 2)
        made, words = halves(planes, 48, 40), array("I", [9] * 6)

        def band(first, end, planes=planes, made=made, words=words, sides=(48, 40)):
            return belt.search_band(*planes, *sides, *made, first, end, words)

        self.refused(1, None, lambda: band(9, 1, sides=(1025, 40)))
        self.refused(2, "ref_y", lambda: band(9, 1, planes=[planes[0], planes[1][1:]]))
        self.refused(2, "input_half", lambda: band(9, 1, made=[made[0][1:], made[1]]))
        self.refused(2, "ref_half", lambda: band(9, 1, made=[made[0], []]))
        for first, end in [(2, 1), (0, 3), (3, 3), (2**63, 2**64 - 1)]:
            self.refused(5, None, lambda: band(first, end, words=words[:0]))
        self.refused(3, "words", lambda: band(0, 2, words=words[:5]))
        self.assertEqual(words.tolist(), [9] * 6)
        self.assertEqual(band(2, 2, words=words[:0]), (0, 0))
        self.assertEqual(band(1, 2).samples, 3)
        self.assertEqual((words[0] >> 20, words[3:].tolist()), (64, [9] * 3))
        with self.assertRaises(OverflowError):
            band(-1, 2)
        with self.assertRaises(TypeError):
            band(0, 2, words=bytes(24))

    def test_rows_of_a_job_of_words(self):
        words = [column << 20 | STILL for column in range(9)]

        def job(words=words, classes=bytes(9), blocks=512, header=125, settings=Settings(5, gm_type=1), **more):
            rooms = bytearray(blocks), bytearray(header)
            try:
                return belt.job_of_words(words, settings, classes, *rooms, **more)
            except Refusal:
                self.assertEqual(rooms, (bytearray(blocks), bytearray(header)))
                raise

        self.assertEqual(job().samples, 9)
        self.refused(1, None, lambda: job(words=[STILL] * 4097))
        self.refused(2, "classes", lambda: job(classes=bytes(8)))
        self.refused(2, "types", lambda: job(types=bytes(5)))
        self.refused(2, "models", lambda: job(models=IDENTITIES))
        self.refused(2, "prior", lambda: job(prior=IDENTITIES[1:]))
        self.refused(4, None, lambda: job(classes=bytes([5] * 9)))
        self.refused(19, None, lambda: job(settings=Settings(5, set=[])))
        self.refused(5, None, lambda: job(settings=Settings(5, reference=8)))
        self.refused(14, None, lambda: job(settings=Settings(5, start=8)))
        self.refused(7, None, lambda: job(models=(StoredModel((1,) * 6),) + IDENTITIES[2:]))
        self.refused(8, None, lambda: job(prior=(StoredModel((2**31 - 1,) * 6),) + IDENTITIES[1:]))
        self.refused(12, None, lambda: job(words=words[::-1]))
        self.refused(12, None, lambda: job(words=[word | 1 for word in words]))
        self.refused(12, None, lambda: job(words=words[:8] + [8 << 20 | 447 << 11]))
        self.refused(3, "blocks", lambda: job(blocks=511))
        self.refused(3, "header", lambda: job(header=124))
        self.refused(15, None, lambda: job(settings=Settings(5, gm_type=1, trim=1, set=[belt.FILM])))
        self.refused(17, None, lambda: job(settings=Settings(0)))
        self.refused(6, None, lambda: job(settings=Settings(5, gm_type=3)))
        run = belt.Run(1, belt.FORM_1)
        held = belt.Run.of_parts(run.prior, run.flag, run.form)
        room = bytearray(512), bytearray(125)
        self.refused(13, None, lambda: run.job_of_words(words, Settings(5), bytes([4] * 9), *room))
        self.refused(12, None, lambda: run.job_of_words(words[::-1], Settings(5), bytes([4] * 9), *room))
        self.refused(3, "blocks", lambda: run.job_of_words(words, Settings(5), bytes(9), bytearray(9), room[1]))
        self.assertEqual(run, held)
        self.assertEqual(run.job_of_words(words, Settings(5), bytes(9), *room).samples, 9)
        with self.assertRaises(ValueError):
            belt.job_of_words(words, Settings(5), bytes(9), room[0], memoryview(room[0])[:125])


class AtOnce(unittest.TestCase):
    """The lock is free during a call."""

    @classmethod
    def setUpClass(cls):
        cls.planes = practice(1024, 1024, 4, -6)

    def holds(self, smaller, larger):
        """One time below another, unless others have the processors."""
        if smaller >= larger and os.getloadavg()[0] > PROCESSORS + 0.5:
            self.skipTest("others have the processors")
        self.assertLess(smaller, larger)

    def test_no_call_keeps_the_lock(self):
        for name in belt._raw.CALLS:
            self.assertEqual(getattr(belt._library.library, name)._flags_ & KEEPS_THE_LOCK, 0, name)

    def test_python_goes_on_while_a_band_is_searched(self):
        made, words = halves(self.planes, 1024, 1024), array("I", bytes(4 * 4096))

        def search():
            start = time.thread_time()
            belt.search_band(*self.planes, 1024, 1024, *made, 0, 64, words)
            return time.thread_time() - start

        # a call that holds the lock lets nobody make a step for as long as it takes, at least its processor time
        taken, longest = min(search() for _ in range(4)), 1e9
        for _ in range(50):
            other, steps = threading.Thread(target=search), [time.monotonic()]
            other.start()
            while other.is_alive():
                steps.append(time.monotonic())
            other.join()
            steps.append(time.monotonic())
            longest = min(longest, max(after - before for before, after in zip(steps, steps[1:])))
            if longest < taken / 2:
                break
        self.holds(longest, taken / 2)

    @unittest.skipIf(PROCESSORS < 2, "one processor alone")
    def test_two_threads_are_faster(self):
        cuts = list(range(65))
        best, until = {1: 1e9, 2: 1e9}, time.monotonic() + 20
        pools = {count: ThreadPoolExecutor(count) for count in best}
        wanted, turns = None, 0
        # in turns, until the one is clearly faster
        while turns < 8 or best[2] > 0.8 * best[1] and time.monotonic() < until:
            turns += 1
            for count, pool in pools.items():
                start = time.monotonic()
                _, words, added, _ = in_bands(pool, self.planes, 1024, 1024, cuts)
                best[count] = min(best[count], time.monotonic() - start)
                wanted = wanted or (words, added)
                self.assertEqual((words, added), wanted)
        for pool in pools.values():
            pool.shutdown()
        self.holds(best[2], 0.8 * best[1])


if __name__ == "__main__":
    unittest.main()
