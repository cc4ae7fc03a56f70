"""Many clips over Dask: two workers on the loopback, of which one is killed on the way."""

import csv
import json
import os
import signal
import subprocess
import sys
import tempfile
import time
import unittest
from pathlib import Path

PACKAGE = Path(__file__).resolve().parents[1]
sys.path.insert(0, str(PACKAGE))
sys.path.insert(0, str(Path(__file__).resolve().parent))

import drawn  # noqa: E402
from belt import _clips  # noqa: E402

try:
    import distributed
except ImportError:
    distributed = None

TOOL = drawn.tool()
SIDE = 96
# So long may a step of the test take, in seconds.
PATIENCE = 600


def write_clip(path, speeds):
    """A clip that pans to the right by so many pels from frame to frame."""
    place, frames = 0.0, [drawn.frame(SIDE, SIDE)]
    for speed in speeds:
        place += speed
        frames.append(drawn.frame(SIDE, SIDE, drawn.pan(place, 0)))
    head = b"YUV4MPEG2 W%d H%d F25:1 Cmono\n" % (SIDE, SIDE)
    Path(path).write_bytes(head + b"".join(b"FRAME\n" + bytes(frame) for frame in frames))


def table(path):
    with open(path, encoding="utf-8", newline="") as file:
        return list(csv.DictReader(file))


def pair(status, right=None, down=0.0, warnings=(), **more):
    own = {
        "status": status,
        "right_pels": right,
        "down_pels": down,
        "time_s": None,
        "agree": 8,
        "usable": 10,
        "reason": None,
    }
    own.update(first="a", second="b", warnings=[{"name": name, "text": ""} for name in warnings])
    own.update(more)
    return own


class Summaries(unittest.TestCase):
    def test_it_counts_and_adds_up(self):
        pairs = [pair("measured", 4.0, 3.0), pair("measured", -8.0, 6.0, ["ill-placed"]), pair("still", 0.01)]
        pairs += [pair("unexplained"), pair("bad", agree=None, usable=None, reason="cut short"), pair("flat")]
        row = _clips.summary(pairs)
        self.assertEqual(
            [row[name] for name in ("pairs", "measured", "still", "unexplained", "flat", "bad")], [6, 2, 1, 1, 1, 1]
        )
        self.assertEqual((row["warned"], row["unit"], row["worst"]), (3, "pels a pair", "a to b: cut short"))
        self.assertEqual((row["path_pels"], row["right_pels"], row["down_pels"]), (15.0, -4.0, 9.0))
        self.assertEqual((row["speed_5"], row["speed_median"], row["speed_95"]), (0.0, 5.0, 10.0))
        self.assertEqual(set(row) - set(_clips.COLUMNS), set())

    def test_units(self):
        timed = [pair("measured", 4.0, time_s=0.04), pair("measured", 4.0, time_s=0.12)]
        row = _clips.summary(timed)
        self.assertEqual((row["unit"], row["speed_5"], row["speed_95"]), ("pels/s", 50.0, 100.0))
        row = _clips.summary([dict(one, speed_mm_s=7.5) for one in timed])
        self.assertEqual((row["unit"], row["speed_median"]), ("mm/s", 7.5))
        empty = _clips.summary([])
        self.assertEqual((empty["pairs"], empty["speed_median"], empty["worst"]), (0, None, None))


@unittest.skipUnless(distributed and TOOL, "dask.distributed or the tool isn't here")
class Fleets(unittest.TestCase):
    def setUp(self):
        holder = tempfile.TemporaryDirectory()
        self.addCleanup(holder.cleanup)
        self.folder = holder.name
        self.environment = dict(os.environ, PYTHONPATH=str(PACKAGE), BELT_TOOL=TOOL, PYTHONUNBUFFERED="1")

    def begin(self, *words, **more):
        process = subprocess.Popen([sys.executable, *words], cwd=self.folder, env=self.environment, **more)
        self.addCleanup(self.end, process)
        return process

    @staticmethod
    def end(process):
        if process.poll() is None:
            process.kill()
        process.wait()
        for pipe in (process.stdout, process.stderr):
            if pipe:
                pipe.close()

    def until(self, condition, what):
        limit = time.monotonic() + PATIENCE
        while time.monotonic() < limit:
            found = condition()
            if found:
                return found
            time.sleep(0.01)
        self.fail(f"{what} in {PATIENCE} s")

    def clips(self, count, pairs):
        names = [f"clip{number}.y4m" for number in range(count)]
        first = os.path.join(self.folder, names[0])
        write_clip(first, [2.0 + number % 3 for number in range(pairs)])
        for name in names[1:]:
            os.link(first, os.path.join(self.folder, name))
        return names

    def cluster(self):
        """A scheduler on the loopback, its address, and two workers."""
        file = os.path.join(self.folder, "scheduler.json")
        quiet = {"stdout": subprocess.DEVNULL, "stderr": subprocess.DEVNULL}
        own = ["--host", "127.0.0.1"]
        self.begin(
            "-m",
            "distributed.cli.dask_scheduler",
            *own,
            "--port",
            "0",
            "--no-dashboard",
            "--scheduler-file",
            file,
            **quiet,
        )
        self.until(lambda: os.path.exists(file) and os.path.getsize(file), "no scheduler")
        workers = [
            self.begin(
                "-m",
                "distributed.cli.dask_worker",
                *own,
                "--scheduler-file",
                file,
                "--no-nanny",
                "--no-dashboard",
                "--nthreads",
                "1",
                "--local-directory",
                self.folder,
                **quiet,
            )
            for _ in range(2)
        ]
        address = json.loads(Path(file).read_text())["address"]
        with distributed.Client(address, timeout=60) as client:
            client.wait_for_workers(2, timeout=PATIENCE)
        return address, workers

    def test_a_worker_is_killed_on_the_way(self):
        names = self.clips(40, 4)
        address, workers = self.cluster()
        words = ["-m", "belt.fleet", *names, "--out", "table.csv", "--scheduler", address]
        fleet = self.begin(*words, stderr=subprocess.PIPE, text=True)
        out = os.path.join(self.folder, "table.csv")

        def by_both():
            rows = table(out) if os.path.exists(out) else []
            return rows if len({row["worker"] for row in rows}) == 2 else None

        rows = self.until(by_both, "no rows of both workers")
        self.assertLess(len(rows), len(names) - 2, "nothing was left to do when the worker died")
        # it has a clip under way, and rows that it has given
        workers[0].send_signal(signal.SIGKILL)
        said = fleet.communicate(timeout=PATIENCE)[1]
        self.assertEqual(fleet.returncode, 0, said)
        done = table(out)
        self.assertEqual([row["clip"] for row in done], names)
        self.assertEqual({row["error"] for row in done}, {""})
        self.assertEqual({(row["pairs"], row["measured"]) for row in done}, {("4", "4")})
        numbers = {tuple(row[name] for name in ("speed_median", "path_pels", "unit")) for row in done}
        self.assertEqual(len(numbers), 1)
        self.assertAlmostEqual(float(done[0]["path_pels"]), 11.0, delta=0.3)
        left = {row["worker"].split(":")[1] for row in done} - {str(workers[0].pid)}
        self.assertEqual(left, {str(workers[1].pid)})
        self.assertIn(f"{len(names)} of {len(names)} clips", said)

    def test_a_bad_clip_is_a_row(self):
        names = self.clips(2, 3)
        Path(self.folder, "bad.y4m").write_bytes(b"no clip")
        words = [
            "-m",
            "belt.fleet",
            names[0],
            "bad.y4m",
            "gone.y4m",
            names[1],
            names[0],
            "--out",
            "table.csv",
            "--fps",
            "50",
        ]
        fleet = self.begin(*words, "--mm-per-pel", "0.5", "--workers", "2", stderr=subprocess.PIPE, text=True)
        said = fleet.communicate(timeout=PATIENCE)[1]
        self.assertEqual(fleet.returncode, 3, said)
        done = table(os.path.join(self.folder, "table.csv"))
        self.assertEqual([row["clip"] for row in done], [names[0], "bad.y4m", "gone.y4m", names[1]])
        self.assertEqual([row["pairs"] for row in done], ["3", "", "", "3"])
        self.assertEqual(done[0]["unit"], "mm/s")
        self.assertAlmostEqual(float(done[0]["speed_median"]), 75.0, delta=2.0)
        self.assertIn("bad.y4m", done[1]["error"])
        self.assertIn("gone.y4m", done[2]["error"])
        self.assertIn("4 of 4 clips, 2 with an error", said)

    def test_what_cant_begin(self):
        for words, said in (
            (["clip.y4m", "--out", "no/such/table.csv"], "no/such/table.csv"),
            (["clip.y4m", "--out", "table.csv", "--scheduler", "tcp://127.0.0.1:1"], "127.0.0.1:1"),
        ):
            self.environment["DASK_DISTRIBUTED__COMM__TIMEOUTS__CONNECT"] = "2s"
            fleet = self.begin("-m", "belt.fleet", *words, stderr=subprocess.PIPE, text=True)
            told = fleet.communicate(timeout=PATIENCE)[1]
            self.assertEqual(fleet.returncode, 2, told)
            self.assertIn(said, told.splitlines()[-1])


if __name__ == "__main__":
    unittest.main()
