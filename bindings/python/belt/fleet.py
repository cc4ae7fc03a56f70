"""Many clips, on this machine's cores or on many machines: a table with a row for each clip.

    python -m belt.fleet CLIPS.. --out table.csv [--scheduler ADDRESS]

A clip is what `belt track` takes: a Y4M file, or a folder of pictures. Its row is the clip's summary: the pairs by their
status, the speed in the median and from 5 to 95 %, the way, and the pair that is worst. A clip that can't be measured has
its error in the row. The table is written as clips are done, and at the end in their order.

The work goes over Dask (dask.distributed). Without --scheduler it is a cluster of this machine's cores on the loopback;
with it, the workers of that scheduler, on each of which this package and the tool are installed and the clips have the same
paths. A clip whose worker dies goes to another one.

The status is 0 if every clip has a summary, 3 if one has an error, and 2 if nothing could begin.
"""

from __future__ import annotations

import argparse
import csv
import os
import sys
import tempfile
import uuid
from asyncio import CancelledError
from contextlib import contextmanager
from typing import Any, Dict, Iterator, List, Optional, Sequence, TextIO

from belt import _tool
from belt._clips import COLUMNS, Row, row_of


def _words(arguments: Optional[Sequence[str]]) -> argparse.Namespace:
    about, _, rest = (__doc__ or "").partition("\n")
    kind = argparse.RawDescriptionHelpFormatter
    parser = argparse.ArgumentParser("python -m belt.fleet", description=about, epilog=rest, formatter_class=kind)
    parser.add_argument("clips", nargs="+", metavar="CLIP", help="a Y4M file, or a folder of pictures")
    parser.add_argument("--out", required=True, metavar="TABLE", help="the table, with commas")
    parser.add_argument("--scheduler", metavar="ADDRESS", help="a Dask scheduler, such as tcp://10.0.0.5:8786")
    parser.add_argument("--workers", type=int, metavar="N", help="without a scheduler: so many, not one for each core")
    parser.add_argument("--fps", metavar="RATE", help="the frames a second; else what a clip says")
    parser.add_argument("--mm-per-pel", metavar="MM", help="the millimetres of the belt that a pel shows")
    parser.add_argument("--crop", metavar="X,Y,W,H", help="measure only this part of the frames")
    parser.add_argument("--mask", metavar="FILE", help="a picture: blocks where it isn't black are left out")
    parser.add_argument("--every", metavar="N", help="take one frame of N")
    parser.add_argument("--fast", action="store_true", help="one search for each pair; more is unexplained")
    parser.add_argument("--quiet", action="store_true", help="no progress")
    return parser.parse_args(arguments)


def _options(words: argparse.Namespace) -> List[str]:
    """The words of the tool."""
    options = ["--fast"] if words.fast else []
    for name in ("fps", "mm_per_pel", "crop", "every"):
        if getattr(words, name) is not None:
            options += [f"--{name.replace('_', '-')}", getattr(words, name)]
    return options + (["--mask", os.path.abspath(words.mask)] if words.mask else [])


@contextmanager
def _client(words: argparse.Namespace) -> Iterator[Any]:
    """The client of a scheduler, or of a cluster of this machine's own."""
    from distributed import Client, LocalCluster

    if words.scheduler:
        with Client(words.scheduler) as client:
            yield client
        return
    if _tool.find() is None:
        raise _tool.ToolError("the tool belt isn't installed here; tools/install of the repository does it")
    count = words.workers or os.cpu_count() or 1
    own = {"host": "127.0.0.1", "dashboard_address": None, "processes": True, "threads_per_worker": 1}
    with LocalCluster(n_workers=count, **own) as cluster, Client(cluster) as client:
        yield client


def _rows(client: Any, clips: Sequence[str], options: Sequence[str]) -> Iterator[Row]:
    """Each clip's row, once, as they are done."""
    from distributed import as_completed

    run = uuid.uuid4().hex
    futures = {}
    for number, clip in enumerate(clips):
        # a clip is read where it stands, so nothing is taken from an earlier run
        key = f"belt-{run}-{number}"
        task = client.submit(row_of, clip, os.path.abspath(clip), list(options), key=key, pure=False)
        futures[task.key] = (clip, task)
    for done in as_completed([task for _, task in futures.values()]):
        if done.key not in futures:
            continue
        clip, _ = futures.pop(done.key)
        try:
            row: Row = done.result()
        except (Exception, CancelledError) as error:  # whatever a worker or the scheduler met
            row = {"clip": clip, "error": f"{type(error).__name__}: {error}".splitlines()[0]}
        yield row
        done.release()


class _Table:
    """The rows on the disk: as they come, and at the end in the order of the clips."""

    def __init__(self, path: str, clips: Sequence[str]) -> None:
        self.path, self.clips = path, clips
        self.rows: Dict[str, Row] = {}
        self.file: TextIO = open(path, "w", encoding="utf-8", newline="")
        self.writer = self._begin(self.file)
        self.file.flush()

    @staticmethod
    def _begin(file: TextIO) -> csv.DictWriter[str]:
        writer = csv.DictWriter(file, COLUMNS)
        writer.writeheader()
        return writer

    def add(self, row: Row) -> None:
        self.rows[str(row["clip"])] = row
        self.writer.writerow(row)
        self.file.flush()

    def end(self) -> None:
        """Written again beside itself, so that a table is there all the time."""
        self.file.close()
        folder = os.path.dirname(os.path.abspath(self.path))
        number, beside = tempfile.mkstemp(dir=folder)
        with open(number, "w", encoding="utf-8", newline="") as file:
            self._begin(file).writerows(self.rows[clip] for clip in self.clips if clip in self.rows)
        os.chmod(beside, os.stat(self.path).st_mode & 0o777)
        os.replace(beside, self.path)


def _progress(table: _Table, quiet: bool, row: Row) -> None:
    """How far it is: one line that changes where that is a terminal, else one for each clip."""
    if quiet:
        return
    done, errors = len(table.rows), sum("error" in other for other in table.rows.values())
    line = f"{done} of {len(table.clips)} clips" + (f", {errors} with an error" if errors else "")
    if sys.stderr.isatty():
        print(f"\r\x1b[K{line}", end="\n" if done == len(table.clips) else "", file=sys.stderr, flush=True)
    else:
        print(f"{line}: {row['clip']}: {row.get('error', 'done')}", file=sys.stderr, flush=True)


def main(arguments: Optional[Sequence[str]] = None) -> int:
    """Runs the fleet; its status.

    >>> from belt import fleet
    >>> fleet.main(["clip.y4m", "--out", "no-such-folder/table.csv"])
    2
    """
    words = _words(arguments)
    # a clip that is named twice is one
    clips = list(dict.fromkeys(words.clips))
    try:
        table = _Table(words.out, clips)
        with _client(words) as client:
            for row in _rows(client, clips, _options(words)):
                table.add(row)
                _progress(table, words.quiet, row)
        table.end()
    except ImportError as error:
        print(f"belt.fleet: {error}: it takes dask.distributed (Debian: python3-distributed)", file=sys.stderr)
        return 2
    except (OSError, _tool.ToolError) as error:
        print(f"belt.fleet: {error}", file=sys.stderr)
        return 2
    except KeyboardInterrupt:
        print(f"\nbelt.fleet: ended by hand; {words.out} has what was done", file=sys.stderr)
        return 130
    return 3 if any("error" in row for row in table.rows.values()) else 0


if __name__ == "__main__":
    sys.exit(main())
