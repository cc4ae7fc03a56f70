#!/usr/bin/python3
"""evaluate.py PROGRAM FOLDER..: how well motion is measured on real pictures.

PROGRAM is the built example `pairs` of tools/track (cargo build --release --example pairs). The folders are searched for
the pictures, which Debian packages carry (README.md says which). --tune takes the pictures that thresholds may be chosen
on, --hard the hard pairs too, --details a line for each pair, --videos the videos.
"""

import argparse
import sys
from collections import defaultdict

import numpy

import pairs
from methods import Tool, correlation, lucas_kanade

TUNE = "coins.png gravel.png grass.png brick.png camera.png chelsea.png coffee.png rocket.jpg aero1.jpg baboon.jpg board.jpg box_in_scene.png".split()
TUNE_PLAIN = "moon.png clock_motion.png apple.jpg smarties.png".split()
HELD_OUT = (
    "Dragonfly_by_Bolly.jpg Picture_0B_by_freespace.jpg Picture_1A_by_freespace.jpg Wine_by_Jakkub_Mede.jpg "
    "aitzgorri_by_Aitzol_Berasategi.jpg friends_by_Aitzol_Berasategi.jpg life_by_Aitzol_Berasategi.jpg "
    "picosdeeuropa_by_Aitzol_Berasategi.jpg seeding_by_Clements_Engelhardt.jpg Kleiber_by_Lukas_Baubkus.jpg "
    "GreenMeadow.jpg RainDrops.jpg"
).split()
HELD_OUT_PLAIN = "FreshFlower.jpg Aqua.jpg wood-l.webp umang_by_Abhishek_Mudgal.jpg free_by_Peter_Nerlich.jpg Storm.jpg".split()
NEAR, FAR = 0.25, 0.5


def apart(found, truth, shape):
    """The root of the mean square between two motions over the frame, in pels."""
    height, width = shape
    y, x = numpy.mgrid[0:height:4, 0:width:4]
    places = numpy.stack([x.ravel(), y.ravel(), numpy.ones(x.size)])
    return float(numpy.sqrt((((found - truth) @ places) ** 2).sum(0).mean()))


class Tally:
    def __init__(self):
        self.pairs = self.answered = self.near = self.wrong = 0

    def add(self, trusted, error):
        self.pairs += 1
        self.answered += trusted
        self.near += trusted and error <= NEAR
        self.wrong += trusted and error > FAR

    def __str__(self):
        return f"{self.answered:4d} {self.near:4d} {self.wrong:4d}"


def run(made, methods, details):
    table = defaultdict(lambda: defaultdict(Tally))
    for pair in made:
        notes = []
        for name, method in methods.items():
            trusted, found, note = method(pair.first, pair.second)
            known = found is not None and pair.truth is not None
            error = apart(found, pair.truth, pair.first.shape) if known else numpy.inf
            table[pair.kind.split(", ")[0]][name].add(trusted, error)
            notes.append(f"{name} {'+' if trusted else '-'} {error:.3f} [{note}]")
        if details:
            print(f"{pair.name}, {pair.kind}: {'; '.join(notes)}", flush=True)
    return table


def show(title, table, methods):
    print(f"\n{title}: answered, within {NEAR}, wrong by more than {FAR}")
    print(f"{'':24}{'pairs':>6}  " + "  ".join(f"{name:>14}" for name in methods))
    total = defaultdict(Tally)
    for condition, row in table.items():
        print(f"{condition:24}{row[next(iter(methods))].pairs:6d}  " + "  ".join(f"{row[name]!s:>14}" for name in methods))
        for name in methods:
            for field in ("pairs", "answered", "near", "wrong"):
                setattr(total[name], field, getattr(total[name], field) + getattr(row[name], field))
    count = total[next(iter(methods))].pairs
    print(f"{'all':24}{count:6d}  " + "  ".join(f"{total[name]!s:>14}" for name in methods), flush=True)


def costs(title, tool):
    searches, whole, search = numpy.array(tool.rows).T
    print(f"\n{title}: {searches.mean():.2f} searches a pair; a pair takes {whole.sum() / search.sum():.2f} times as long as one search")
    rest = whole - searches * search
    print(f"  all but the searches takes {rest.sum() / search.sum():.2f} times as long as one search")
    tool.rows.clear()


def main():
    parser = argparse.ArgumentParser(description=__doc__.splitlines()[0])
    parser.add_argument("program")
    parser.add_argument("folders", nargs="+")
    for option in ("--tune", "--hard", "--details", "--alone", "--fast"):
        parser.add_argument(option, action="store_true")
    given = parser.parse_args()
    names, plain = (TUNE, TUNE_PLAIN) if given.tune else (HELD_OUT, HELD_OUT_PLAIN)
    paths, plain = pairs.existing(given.folders, names), pairs.existing(given.folders, plain)
    if len(paths) < 6:
        sys.exit(f"only {len(paths)} of the {len(names)} pictures are there")
    tool = Tool(given.program, *(["fast"] if given.fast else []))
    methods = {"tool": tool}
    if not given.alone:
        methods |= {"LK+RANSAC": lucas_kanade, "ECC": correlation}
    print(f"{len(paths)} pictures, {len(plain)} with little texture")
    show("ordinary", run(pairs.ordinary(paths), methods, given.details), methods)
    costs("ordinary", tool)
    if given.hard:
        show("hard", run(pairs.hard(paths, plain), methods, given.details), methods)
        costs("hard", tool)


if __name__ == "__main__":
    main()
