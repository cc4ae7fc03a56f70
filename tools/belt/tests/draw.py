#!/usr/bin/env python3
"""draw.py FOLDER [--belt]: draw pictures of a loaded belt, each moved in a known way, as PGM and Y4M files.

A scene is a brightness for each place; a picture shows it through a motion. What stands at p in the first picture
stands at M(p) in the second: a turn by so many degrees (clockwise) and a zoom about the picture's middle, then a shift.
Needs nothing but Python. The small pictures that are kept beside this file are what it draws without
--belt; with it, the two frames of the picture in the README: a belt on which four pieces, one of
them in sight, roll on their own.
"""

import math
import pathlib
import random
import struct
import sys

MASK = (1 << 64) - 1


def grain(seed, x, y):
    """A number from 0 to 1 for a crossing of the grid, without a pattern."""
    h = (x * 0x9E3779B97F4A7C15 ^ y * 0xC2B2AE3D27D4EB4F ^ seed * 0xD6E8FEB86659FD93) & MASK
    h = (h ^ h >> 29) * 0xBF58476D1CE4E5B9 & MASK
    return (h >> 40) / float(1 << 24)


def noise(seed, x, y):
    """Smooth noise from 0 to 1 with a grid of 1."""
    i, j = math.floor(x), math.floor(y)
    fx, fy = x - i, y - j
    fx, fy = fx * fx * (3 - 2 * fx), fy * fy * (3 - 2 * fy)
    upper = grain(seed, i, j) * (1 - fx) + grain(seed, i + 1, j) * fx
    lower = grain(seed, i, j + 1) * (1 - fx) + grain(seed, i + 1, j + 1) * fx
    return upper * (1 - fy) + lower * fy


class Piece:
    """A piece of the load: an ellipse with a shade and a texture of its own."""

    def __init__(self, number, x, y, radii, degrees, shade):
        self.number, self.x, self.y, self.radii, self.shade = number, x, y, radii, shade
        self.cosine, self.sine = math.cos(math.radians(degrees)), math.sin(math.radians(degrees))

    def roll(self, right, down):
        self.x, self.y = self.x + right, self.y + down

    def cover(self, x, y):
        """How much of it is at a place, 0 to 1, and the place in its own axes."""
        dx, dy = x - self.x, y - self.y
        if max(abs(dx), abs(dy)) > max(self.radii) + 2:
            return 0.0, 0.0, 0.0
        along, across = dx * self.cosine + dy * self.sine, dy * self.cosine - dx * self.sine
        distance = math.hypot(along / self.radii[0], across / self.radii[1])
        return min(1.0, max(0.0, (1 - distance) * min(self.radii) / 1.5 + 0.5)), along, across


class Scene:
    """A belt with pieces on it, on a square of so many pels about (0, 0)."""

    def __init__(self, seed, side, count):
        random.seed(seed)
        self.seed = seed
        self.pieces = []
        for number in range(count):
            place = random.uniform(-side / 2, side / 2), random.uniform(-side / 2, side / 2)
            radii = random.uniform(9, 26), random.uniform(7, 16)
            self.pieces.append(Piece(number, *place, radii, random.uniform(0, 180), random.uniform(70, 225)))

    def at(self, x, y):
        shade = 45 + 34 * noise(self.seed, x / 3.1, y / 3.1) + 22 * noise(self.seed + 1, x / 9.7, y / 9.7)
        for piece in self.pieces:
            cover, along, across = piece.cover(x, y)
            if cover > 0:
                grain = noise(piece.number + 50, along / 2.7, across / 2.7) - 0.5
                own = piece.shade + 60 * grain + 25 * (noise(piece.number + 90, along / 7, across / 7) - 0.5)
                shade += cover * (own - shade)
        return min(1.0, max(0.0, shade / 255))


class Motion:
    def __init__(self, right=0.0, down=0.0, zoom=1.0, degrees=0.0):
        self.right, self.down, self.zoom, self.degrees = right, down, zoom, degrees

    def back(self, x, y):
        """The place in the first picture of what the second shows at a place, both from the middle."""
        x, y = (x - self.right) / self.zoom, (y - self.down) / self.zoom
        cosine, sine = math.cos(math.radians(self.degrees)), math.sin(math.radians(self.degrees))
        return x * cosine + y * sine, y * cosine - x * sine


def picture(scene, width, height, most=255, motion=Motion()):
    """The pels of the scene through a motion, row by row."""
    pels = []
    for y in range(height):
        for x in range(width):
            pels.append(round(most * scene.at(*motion.back(x - (width - 1) / 2, y - (height - 1) / 2))))
    return pels


def pgm(width, height, most, pels, comment=""):
    head = f"P5\n{comment}{width} {height}\n{most}\n".encode()
    return head + (struct.pack(f">{len(pels)}H", *pels) if most > 255 else bytes(pels))


def y4m(width, height, frames):
    """A clip with colours of 4:2:0, all grey."""
    grey = bytes([128]) * (2 * ((width + 1) // 2) * ((height + 1) // 2))
    head = f"YUV4MPEG2 W{width} H{height} F25:1 Ip A1:1 C420jpeg\n".encode()
    return head + b"".join(b"FRAME\n" + bytes(pels) + grey for pels in frames)


# what is kept: the sides, the largest value, and the motion from still.pgm to each other
SIDES = 160, 128
KEPT = {
    "still": Motion(),
    "pan": Motion(right=6, down=-3),
    "zoom": Motion(zoom=1.02),
    "turn": Motion(right=1.5, down=0.75, degrees=1.5),
}


def keep(folder):
    scene = Scene(7, 240, 40)
    for name, motion in KEPT.items():
        pels = picture(scene, *SIDES, motion=motion)
        (folder / f"{name}.pgm").write_bytes(pgm(*SIDES, 255, pels, f"# a loaded belt, {name}\n"))
    deep = [picture(scene, 96, 64, 4095, motion) for motion in (Motion(), Motion(right=-4, down=2))]
    for name, pels in zip(("deep-still", "deep-pan"), deep):
        (folder / f"{name}.pgm").write_bytes(pgm(96, 64, 4095, pels))
    clip = [picture(scene, 64, 48, motion=Motion(right=2 * i, down=i)) for i in range(3)]
    (folder / "clip.y4m").write_bytes(y4m(64, 48, clip))


def belt(folder):
    scene = Scene(11, 360, 60)
    (folder / "first.pgm").write_bytes(pgm(288, 192, 255, picture(scene, 288, 192)))
    for piece, by in zip(scene.pieces[-4:], ((7, 4), (-6, 5), (9, -6), (-8, -3))):
        piece.roll(*by)
    moved = picture(scene, 288, 192, motion=Motion(right=4, down=-2, zoom=1.01, degrees=1))
    (folder / "second.pgm").write_bytes(pgm(288, 192, 255, moved))


if __name__ == "__main__":
    words = sys.argv[1:]
    if len(words) == 1:
        keep(pathlib.Path(words[0]))
    elif len(words) == 2 and words[1] == "--belt":
        belt(pathlib.Path(words[0]))
    else:
        sys.exit("usage: draw.py FOLDER [--belt]")
