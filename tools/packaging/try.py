"""A measurement by the installed package: of a practice belt by the library, and of two kept frames by the tool."""

import sys
from array import array

import belt

WIDTH, HEIGHT = 320, 240
first, second = (array("H", bytes(2 * WIDTH * HEIGHT)) for _ in range(2))
belt.make_practice_planes(1, WIDTH, HEIGHT, 4, -6, first, second)
planes = [memoryview(one).cast("B").cast("H", (HEIGHT, WIDTH)) for one in (first, second)]
seen = belt.measure(*planes, robust=False)
print(f"{belt.__version__}: {seen.status}, {seen.motion.u:.3f} right, {seen.motion.v:.3f} down")


def kept(path):
    """A PGM file of 8 bits, as its maker wrote it: a line each for name, remark, sides and brightest value."""
    with open(path, "rb") as file:
        head = [file.readline() for _ in range(4)]
        width, height = map(int, head[2].split())
        return memoryview(file.read()).cast("B", (height, width))


seen = belt.measure(*map(kept, sys.argv[1:]))
print(f"{seen.status}, {seen.motion.u:.3f} right, {seen.motion.v:.3f} down")
