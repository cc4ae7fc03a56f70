"""Pairs of frames with known motion, made of real pictures.

A frame is drawn from its picture at twice its sides, by cubic interpolation, and brought down by the mean of four: the
same way for both frames of a pair, and another one than the tool's own.
"""

import zlib
from dataclasses import dataclass
from functools import lru_cache
from pathlib import Path

import cv2
import numpy

SUPER = 2
SIZES = [(320, 240), (640, 480)]
SMALL = [(96, 64), (128, 96)]
SOURCE_SCALE = 1.6


@dataclass
class Pair:
    name: str
    kind: str
    first: numpy.ndarray
    second: numpy.ndarray
    # 2 × 3, first to second; none where nothing moved from one to the other
    truth: numpy.ndarray | None


def random(*name):
    return numpy.random.default_rng(zlib.crc32(" ".join(map(str, name)).encode()))


@lru_cache(maxsize=None)
def picture(path, size):
    """A picture in grey, brought down so that a frame of this size leaves a margin for motion."""
    grey = cv2.imread(str(path), cv2.IMREAD_GRAYSCALE)
    if grey is None:
        raise SystemExit(f"{path}: not a picture")
    width, height = size
    factor = max((width + 60) / grey.shape[1], (height + 60) / grey.shape[0]) * SOURCE_SCALE
    how = cv2.INTER_AREA if factor < 1 else cv2.INTER_CUBIC
    return cv2.resize(grey, None, fx=factor, fy=factor, interpolation=how).astype(numpy.float32)


def whole(motion):
    return numpy.vstack([motion, [0, 0, 1]])


def drawn(source, size, motion):
    """The frame in which everything has gone by this motion."""
    width, height = size
    # supersampled pel q lies at the frame's place (q + 0.5) / SUPER - 0.5
    to_frame = numpy.array([[1 / SUPER, 0, 0.5 / SUPER - 0.5], [0, 1 / SUPER, 0.5 / SUPER - 0.5], [0, 0, 1]])
    middle = [(source.shape[1] - SOURCE_SCALE * width) / 2, (source.shape[0] - SOURCE_SCALE * height) / 2]
    to_source = numpy.array([[SOURCE_SCALE, 0, middle[0]], [0, SOURCE_SCALE, middle[1]], [0, 0, 1]])
    back = to_source @ numpy.linalg.inv(whole(motion)) @ to_frame
    flags = cv2.INTER_CUBIC | cv2.WARP_INVERSE_MAP
    big = cv2.warpAffine(source, back[:2], (SUPER * width, SUPER * height), flags=flags, borderMode=cv2.BORDER_REFLECT)
    return cv2.resize(big, size, interpolation=cv2.INTER_AREA)


def about_middle(linear, shift, size):
    """A linear map about the frame's middle, then a shift."""
    middle = (numpy.array(size) - 1) / 2
    return numpy.column_stack([linear, middle + shift - linear @ middle])


def motion(kind, generator, size):
    shift = generator.uniform(-1, 1, 2)
    linear = numpy.eye(2)
    if kind == "pan":
        shift = shift * 20
    elif kind == "creep":
        turn = generator.uniform(0, 2 * numpy.pi)
        shift = generator.uniform(0.1, 0.4) * numpy.array([numpy.cos(turn), numpy.sin(turn)])
    elif kind == "turn":
        angle, zoom = numpy.radians(generator.uniform(-2.5, 2.5)), generator.uniform(0.975, 1.025)
        linear = zoom * numpy.array([[numpy.cos(angle), -numpy.sin(angle)], [numpy.sin(angle), numpy.cos(angle)]])
        shift = shift * 8
    elif kind == "affine":
        linear = linear + generator.uniform(-0.025, 0.025, (2, 2))
        shift = shift * 8
    elif kind == "still":
        shift = shift * 0
    elif kind == "far":
        turn = generator.uniform(0, 2 * numpy.pi)
        shift = generator.uniform(30, 90) * numpy.array([numpy.cos(turn), numpy.sin(turn)])
    return about_middle(linear, shift, size)


def eight_bits(frame):
    return numpy.clip(numpy.rint(frame), 0, 255).astype(numpy.uint8)


def noisy(frame, generator, deviation):
    return frame + generator.normal(0, deviation, frame.shape).astype(numpy.float32)


def jpeg(frame, quality):
    coded = cv2.imencode(".jpg", eight_bits(frame), [cv2.IMWRITE_JPEG_QUALITY, quality])[1]
    return cv2.imdecode(coded, cv2.IMREAD_GRAYSCALE).astype(numpy.float32)


def with_other(frames, others, share, generator, size):
    """A rectangle of this share of the frame shows another picture that moves otherwise."""
    width, height = size
    aspect = generator.uniform(0.7, 1.4)
    wide = min(int(width * (share**0.5) * aspect), width)
    high = min(int(share * width * height / wide), height)
    x, y = generator.integers(0, width - wide + 1), generator.integers(0, height - high + 1)
    made = []
    for frame, other in zip(frames, others):
        frame = frame.copy()
        frame[y : y + high, x : x + wide] = other[y : y + high, x : x + wide]
        made.append(frame)
    return made


ORDINARY = ["clean", "blurred", "noisy", "darker", "JPEG", "still", "a quarter otherwise"]
HARD = ["35 to 49 % otherwise", "far", "strong noise", "cut", "rails", "steep", "small"]
MOTIONS = ["pan", "turn", "affine", "creep"]


def spoiled(condition, frames, generator):
    first, second = frames
    if condition == "blurred":
        return [cv2.GaussianBlur(frame, (0, 0), 1.5) for frame in frames]
    if condition == "noisy":
        return [noisy(frame, generator, 6) for frame in frames]
    if condition == "strong noise":
        return [noisy(frame, generator, 20) for frame in frames]
    if condition == "darker":
        ramp = numpy.linspace(0.6, 0.85, first.shape[1], dtype=numpy.float32)
        return [first, second * ramp - 6]
    if condition == "JPEG":
        return [jpeg(frame, 35) for frame in frames]
    if condition == "still":
        return [noisy(frame, generator, 2) for frame in frames]
    return frames


def pair(path, other_path, condition, kind, turn):
    """One pair; `turn` chooses the size and the numbers."""
    generator = random(path.name, condition, kind, turn)
    size = (SMALL if condition == "small" else SIZES)[turn % 2]
    source = picture(path, size)
    kind = {"still": "still", "far": "far"}.get(condition, kind)
    truth = motion(kind, generator, size)
    if condition == "steep":
        angle = numpy.radians(generator.uniform(4, 9) * generator.choice([-1, 1]))
        rotation = numpy.array([[numpy.cos(angle), -numpy.sin(angle)], [numpy.sin(angle), numpy.cos(angle)]])
        truth = about_middle(rotation, generator.uniform(-4, 4, 2), size)
    frames = [drawn(source, size, motion("still", generator, size)), drawn(source, size, truth)]
    if "otherwise" in condition or condition == "cut":
        other = picture(other_path, size)
        apart = motion("pan", generator, size)
        while numpy.hypot(*(apart - truth)[:, 2]) < 3:
            apart = motion("pan", generator, size)
        others = [drawn(other, size, motion("still", generator, size)), drawn(other, size, apart)]
        if condition == "cut":
            frames, truth = [frames[0], others[1]], None
        else:
            share = 0.25 if "quarter" in condition else generator.uniform(0.35, 0.49)
            frames = with_other(frames, others, share, generator, size)
    if condition == "rails":
        edge = size[1] // 10
        still = drawn(picture(other_path, size), size, motion("still", generator, size))
        for frame in frames:
            frame[:edge], frame[-edge:] = still[:edge], still[-edge:]
    frames = spoiled(condition, frames, generator)
    return Pair(f"{path.stem} {size[0]}", f"{condition}, {kind}", eight_bits(frames[0]), eight_bits(frames[1]), truth)


def ordinary(paths):
    for i, path in enumerate(paths):
        for j, condition in enumerate(ORDINARY):
            for turn in range(3):
                kind = MOTIONS[(i + j + turn) % len(MOTIONS)]
                yield pair(path, paths[(i + 5) % len(paths)], condition, kind, i + j + turn)


def hard(paths, plain):
    for i, path in enumerate(paths):
        for j, condition in enumerate(HARD):
            for turn in range(2):
                kind = MOTIONS[(i + j + turn) % len(MOTIONS)]
                yield pair(path, paths[(i + 5) % len(paths)], condition, kind, i + j + turn)
    for i, path in enumerate(plain):
        for turn in range(4):
            made = pair(path, path, ["clean", "noisy"][turn % 2], MOTIONS[turn], i + turn)
            made.kind = "little texture, " + made.kind.split(", ")[1]
            yield made


def existing(folders, names):
    """Where each named picture is, looked for in folders and below; those that aren't there are left out."""
    found = []
    for name in names:
        places = [place for folder in folders for place in sorted(Path(folder).rglob(name))]
        if places:
            found.append(places[0])
    return found
