#!/usr/bin/env python3
"""made.py BELT: pictures with a known motion, made here, measured by the tool, and held to what was made.

A loaded belt is drawn (draw.py) and moved: by draw.py itself, by ImageMagick and by ffmpeg, where they are installed.
Then the pictures that the tool draws, its JSON and its manual page are read by other programs than itself.
Prints a line for each part; ends with 1 if a number is off.
"""

import base64
import json
import pathlib
import shutil
import struct
import subprocess
import sys
import tempfile
import xml.etree.ElementTree
import zlib

import draw

# the drawn picture, the part of it that is measured, and what is allowed between made and found: blocks at the edges,
# whose load has left the picture, pull a fit a little
SIDES = 320, 256
PART = 256, 192
LEFT, TOP = 32, 32
ALLOWED = {"right": 0.25, "down": 0.25, "zoom": 0.003, "degrees": 0.15}


def run(*words, **more):
    return subprocess.run([str(word) for word in words], capture_output=True, text=True, **more)


def measured(belt, *words):
    said = run(belt, "measure", *words, "--json")
    if said.returncode != 0:
        sys.exit(f"made.py: {said.stderr.strip()}")
    return json.loads(said.stdout)


def compare(belt, name, first, second, made, kinds=("elected", "rotzoom", "affine")):
    """Measures a pair as each type, elected too, and holds it to the motion made."""
    for kind in kinds:
        found = measured(belt, first, second, *([] if kind == "elected" else ["--type", kind]))
        numbers = {
            "right": found["measured"]["right_pels"],
            "down": found["measured"]["down_pels"],
            "zoom": found["measured"]["zoom"],
            "degrees": found["measured"]["angle_degrees"],
        }
        if found["status"] != "measured":
            sys.exit(f"made.py: {name}, {kind}: {found['status']}")
        for key, allowed in ALLOWED.items():
            if abs(numbers[key] - getattr(made, key)) > allowed:
                sys.exit(f"made.py: {name}, {kind}: {key} is {numbers[key]}, made was {getattr(made, key)}")
        if found["agree"] < 0.9 * found["usable"] or found["warnings"]:
            sys.exit(f"made.py: {name}, {kind}: {found['agree']} of {found['usable']} blocks agree")
    print(f"{name}: as made")


def drawn(belt, folder, scene):
    cases = {
        "pan": draw.Motion(right=-5, down=3),
        "zoom": draw.Motion(zoom=0.985),
        "turn": draw.Motion(degrees=-2),
        "all": draw.Motion(right=2.25, down=-3.5, zoom=1.012, degrees=0.8),
    }
    still = folder / "drawn.pgm"
    still.write_bytes(draw.pgm(*PART, 1023, draw.picture(scene, *PART, 1023)))
    for name, motion in cases.items():
        path = folder / f"drawn-{name}.pgm"
        path.write_bytes(draw.pgm(*PART, 1023, draw.picture(scene, *PART, 1023, motion)))
        compare(belt, f"drawn, 10 bits, {name}", still, path, motion)
    return still, folder / "drawn-all.pgm"


def magick():
    """The words that run ImageMagick, if it is here."""
    for words in (["magick"], ["convert"]):
        if shutil.which(words[0]) and run(*words, "-version").stdout.startswith("Version: ImageMagick"):
            return words
    return None


def by_magick(belt, folder, base):
    words = magick()
    if not words:
        return print("no ImageMagick here: nothing was made by it")
    part = f"{PART[0]}x{PART[1]}"

    def make(name, *more):
        path = folder / f"magick-{name}.pgm"
        subprocess.run([*words, str(base), *more, "+repage", "-depth", "8", str(path)], check=True)
        return path

    still = make("still", "-crop", f"{part}+{LEFT}+{TOP}")
    pan = make("pan", "-crop", f"{part}+{LEFT - 6}+{TOP + 3}")
    compare(belt, "ImageMagick, pan", still, pan, draw.Motion(right=6, down=-3), ("elected", "translation", "rotzoom", "affine"))
    # scale, rotate, translate: about the middle, which goes to another place
    x, y = SIDES[0] / 2, SIDES[1] / 2
    cases = {
        "zoom": draw.Motion(zoom=1.02),
        "turn": draw.Motion(degrees=1.5),
        "all": draw.Motion(right=5, down=-3, zoom=0.99, degrees=-1),
    }
    for name, made in cases.items():
        distort = f"{x},{y} {made.zoom} {made.degrees} {x + made.right},{y + made.down}"
        words_of = ["-virtual-pixel", "edge", "-distort", "SRT", distort, "-crop", f"{part}+{LEFT}+{TOP}"]
        compare(belt, f"ImageMagick, {name}", still, make(name, *words_of), made)


def by_ffmpeg(belt, folder, base):
    if not shutil.which("ffmpeg"):
        return print("no ffmpeg here: nothing was made by it")

    def make(name, filters):
        path = folder / f"ffmpeg-{name}.pgm"
        command = ["ffmpeg", "-v", "error", "-y", "-i", str(base), "-vf", f"{filters},format=gray", str(path)]
        subprocess.run(command, check=True)
        return path

    part = f"{PART[0]}:{PART[1]}"
    still = make("still", f"crop={part}:{LEFT}:{TOP}")
    pan = make("pan", f"crop={part}:{LEFT - 6}:{TOP + 3}")
    compare(belt, "ffmpeg, pan", still, pan, draw.Motion(right=6, down=-3), ("elected", "translation", "rotzoom", "affine"))
    # 320×256 times 1.03125 are 330×264, whose middle stays in the part's
    zoom = make("zoom", f"scale=330:264:flags=bicubic,crop={part}:{LEFT + 5}:{TOP + 4}")
    compare(belt, "ffmpeg, zoom", still, zoom, draw.Motion(zoom=1.03125))
    turn = make("turn", f"rotate=1*PI/180:bilinear=1,crop={part}:{LEFT}:{TOP}")
    compare(belt, "ffmpeg, turn", still, turn, draw.Motion(degrees=1))
    for number, path in enumerate((still, pan)):
        shutil.copy(path, folder / f"clip{number}.pgm")
    clip = folder / "clip.y4m"
    frames = ["-framerate", "25", "-i", str(folder / "clip%d.pgm")]
    subprocess.run(["ffmpeg", "-v", "error", "-y", *frames, "-pix_fmt", "yuv420p", str(clip)], check=True)
    compare(belt, "ffmpeg, Y4M", f"{clip}#0", f"{clip}#1", draw.Motion(right=6, down=-3))


def png_sides(data):
    """The sides of a PNG file whose checks and length are right."""
    assert data[:8] == b"\x89PNG\r\n\x1a\n", "a PNG file begins otherwise"
    at, parts = 8, {}
    while at < len(data):
        length, name = struct.unpack(">I4s", data[at : at + 8])
        body = data[at + 8 : at + 8 + length]
        (check,) = struct.unpack(">I", data[at + 8 + length : at + 12 + length])
        assert check == zlib.crc32(name + body), f"the check of {name}"
        parts[name] = parts.get(name, b"") + body
        at += 12 + length
    width, height, depth, kind = struct.unpack(">IIBB", parts[b"IHDR"][:10])
    row = 1 + width * (3 if kind == 2 else 1)
    assert depth == 8 and len(zlib.decompress(parts[b"IDAT"])) == height * row, "the rows of the PNG file"
    return width, height


def pictures(belt, folder, first, second):
    png, svg = folder / "seen.png", folder / "seen.svg"
    found = measured(belt, first, second, "--picture", png, "--picture", svg)
    width, height = png_sides(png.read_bytes())
    root = xml.etree.ElementTree.parse(svg).getroot()
    space = "{http://www.w3.org/2000/svg}"
    assert (root.get("width"), root.get("height")) == (str(width), str(height)), "the two pictures' sides"
    image = root.find(f"{space}image").get("href")
    assert png_sides(base64.b64decode(image.split(",")[1])) == PART, "the picture in the SVG"
    texts = [text.text for text in root.iter(f"{space}text")]
    keys = [int(text.split(": ")[1].split()[0].replace(",", "")) for text in texts if text.endswith(("block", "blocks"))]
    # the keys count every block, and those that agree are of the ones that can tell their motion
    assert keys[0] >= found["agree"] and sum(keys) == found["blocks"], f"the legend: {texts}"
    # each block has one dot, a line without length, under its halo and as itself
    dots = sum(path.get("d").count("M") for path in root.iter(f"{space}path") if lengthless(path.get("d")))
    assert dots == 2 * found["blocks"], f"{dots} dots"
    print("the PNG and the SVG picture: read by others")


def lengthless(path):
    first = path[1:].split("M")[0].split("L")
    return first[0] == first[1]


def manual(belt):
    page = run(belt, "man").stdout
    if not shutil.which("groff"):
        return print("no groff here: the manual page wasn't set")
    set_page = run("groff", "-man", "-ww", "-Tutf8", "-P-cbou", "-Kutf8", input=page)
    if set_page.returncode != 0 or set_page.stderr or "EXIT STATUS" not in set_page.stdout:
        sys.exit(f"made.py: the manual page: {set_page.stderr}")
    print("the manual page: set by groff without a warning")


def main(belt):
    scene = draw.Scene(23, 440, 70)
    with tempfile.TemporaryDirectory() as name:
        folder = pathlib.Path(name)
        first, second = drawn(belt, folder, scene)
        if magick() or shutil.which("ffmpeg"):
            base = folder / "base.pgm"
            base.write_bytes(draw.pgm(*SIDES, 255, draw.picture(scene, *SIDES)))
        else:
            base = None
        by_magick(belt, folder, base)
        by_ffmpeg(belt, folder, base)
        pictures(belt, folder, first, second)
    manual(belt)


if __name__ == "__main__":
    if len(sys.argv) != 2:
        sys.exit("usage: made.py BELT")
    main(pathlib.Path(sys.argv[1]).resolve())
