#!/usr/bin/env python3
"""mutate.py BELT [COUNT [SEED]]: runs of the tool on damaged pictures, blocks, headers, recordings, lists and command lines.

Each run must end with 0, 1 or 2 (or 3, with --strict) and never by a signal, say one line where it isn't 0, leave no file
but by 0 and 3, and no temporary file ever. A 0 must be right: every block that was listed or converted is whole, every PNG file that was
measured passes its checks, the numbers of JSON go with their status, what was recorded is replayed, and no recording is that
differs in a byte from the one that was made.
Prints how many ended how; ends with 1 at the first run that is wrong, whose files are then left.
"""

import collections
import json
import os
import pathlib
import random
import shutil
import struct
import subprocess
import sys
import tempfile
import zlib

import draw

STATUSES = {"measured", "still", "unexplained", "flat", "no-blocks", "bad"}


def png(width, height, depth, colour, rows, interlaced=0):
    """A PNG file of rows of bytes."""
    def chunk(name, body):
        return struct.pack(">I", len(body)) + name + body + struct.pack(">I", zlib.crc32(name + body))

    head = struct.pack(">IIBBBBB", width, height, depth, colour, 0, 0, interlaced)
    body = zlib.compress(b"".join(b"\0" + row for row in rows))
    half = len(body) // 2
    return b"\x89PNG\r\n\x1a\n" + chunk(b"IHDR", head) + chunk(b"IDAT", body[:half]) + chunk(b"IDAT", body[half:]) + chunk(b"IEND", b"")


def seeds(belt, folder):
    """Whole files of every kind."""
    scene = draw.Scene(5, 120, 14)
    width, height = 48, 32
    pels = draw.picture(scene, width, height)
    moved = draw.picture(scene, width, height, motion=draw.Motion(right=3, down=1))
    rows = [bytes(pels[y * width : (y + 1) * width]) for y in range(height)]
    colour = [b"".join(bytes([p, p // 2, 255 - p]) for p in row) for row in rows]
    deep = [b"".join(struct.pack(">H", 257 * p) for p in row) for row in rows]
    files = {
        "a.pgm": draw.pgm(width, height, 255, pels),
        "b.pgm": draw.pgm(width, height, 255, moved),
        "deep.pgm": draw.pgm(width, height, 4095, [16 * p for p in pels]),
        "c.ppm": b"P6\n48 32\n255\n" + b"".join(colour),
        "clip.y4m": draw.y4m(width, height, [pels, moved, pels, moved]),
        "grey.png": png(width, height, 8, 0, rows),
        "rgb.png": png(width, height, 8, 2, colour),
        "deep.png": png(width, height, 16, 0, deep),
        "header": bytes.fromhex("FF901FE1FFF849FCB900"),
        "models": b"".join(b"affine 0 0 65536 0 0 65536\n" for _ in range(7)),
        "classes": b"unsorted fibre 2 3 film 0\n",
    }
    for name, data in files.items():
        (folder / name).write_bytes(data)
    made = subprocess.run([belt, "measure", "a.pgm", "b.pgm", "--blocks", "blocks"], cwd=folder, capture_output=True)
    assert made.returncode == 0, made
    blocks = (folder / "blocks").read_bytes()
    (folder / "blocks").write_bytes(blocks * 3)
    made = subprocess.run([belt, "track", "clip.y4m", "--blocks", "recorded", "--headers", "headers", "--key", "2"], cwd=folder, capture_output=True)
    assert made.returncode == 0, made
    return sorted([*files, "blocks", "recorded", "headers"])


def damaged(data):
    """The bytes with some damage: bits, bytes, pieces, numbers of the head."""
    data = bytearray(data)
    for _ in range(random.choice([1, 1, 1, 2, 4])):
        kind = random.randrange(8)
        at = random.randrange(len(data)) if data else 0
        if kind == 0 and data:
            data[at] ^= 1 << random.randrange(8)
        elif kind == 1 and data:
            data[at] = random.choice([0, 9, 10, 32, 35, 43, 45, 48, 57, 127, 128, 255])
        elif kind == 2:
            del data[at:]
        elif kind == 3:
            del data[at : at + random.randrange(1, 40)]
        elif kind == 4:
            data[at:at] = bytes(random.randrange(256) for _ in range(random.randrange(1, 12)))
        elif kind == 5:
            data[at:at] = data[max(0, at - random.randrange(1, 64)) : at]
        elif kind == 6 and data:
            at = random.randrange(min(24, len(data)))
            data[at : at + 1] = random.choice([b"65536", b"0", b"-1", b"+9", b"#x\n", b" ", b"99999999999999999999", b"\n", b"\xff"])
        else:
            data += bytes(random.randrange(256) for _ in range(random.randrange(1, 600)))
    return bytes(data)


def words_of(kind, name, out):
    """A command line on a damaged file."""
    other = "b.pgm" if name != "deep.pgm" else "deep.pgm"
    if kind == "blocks":
        return random.choice([["list", name], ["list", name, "--csv"], ["convert", name, out, "--to", random.choice("12")]])
    if kind in ("headers", "recorded"):
        place = [name, "--blocks", "recorded"] if kind == "headers" else ["headers", "--blocks", name]
        return ["replay", *(place[:1] if kind == "headers" and random.random() < 0.3 else place), *random.choice([[], ["--json"]])]
    if kind == "header":
        at = ["--at", str(random.choice([0, 0, 1, 7, 60, 10**9, 2**63]))]
        return ["read-header", name, *random.choice([[], ["--json"], ["--hex"], ["--key"]]), *at]
    if kind == "models":
        return random.choice([["price", name], ["measure", "a.pgm", "b.pgm", "--prior", name, "--models", out], ["read-header", "header", "--prior", name]])
    if kind == "classes":
        return ["measure", "a.pgm", "b.pgm", "--classes", name, "--blocks", out]
    if random.random() < (0.7 if kind == "clip.y4m" else 0.2):
        places = [name] if kind == "clip.y4m" else random.choice([[name, other], [other, name, other]])
        more = random.choice([[], ["--strict"], ["--every", "2"], ["--from", "1"], ["--fast"], ["--halve"], ["--mask", name], ["--crop", "3,2,40,28"]])
        record = ["--blocks", out, "--headers", out + ".h", *random.choice([[], ["--key", "1"], ["--key", "2"]])]
        stores = random.choice([[], record, ["--csv", out], ["--plot", out], ["--csv", out, "--plot", out + ".svg", "--mm-per-pel", "2"]])
        return ["track", *places, *random.choice([[], ["--json"], ["--json"], ["--quiet"]]), *more, *stores]
    if kind == "clip.y4m":
        name += random.choice(["", "#0", "#1", "#2"])
    pair = random.choice([[name, other], [other, name], [name, name]])
    more = random.choice([[], ["--halve"], ["--crop", "3,2,40,28"], ["--type", "rotzoom"], ["--trim", "--type", "affine"], ["--mask", name]])
    stores = random.choice([[], ["--blocks", out], ["--picture", out + ".png"], ["--picture", out + ".svg", "--header", out]])
    return ["measure", *pair, "--json", *more, *stores]


WORDS = ["measure", "track", "track", "--strict", "--quiet", "--every", "--from", "--plot", "--fps", "--mm-per-pel", "--threads", "--fast",
    "--headers", "--key", "replay", "headers", "clip.y4m", "list", "convert", "read-header", "practice", "price", "demo2", "man", "help", "completions", "a.pgm", "b.pgm",
    "blocks", "header", "models", "o", "o2", "-", "--", "--json", "--csv", "--hex", "--key", "--trim", "--type", "affine", "rotzoom",
    "--crop", "0,0,32,32", "1,2,3", "-1,0,9,9", "--halve", "2", "99", "--mask", "--within", "0.5", "nan", "1e400", "--classes",
    "--frame", "0", "65535", "65536", "--reference", "7", "8", "--start", "--precision", "low", "--prior", "--picture", "o.png", "o.svg",
    "o.jpg", "--blocks", "--header", "--models", "--to", "1", "--at", "18446744073709551615", "--size", "64x48", "1x1", "0x0", "--shift",
    "2,2", "-24,24", "25,0", "--seed", "4294967295", "--slot", "5", "", "\n", "é", "\udcff", "--version", "--help", "bash", "a.pgm#0", "clip.y4m#1", "/dev/null", "."]


def holds(belt, kind, words, said, folder):
    """Whether a status of 0 is right."""
    out = said.stdout
    if words[0] in ("measure", "track") and "--json" in words and "-" not in words and "--help" not in words and out.strip():
        for line in out.decode().splitlines():
            found = json.loads(line)
            known = found["status"] in ("measured", "still")
            if found["status"] not in STATUSES or known != (found.get("measured", found)["right_pels"] is not None):
                return "a status that contradicts its numbers"
            if (found["status"] == "bad") != bool(found.get("reason")):
                return "a bad pair without its reason"
    if kind and "--headers" in words:
        again = subprocess.run([belt, "replay", "out.h", "--blocks", "out", "--json"], cwd=folder, capture_output=True)
        if again.returncode != 0 or b'"record":"pair"' not in again.stdout:
            return f"a recording that isn't replayed: {again}"
    if kind in ("headers", "recorded") and (folder / "damaged").read_bytes() != (folder / kind).read_bytes():
        return "a damaged recording was replayed"
    if kind == "blocks":
        data = (folder / "damaged").read_bytes()
        for at in range(0, len(data), 512):
            block = data[at : at + 512]
            if len(block) < 512:
                return "a block that is cut short"
    if kind and kind.endswith(".png") and words[0] == "measure" and "damaged" in words:
        return png_is_whole((folder / "damaged").read_bytes())
    return None


def png_is_whole(data):
    """None if the head and the rows' data pass their checks; what comes behind them is no part of the picture."""
    at, packed = 8, b""
    while at + 8 <= len(data):
        length, name = struct.unpack(">I4s", data[at : at + 8])
        body = data[at + 8 : at + 8 + length]
        if name == b"IEND":
            break
        (check,) = struct.unpack(">I", data[at + 8 + length : at + 12 + length].ljust(4, b"\0"))
        if name in (b"IHDR", b"PLTE", b"IDAT") and check != zlib.crc32(name + body):
            return f"a chunk {name} with a wrong check was read"
        if name == b"IDAT":
            packed += body
        at += 12 + length
    try:
        zlib.decompress(packed)
    except zlib.error as error:
        return f"{error}, and it was read"
    return None


def one(belt, folder, names, number):
    """A run on a damaged file, or with any words; what is wrong of it, and its status."""
    if random.random() < 0.8:
        kind = random.choice(names)
        (folder / "damaged").write_bytes(damaged((folder / kind).read_bytes()))
        return run(belt, folder, kind, words_of(kind, "damaged", "out"), number)
    return run(belt, folder, None, [random.choice(WORDS) for _ in range(random.randrange(0, 9))], number)


def run(belt, folder, kind, words, number):
    """A run with these words, of which a file of this kind is damaged; what is wrong of it, and its status."""
    before = set(os.listdir(folder))
    encoded = [os.fsencode(word) for word in words]
    said = subprocess.run([belt, *encoded], cwd=folder, capture_output=True, stdin=subprocess.DEVNULL, timeout=60)
    left = set(os.listdir(folder)) - before
    wrong = None
    done = said.returncode == 0 or said.returncode == 3 and "--strict" in words
    if said.returncode not in (0, 1, 2) and not done:
        wrong = f"status {said.returncode}"
    elif b"panicked" in said.stderr:
        wrong = "a panic"
    elif said.returncode != 0 and said.stderr.count(b"\n") != 1:
        wrong = "not one line on standard error"
    elif not done and left:
        wrong = f"left {left}"
    elif any(name.endswith((".part", ".old")) for name in left):
        wrong = f"left {left}"
    elif done:
        wrong = holds(belt, kind, words, said, folder)
    for name in left:
        path = folder / name
        shutil.rmtree(path) if path.is_dir() else path.unlink()
    if wrong:
        print(f"mutate.py: run {number}: {words}: {wrong}\n{said.stderr.decode(errors='replace')}{said.stdout[:400]}")
    return wrong, said.returncode


def main(belt, count, seed):
    folder = pathlib.Path(tempfile.mkdtemp())
    names = seeds(belt, folder)
    # drawing has a seed of its own
    random.seed(seed)
    whole = {name: (folder / name).read_bytes() for name in names}
    ended = collections.Counter()
    for number in range(count):
        wrong, status = one(belt, folder, names, number)
        if wrong:
            sys.exit(f"mutate.py: its files are in {folder}")
        ended[status] += 1
        if number % 8 == 0:
            # what a command line has overwritten by right
            for name, data in whole.items():
                (folder / name).write_bytes(data)
    shutil.rmtree(folder)
    print(f"{count} damaged inputs: " + ", ".join(f"{ended[status]} ended with {status}" for status in sorted(ended)))


if __name__ == "__main__":
    if len(sys.argv) not in (2, 3, 4):
        sys.exit("usage: mutate.py BELT [COUNT [SEED]]")
    main(str(pathlib.Path(sys.argv[1]).resolve()), int((sys.argv[2:3] or ["300"])[0]), int((sys.argv[3:4] or ["1"])[0]))
