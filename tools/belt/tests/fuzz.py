#!/usr/bin/env python3
"""fuzz.py BELT [SECONDS [SEED]]: each reader of the tool on damaged inputs of its own, for so many seconds each (1).

The readers are those of PNG, of PGM and PPM, of Y4M, of a mask, of lists of models and of classes, of blocks, of a header,
and of a recording's headers and blocks. Each begins with whole files, on which every command line must end with 0. Of three
damaged inputs one is damaged as mutate.py does it, up to four times over; the others keep their length, have one to three
bytes changed and every check made right again, so that the fault is found behind the checks or not at all.
A run must be as mutate.py wants it, and end within its time limit. Of 60 inputs or more some must end otherwise than the
rest. Prints how many inputs each reader had and how they ended; ends with 1 at the first run that is wrong, whose files are
then left.
"""

import collections
import pathlib
import random
import shutil
import struct
import subprocess
import sys
import tempfile
import time
import zlib

import mutate

PAIR = ["measure", "damaged", "other", "--json"]
PICTURE = [PAIR, [*PAIR, "--crop", "3,2,40,28"], [*PAIR, "--halve"], ["track", "damaged", "other", "--json", "--strict"]]
MASK = [["measure", "a.pgm", "b.pgm", "--json", "--mask", "damaged"], ["track", "clip.y4m", "--json", "--mask", "damaged"]]
# Reader -> the whole files that it is fed from, and the words that make the tool read the damaged one.
READERS = {
    "png": {name: PICTURE for name in ("grey.png", "rgb.png", "deep.png")},
    "pgm, ppm": {name: PICTURE for name in ("a.pgm", "deep.pgm", "c.ppm")},
    "y4m": {"clip.y4m": [["track", "damaged", "--json"], ["track", "damaged", "--json", "--every", "2"], ["track", "damaged", "--json", "--strict"], ["measure", "damaged#1", "damaged#2", "--json"]]},
    "mask": {name: MASK for name in ("mask.pgm", "mask.png")},
    "models": {"models": [["price", "damaged"], ["read-header", "header", "--prior", "damaged"], ["measure", "a.pgm", "b.pgm", "--prior", "damaged"]]},
    "classes": {"classes": [["measure", "a.pgm", "b.pgm", "--classes", "damaged"], ["measure", "a.pgm", "b.pgm", "--classes", "damaged", "--set", "film,0"]]},
    "blocks": {"blocks": [["list", "damaged"], ["list", "damaged", "--csv"], ["convert", "damaged", "out", "--to", "1"]], "old": [["list", "damaged"], ["convert", "damaged", "out"]]},
    "header": {"header": [["read-header", "damaged"], ["read-header", "damaged", "--json"], ["read-header", "damaged", "--key"]]},
    "recorded headers": {"headers": [["replay", "damaged"], ["replay", "damaged", "--blocks", "recorded", "--json"]]},
    "recorded blocks": {"recorded": [["replay", "other", "--blocks", "damaged"], ["replay", "other", "--blocks", "damaged", "--json"]]},
}
# An input is damaged at most so many times over.
DEEPEST = 4
# Of so many inputs not all end alike.
MANY = 60


def changed(data):
    """The bytes with one to three of them changed: mostly digits of a list and what isn't 0 of other files, and mostly to
    another digit or a number nearby."""
    told = [at for at, byte in enumerate(data) if (chr(byte).isdigit() if data.isascii() else byte)]
    data = bytearray(data)
    for _ in range(random.choice([1, 1, 2, 3])):
        at = random.choice(told) if random.random() < 0.8 else random.randrange(len(data))
        if chr(data[at]).isdigit() and random.random() < 0.8:
            data[at] = random.choice(b"0123456789")
        else:
            data[at] = random.choice([data[at] ^ 1 << random.randrange(8), (data[at] + random.choice([1, 255])) % 256, random.randrange(256)])
    return bytes(data)


def chunks(data):
    """The places of a PNG file's chunks: where each begins, and the length of what it holds."""
    at = 8
    while at + 12 <= len(data):
        (length,) = struct.unpack(">I", data[at : at + 4])
        if at + 12 + length > len(data):
            return
        yield at, length
        at += 12 + length


def png_pels(data):
    """A whole PNG file with some bytes of its rows changed, packed again."""
    packed = b"".join(data[at + 8 : at + 8 + length] for at, length in chunks(data) if data[at + 4 : at + 8] == b"IDAT")
    body = b"IDAT" + zlib.compress(changed(zlib.decompress(packed)))
    head, end = data[:33], data[-12:]
    return head + struct.pack(">I", len(body) - 4) + body + struct.pack(">I", zlib.crc32(body)) + end


def with_checks(kind, data):
    """The bytes with every check made right that stands at its place."""
    data = bytearray(data)
    if kind.endswith(".png"):
        for at, length in chunks(data):
            data[at + 8 + length : at + 12 + length] = struct.pack(">I", zlib.crc32(data[at + 4 : at + 8 + length]))
    elif kind in ("blocks", "old", "recorded"):
        for at in range(0, len(data) - 511, 512):
            total = 1 + sum(struct.unpack(">127I", data[at : at + 508]))
            data[at + 508 : at + 512] = struct.pack(">I", total % 2**32)
    elif kind == "headers":
        for begin, end in records(data):
            data[end - 4 : end] = struct.pack(">I", zlib.crc32(data[begin : end - 4]))
    return bytes(data)


def records(data):
    """The head and the records of a file of headers, with their checks, as tools/record has them."""
    begin, end = 0, 16
    while end <= len(data):
        yield begin, end
        if end + 32 > len(data):
            return
        (bits,) = struct.unpack(">H", data[end + 26 : end + 28])
        begin, end = end, end + 32 + (bits + 7) // 8 + 4


def belonging(headers, blocks):
    """A whole file of headers that belongs to other blocks of the same number."""
    headers, at = bytearray(headers), 0
    for begin, end in list(records(headers))[1:]:
        (samples,) = struct.unpack(">H", headers[begin + 24 : begin + 26])
        size = (samples + 99) // 100 * 512
        if samples:
            headers[begin + 28 : begin + 32] = struct.pack(">I", zlib.crc32(blocks[at : at + size]))
        at += size
    return with_checks("headers", bytes(headers))


def damaged(kind, whole):
    """A damaged input, and whether its checks are right all the same."""
    if random.random() < 1 / 3:
        for _ in range(random.randrange(DEEPEST)):
            whole = mutate.damaged(whole)
        return mutate.damaged(whole), False
    if kind.endswith(".png") and random.random() < 0.5:
        return png_pels(whole), True
    return with_checks(kind, changed(whole)), True


def fuzzed(belt, folder, reader, seconds):
    """Runs a reader for so long: how many runs ended how."""
    whole = {kind: (folder / kind).read_bytes() for kind in READERS[reader]}
    headers = (folder / "headers").read_bytes()
    for kind, words in READERS[reader].items():
        (folder / "damaged").write_bytes(whole[kind])
        (folder / "other").write_bytes(headers if kind == "recorded" else whole[kind])
        for line in words:
            wrong, status = mutate.run(belt, folder, kind, line, 0)
            # a strict one may warn of so small a picture
            if wrong or status not in ((0, 3) if "--strict" in line else (0,)):
                sys.exit(f"fuzz.py: {reader}: {line} ends with {status} on the whole file; its files are in {folder}")
    ended, number = collections.Counter(), 0
    until = time.monotonic() + seconds
    while time.monotonic() < until or number < 2:
        kind, number = random.choice(list(whole)), number + 1
        data, checked = damaged(kind, whole[kind])
        (folder / "damaged").write_bytes(data)
        if kind == "recorded":
            (folder / "other").write_bytes(belonging(headers, data) if checked else headers)
        else:
            (folder / "other").write_bytes(whole[kind])
        # a recording whose checks are right may be replayed
        told = None if checked and kind in ("headers", "recorded") else kind
        try:
            wrong, status = mutate.run(belt, folder, told, random.choice(READERS[reader][kind]), number)
        except subprocess.TimeoutExpired as late:
            wrong, status = print(f"fuzz.py: run {number}: {late}") or "late", None
        if wrong:
            sys.exit(f"fuzz.py: {reader}: its files are in {folder}")
        ended[status] += 1
    if number >= MANY and len(ended) == 1:
        sys.exit(f"fuzz.py: {reader}: {number} damaged inputs all ended with {status}: they reach no further")
    return ended


def main(belt, seconds, seed):
    folder = pathlib.Path(tempfile.mkdtemp())
    mutate.seeds(belt, folder)
    made = subprocess.run([belt, "convert", "blocks", "old", "--to", "1"], cwd=folder, capture_output=True)
    assert made.returncode == 0, made
    rows = [bytes(255 * (x < 12) for x in range(48)) for _ in range(32)]
    (folder / "mask.pgm").write_bytes(b"P5\n48 32\n255\n" + b"".join(rows))
    (folder / "mask.png").write_bytes(mutate.png(48, 32, 8, 0, rows))
    random.seed(seed)
    for reader in READERS:
        ended = fuzzed(belt, folder, reader, seconds)
        print(f"{reader}: {sum(ended.values())} damaged inputs: " + ", ".join(f"{ended[status]} ended with {status}" for status in sorted(ended)), flush=True)
    shutil.rmtree(folder)


if __name__ == "__main__":
    if len(sys.argv) not in (2, 3, 4):
        sys.exit("usage: fuzz.py BELT [SECONDS [SEED]]")
    main(str(pathlib.Path(sys.argv[1]).resolve()), float((sys.argv[2:3] or ["1"])[0]), int((sys.argv[3:4] or ["1"])[0]))
