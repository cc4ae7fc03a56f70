"""Ways to measure a pair: the tool's, and two of OpenCV's to compare with.

Each answers (trusted, 2 × 3 motion from the first frame to the second or none, note).
"""

import subprocess

import cv2
import numpy


class Tool:
    """The tracking crate, by its example `pairs`."""

    def __init__(self, program, *arguments):
        command = [str(program), *arguments]
        self.process = subprocess.Popen(command, stdin=subprocess.PIPE, stdout=subprocess.PIPE)
        self.rows = []

    def __call__(self, first, second, most=255):
        height, width = first.shape
        numbers = numpy.array([width, height, most], "<u4").tobytes()
        self.process.stdin.write(numbers + first.astype("<u2").tobytes() + second.astype("<u2").tobytes())
        self.process.stdin.flush()
        fields = self.process.stdout.readline().decode().rstrip("\n").split("\t")
        status, how, kind = fields[:3]
        m0, m1, m2, m3, m4, m5 = map(float, fields[3:9])
        agree, usable, blocks, expected, searches, whole, search = map(float, fields[9:16])
        self.rows.append((searches, whole, search))
        note = f"{status} {how} {kind} {agree:.0f}/{usable:.0f}/{blocks:.0f} {expected:.3f} {searches:.2f} {fields[16]}"
        return status in ("measured", "still"), numpy.array([[m2, m3, m0], [m4, m5, m1]]), note


def lucas_kanade(first, second):
    """Corners followed by pyramids of Lucas and Kanade, and an affine map by RANSAC."""
    corners = cv2.goodFeaturesToTrack(first, 400, 0.01, 8)
    if corners is None or len(corners) < 10:
        return False, None, "few corners"
    moved, state, _ = cv2.calcOpticalFlowPyrLK(first, second, corners, None, winSize=(21, 21), maxLevel=3)
    good = state.ravel() == 1
    if good.sum() < 10:
        return False, None, "few followed"
    found, inside = cv2.estimateAffine2D(corners[good], moved[good], ransacReprojThreshold=1.0)
    if found is None or inside.sum() < 10:
        return False, None, "few inside"
    return True, found, f"{int(inside.sum())}/{int(good.sum())}"


def correlation(first, second, levels=3):
    """ECC of an affine map, from coarse to fine."""
    found = numpy.eye(2, 3, dtype=numpy.float32)
    ends = (cv2.TERM_CRITERIA_EPS | cv2.TERM_CRITERIA_COUNT, 50, 1e-4)
    try:
        for level in reversed(range(levels)):
            factor = 0.5**level
            small = [cv2.resize(f, None, fx=factor, fy=factor, interpolation=cv2.INTER_AREA) for f in (first, second)]
            start = found.copy()
            start[:, 2] *= factor
            value, start = cv2.findTransformECC(small[0], small[1], start, cv2.MOTION_AFFINE, ends, None, 5)
            found = start.copy()
            found[:, 2] /= factor
    except cv2.error:
        return False, None, "no convergence"
    return True, found.astype(float), f"{value:.3f}"
