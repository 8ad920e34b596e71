#!/usr/bin/env python3
"""Tries the triangulator: python3 test.py PROGRAM [SEED]

Whatever it answers is checked by the properties of a constrained Delaunay triangulation, computed here in whole numbers from the
doubles (exactly), not by stored answers. Ends with a line of counts; status 1 at the first case that fails."""

import random
import subprocess
import sys
import time
from collections import defaultdict
from fractions import Fraction

PROGRAM = sys.argv[1]
SEED = int(sys.argv[2]) if len(sys.argv) > 2 else 1
NAMES = ["XMin", "XMax", "YMin", "YMax", "ZMin", "ZMax"]


def run(text):
    done = subprocess.run([PROGRAM], input=text.encode(), capture_output=True, timeout=120)
    return done.returncode, done.stdout.decode(), done.stderr.decode()


def faces_text(faces):
    """The six faces as the command writes them: a dictionary of face number to (points, constraints)."""
    lines = []
    for number in range(6):
        points, constraints = faces.get(number, ([], []))
        lines.append(f"face {number} {len(points)} {len(constraints)}")
        lines += [f"{u!r} {v!r}" for u, v in points]
        lines += [f"{a} {b}" for a, b in constraints]
    return "\n".join(lines) + "\n"


# The checks

def whole(points):
    """The points as whole numbers: doubles times one power of two."""
    exact = [(Fraction(u), Fraction(v)) for u, v in points]
    scale = max((x.denominator for p in exact for x in p), default=1)
    return [(int(u * scale), int(v * scale)) for u, v in exact]


def turn(a, b, c):
    return (b[0] - a[0]) * (c[1] - a[1]) - (b[1] - a[1]) * (c[0] - a[0])


def in_circle(a, b, c, d):
    """Positive if d lies inside the circle through a, b, c, which turn left."""
    rows = [(p[0] - d[0], p[1] - d[1]) for p in (a, b, c)]
    (ax, ay), (bx, by), (cx, cy) = rows
    aw, bw, cw = (x * x + y * y for x, y in rows)
    return ax * (by * cw - bw * cy) - ay * (bx * cw - bw * cx) + aw * (bx * cy - by * cx)


def double_area_of_hull(points):
    def chain(ordered):
        kept = []
        for p in ordered:
            while len(kept) > 1 and turn(kept[-2], kept[-1], p) <= 0:
                kept.pop()
            kept.append(p)
        return kept[:-1]

    ordered = sorted(points)
    hull = chain(ordered) + chain(ordered[::-1])
    return sum(a[0] * b[1] - a[1] * b[0] for a, b in zip(hull, hull[1:] + hull[:1]))


def check_face(points, constraints, triangles):
    """Positive triangles that fill the hull, joined side to side, every point a corner, every constraint an edge, other edges Delaunay."""
    exact = whole(points)
    across = {}
    area = 0
    for a, b, c in triangles:
        twice = turn(exact[a], exact[b], exact[c])
        assert twice > 0, f"triangle {a} {b} {c} does not turn left"
        area += twice
        for side, opposite in (((a, b), c), ((b, c), a), ((c, a), b)):
            assert side not in across, f"two triangles on one side of {side}"
            across[side] = opposite
    assert area == double_area_of_hull(exact), "the hull is not filled"
    assert {p for t in triangles for p in t} == set(range(len(points))), "a point is no corner"
    kept = {tuple(sorted(pair)) for pair in constraints}
    edges = {tuple(sorted(side)) for side in across}
    assert kept <= edges, f"constraints that are no edges: {sorted(kept - edges)[:3]}"
    for (a, b), c in across.items():
        d = across.get((b, a))
        if d is None:
            assert all(turn(exact[a], exact[b], p) >= 0 for p in exact[:50]), f"side {a} {b} ends inside the hull"
        elif (min(a, b), max(a, b)) not in kept:
            assert in_circle(exact[a], exact[b], exact[c], exact[d]) <= 0, f"edge {a} {b} is not Delaunay"


def check(faces):
    """Triangulates faces that can be, checks every face, and that a second run answers the same."""
    text = faces_text(faces)
    status, out, err = run(text)
    assert status == 0, err
    assert run(text)[1] == out, "two runs differ"
    found = defaultdict(list)
    last = -1
    for row in out.splitlines():
        face, *corners = map(int, row.split())
        assert last <= face <= 5 and len(corners) == 3
        last = face
        found[face].append(corners)
    for number in range(6):
        points, constraints = faces.get(number, ([], []))
        flat = len(points) < 3 or double_area_of_hull(whole(points)) == 0
        if flat:
            assert not found[number], "a triangle without area"
        else:
            check_face(points, constraints, found[number])
    return err


def refused(faces, status, *words):
    text = faces if isinstance(faces, str) else faces_text(faces)
    got, out, err = run(text)
    assert got == status, f"status {got}, not {status}: {err}"
    assert out == "", "triangles were written"
    assert err.startswith("triangulate: ") and err.count("\n") == 1, err
    for word in words:
        assert word in err, f"{word!r} is not told: {err}"


# The cases

def ring(columns, rows):
    """Constraints around a grid that is numbered row by row."""
    at = lambda i, j: j * columns + i
    pairs = [(at(i, j), at(i + 1, j)) for i in range(columns - 1) for j in (0, rows - 1)]
    pairs += [(at(i, j), at(i, j + 1)) for j in range(rows - 1) for i in (0, columns - 1)]
    return pairs


def grid(columns, rows, low, step):
    return [(low[0] + i * step[0], low[1] + j * step[1]) for j in range(rows) for i in range(columns)]


def cut_face(rng, low, side, count, rounded):
    """A rectangle cut by a polyline from its left side to its right one, as a terrain's cross-section leaves it."""
    u0, v0 = low
    u1, v1 = u0 + side[0], v0 + side[1]
    inner = sorted({rounded(u0 + side[0] * rng.random()) for _ in range(count)} - {u0, u1})
    line = [(u, rounded(v0 + side[1] * (0.1 + 0.8 * rng.random()))) for u in [u0] + inner + [u1]]
    line = [p for p in line if u0 <= p[0] <= u1]
    points = line + [(u0, v0), (u1, v0), (u1, v1), (u0, v1)]
    n = len(line)
    constraints = [(i, i + 1) for i in range(n - 1)]
    constraints += [(n, n + 1), (n + 1, n - 1), (n - 1, n + 2), (n + 2, n + 3), (n + 3, 0), (0, n)]
    return points, constraints


def single(x):
    import struct
    return struct.unpack("f", struct.pack("f", x))[0]


def sound_cases(rng):
    square = [(0.0, 0.0), (1.0, 0.0), (1.0, 1.0), (0.0, 1.0)]
    yield "no points", {}
    yield "two points", {0: (square[:2], [])}
    yield "a triangle", {5: (square[:3], [(0, 1), (1, 2), (0, 2)])}
    yield "a square on every face", {f: (square, [(0, 1), (1, 2), (2, 3), (0, 3)]) for f in range(6)}
    yield "the other diagonal", {1: (square, [(1, 3)])}
    yield "a constraint given twice, both ways", {1: (square, [(1, 3), (3, 1), (1, 3)])}
    yield "zeros of either sign", {2: ([(0.0, -0.0), (1.0, 0.0), (-0.0, 1.0)], [(0, 1)])}
    yield "on one line", {3: ([(0.0, 0.0), (0.25, 0.25), (1.0, 1.0), (0.5, 0.5)], [(0, 1), (1, 3)])}
    yield "a step of the format from one line", {4: ([(0.0, 0.0), (0.5, 0.5000000000000001), (1.0, 1.0)], [(0, 1), (1, 2)])}
    tiny = 5e-324
    yield "the smallest doubles", {0: ([(0.0, 0.0), (tiny, 0.0), (0.0, tiny), (tiny, tiny)], [(1, 2)])}
    large = 2.0 ** 30
    yield "the largest coordinates", {0: ([(-large, -large), (large, -large), (large, large), (-large, large), (1e-9, tiny)], [(0, 1)])}
    yield "a fine grid", {4: (grid(40, 25, (100.0, 200.0), (0.1, 0.3)), ring(40, 25))}
    for number in range(30):
        keep = lambda x: x
        low, side = (rng.uniform(-5, 5), rng.uniform(-5, 5)), (rng.uniform(1, 400), rng.uniform(1, 80))
        if number % 3 == 1:
            low = (rng.uniform(1e5, 9e5), rng.uniform(1e5, 9e5))
        if number % 3 == 2:
            low, side, keep = (single(low[0]), single(low[1])), (256.0, 64.0), single
        yield f"a cut face, {number}", {f: cut_face(rng, low, side, rng.randrange(1, 120), keep) for f in range(4)}
    points = [(rng.random(), rng.random()) for _ in range(3000)]
    order = sorted(range(3000), key=lambda p: points[p])
    yield "long thin triangles", {5: (points, [(a, b) for a, b in zip(order[::1], order[1::1])])}


def refused_cases():
    square = [(0.0, 0.0), (2.0, 0.0), (2.0, 2.0), (0.0, 2.0)]
    yield {4: (square, [(0, 2), (1, 3)])}, 5, ["face 4 (ZMin)", "constraint 1 (x 2, y 0) to 3 (x 0, y 2)", "crosses", "0 (x 0, y 0) to 2 (x 2, y 2)"]
    # A crossing that no double can show: the point of crossing is a third.
    thirds = [(0.0, 0.0), (1.0, 1.0), (0.0, 1.0), (1.0, -1.0)]
    yield {0: (thirds, [(2, 3), (0, 1)])}, 5, ["face 0 (XMin)", "crosses", "(y 0, z 1)"]
    # An open edge along a side of the face with a grid point inside it: the chain of the side is held first, then the edge runs through the point.
    side = [(0.0, 0.0), (0.0, 10.0), (5.0, 0.0), (0.0, 5.0), (5.0, 10.0)]
    yield {2: (side, [(0, 3), (1, 3), (0, 1)])}, 4, ["face 2 (YMin)", "constraint 0 (x 0, z 0) to 1 (x 0, z 10)", "runs through point 3 (x 0, z 5)"]
    yield {2: (side, [(0, 1)])}, 4, ["runs through point 3 (x 0, z 5)"]
    yield {5: ([(0.0, 0.0), (3.0, 3.0), (1.0, 1.0), (1.0, 0.0), (0.0, 1.0), (2.0, 2.0)], [(1, 0)])}, 4, ["point"]
    yield {1: (square + [(2.0, 2.0)], [])}, 3, ["face 1 (XMax)", "the points 2 and 4 (y 2, z 2) are at one place"]
    yield {3: ([(0.1, -0.0), (0.1, 0.0), (1.0, 1.0)], [])}, 3, ["are at one place"]


def wrong_inputs():
    good = faces_text({0: ([(0.0, 0.0), (1.0, 0.0), (0.0, 1.0)], [(0, 1)])})
    yield "", 1, "a face is due"
    yield good[:-2], 10, "is no whole number"
    yield "\n".join(good.splitlines()[:-1]) + "\n", 10, "a face is due"
    yield good + "face 6 0 0\n", 11, "more than belongs there"
    yield good + "\n" * 100000, 11, "more than belongs there"
    yield good.replace("face 1", "face 2", 1), 6, "face 1 P C"
    yield good.replace("face 0 3 1", "face 0 1000001 1"), 1, "above 1000000"
    yield good.replace("face 0 3 1", "face 0 3 99999999999999999999999"), 1, "above 10000000"
    yield good.replace("face 0 3 1", "face 0 3 -1"), 1, "no whole number"
    yield good.replace("face 0 3 1", "face 0 3 1 1"), 1, "more than belongs"
    yield good.replace("face 0 3 1", "face 0 1000000 0"), 6, "no point"
    for word in ("nan", "inf", "1e999", "x", "", "1.0 0.0", "1,0"):
        yield good.replace("1.0 0.0", f"1.0 {word}", 1), 3, "more than" if word == "1.0 0.0" else "no point"
    yield good.replace("\n0 1\n", "\n0 1\0\n", 1), 5, "a byte 0"
    yield good.replace("\n0 1\n", "\n0 3\n", 1), 5, "above 2"
    yield good.replace("\n0 1\n", "\n1 1\n", 1), 5, "to itself"
    yield good.replace("\n0 1\n", "\n0\n", 1), 5, "no whole number"
    yield good.replace("1.0 0.0", "1.0 0." + "0" * 500, 1), 3, "too long"
    yield "face 0 0 0\n" + "x" * 5000000, 2, "too long"
    yield "face 0 0 1\n0 0\n", 2, "without points"


def lost_output():
    """An output that cannot be written is no success."""
    with open("/dev/full", "wb") as full:
        text = faces_text({0: ([(0.0, 0.0), (1.0, 0.0), (0.0, 1.0)], [])}).encode()
        done = subprocess.run([PROGRAM], input=text, stdout=full, stderr=subprocess.PIPE, timeout=120)
    assert done.returncode == 1 and b"cannot be written" in done.stderr, done


def large_case():
    """100,000 points on one face: a grid in a box of six digits, cut by a wave."""
    columns, rows = 400, 250
    points = grid(columns, rows, (431000.0, 5210000.0), (1.25, 0.7))
    constraints = ring(columns, rows) + [(100 * columns + i, (100 + (i + 1) % 2) * columns + i + 1) for i in range(columns - 1)]
    constraints = [(a, b) for a, b in constraints if a % columns + 1 == b % columns or a % columns == b % columns]
    return {4: (points, constraints)}


def main():
    rng = random.Random(SEED)
    counts = [0, 0, 0]
    for name, faces in sound_cases(rng):
        try:
            err = check(faces)
            assert ("lie on one line" in err) == (name == "on one line"), err
        except AssertionError as why:
            sys.exit(f"triangulator: {name}: {why}")
        counts[0] += 1
    for faces, status, words in refused_cases():
        refused(faces, status, *words)
        counts[1] += 1
    for text, line, word in wrong_inputs():
        refused(text, 2, f"line {line} of the faces", word)
        counts[2] += 1
    lost_output()
    faces = large_case()
    text = faces_text(faces)
    start = time.time()
    status, _, err = run(text)
    taken = time.time() - start
    assert status == 0, err
    check(faces)
    print(f"triangulator: {counts[0] + 1} triangulated and checked, {counts[1]} told by their points, {counts[2]} inputs turned down; "
          f"{len(faces[4][0])} points and {len(faces[4][1])} constraints took {taken:.2f} s")


main()
