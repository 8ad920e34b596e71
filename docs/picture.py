#!/usr/bin/env python3
"""Draws case C15 (docs/RULES.md) from what the library answered:

    target/examples/close_cube_cpp | python3 docs/picture.py > docs/c15.svg

Reads the lines that examples/close_cube.cpp prints. Three panels: the surface with candidates and open edges; the supplied triangles on
the box unfolded, seeds and selected ones marked; the two solids. Nothing is drawn that the lines do not say, except the seeds, which are
the selected triangles that hold an open edge of their face."""

import sys

INK, GREY, RED = "#1d2733", "#8a949e", "#c8102e"
SEED, SELECTED, OTHER, SURFACE = "#e8892b", "#f8d3a4", "#cfe3f3", "#b9d9a6"
NAMES = ["XMin", "XMax", "YMin", "YMax", "ZMin", "ZMax"]
AXES = [(1, 2), (1, 2), (0, 2), (0, 2), (0, 1), (0, 1)]


class Read:
    """The lines of the program, by their first word."""

    def __init__(self, lines):
        self.points, self.meshed, self.edges, self.caps = [], [], [], []
        self.meshes = {name: ([], []) for name in ("surface", "positive", "negative")}
        for line in lines:
            word, *rest = line.split()
            if word == "candidate":
                self.points.append(tuple(map(float, rest[:3])))
                self.meshed.append(rest[3] != "0")
            elif word == "open_edge":
                self.edges.append(tuple(map(int, rest)))
            elif word == "supplied":
                self.caps.append(tuple(map(int, rest)))
            elif word in self.meshes and rest[0] == "vertex":
                self.meshes[word][0].append(tuple(map(float, rest[1:])))
            elif word in self.meshes:
                self.meshes[word][1].append(tuple(map(int, rest[1:])))
        points, facets = self.meshes["positive"]
        written = {frozenset(points[k] for k in facet) for facet in facets}
        self.selected = [frozenset(self.points[k] for k in cap[1:]) in written for cap in self.caps]
        self.seeds = [chosen and any(f == cap[0] and {a, b} <= set(cap[1:]) for f, a, b in self.edges)
                      for cap, chosen in zip(self.caps, self.selected)]


# Plain marks

def polygon(points, fill, stroke=GREY, width=1.0):
    text = " ".join(f"{x:.1f},{y:.1f}" for x, y in points)
    return f'<polygon points="{text}" fill="{fill}" stroke="{stroke}" stroke-width="{width}" stroke-linejoin="round"/>'


def line(a, b, stroke=INK, width=1.2, more=""):
    return f'<line x1="{a[0]:.1f}" y1="{a[1]:.1f}" x2="{b[0]:.1f}" y2="{b[1]:.1f}" stroke="{stroke}" stroke-width="{width}" {more}/>'


def words(x, y, text, size=13, anchor="middle", fill=INK, more=""):
    return f'<text x="{x:.1f}" y="{y:.1f}" font-size="{size}" text-anchor="{anchor}" fill="{fill}" {more}>{text}</text>'


def arrow(a, b):
    """An open edge, with its head past the middle: it runs from a to b."""
    at = (a[0] + 0.62 * (b[0] - a[0]), a[1] + 0.62 * (b[1] - a[1]))
    return line(a, b, RED, 3) + line(a, at, RED, 3, 'marker-end="url(#head)"')


def dot(at, filled):
    fill = INK if filled else "#ffffff"
    return f'<circle cx="{at[0]:.1f}" cy="{at[1]:.1f}" r="4.5" fill="{fill}" stroke="{INK}" stroke-width="1.6"/>'


def number(at, value, shift=(0, 0)):
    x, y = at[0] + shift[0], at[1] + shift[1] + 4
    halo = 'stroke="#ffffff" stroke-width="3.5" paint-order="stroke" font-weight="bold"'
    return words(x, y, value, 12, more=halo)


# The cube seen from the front, the right and above: x to the right and a little down, y to the back, z up

def seen(origin, scale):
    def place(p):
        return origin[0] + scale * (0.92 * p[0] + 0.5 * p[1]), origin[1] + scale * (0.14 * p[0] - 0.3 * p[1] - p[2])
    return place


def towards_viewer(points):
    a, b, c = points
    ab, ac = [q - p for p, q in zip(a, b)], [q - p for p, q in zip(a, c)]
    normal = (ab[1] * ac[2] - ab[2] * ac[1], ab[2] * ac[0] - ab[0] * ac[2], ab[0] * ac[1] - ab[1] * ac[0])
    return 0.5 * normal[0] - 0.92 * normal[1] + 0.35 * normal[2] > 0


def cube_lines(place):
    """The twelve sides of the box; the three behind are dashed."""
    corners = [(x, y, z) for x in (0, 1) for y in (0, 1) for z in (0, 1)]
    out = []
    for a in corners:
        for k in range(3):
            b = tuple(1 if i == k else a[i] for i in range(3))
            if a[k] == 0:
                behind = (0, 1, 0) in (a, b)
                out.append(line(place(a), place(b), GREY if behind else INK, 1.2, 'stroke-dasharray="4 4"' if behind else ""))
    return out


def first_panel(read, origin, scale):
    place = seen(origin, scale)
    points, facets = read.meshes["surface"]
    out = [polygon([place(points[k]) for k in facet], SURFACE) for facet in facets]
    out += cube_lines(place)
    out += [arrow(place(read.points[a]), place(read.points[b])) for _, a, b in read.edges]
    for k, point in enumerate(read.points):
        at = place(point)
        out += [dot(at, read.meshed[k]), number(at, k, (-13, -8) if point[0] == 0 else (13, 9))]
    for name, p in (("YMin", (0.5, 0, 0.2)), ("XMax", (1, 0.55, 0.3)), ("ZMax", (0.5, 0.5, 1))):
        x, y = place(p)
        out.append(words(x, y + 4, name, 12, fill=GREY))
    return out


# The box unfolded, seen from outside: four side faces in a row, top above and bottom below the second

def unfolded(origin, scale):
    """Where a point of a face goes, in units of the cube's side."""
    columns = {2: (0, 1), 1: (1, 1), 3: (2, -1), 0: (3, -1)}

    def place(face, p):
        u, v = p[AXES[face][0]], p[AXES[face][1]]
        if face in columns:
            column, direction = columns[face]
            x, y = column + (u if direction > 0 else 1 - u), 1 - v
        else:
            # The top and the bottom hang on XMax: along it y runs to the right.
            x, y = 1 + p[1], (p[0] - 1) if face == 5 else 1 + (1 - p[0])
        return origin[0] + scale * x, origin[1] + scale * y
    return place


def second_panel(read, origin, scale):
    place = unfolded(origin, scale)
    out = []
    for cap, chosen, seed in zip(read.caps, read.selected, read.seeds):
        fill = SEED if seed else SELECTED if chosen else OTHER
        out.append(polygon([place(cap[0], read.points[k]) for k in cap[1:]], fill, INK, 0.8))
    for face, a, b in read.edges:
        out.append(arrow(place(face, read.points[a]), place(face, read.points[b])))
    used = {(face, k) for face, *corners in read.caps for k in corners}
    shown = {}
    for face, k in sorted(used):
        shown.setdefault(tuple(round(x) for x in place(face, read.points[k])), k)
    out += [number(at, k) for at, k in shown.items()]
    for face, shift in ((2, (0.3, 0.14)), (1, (0.3, 0.14)), (3, (0.3, 0.14)), (0, (0.3, 0.14)), (5, (0.7, 0.3)), (4, (0.3, 0.3))):
        base = [place(face, tuple(float(face % 2) if a == face // 2 else b for a, b in enumerate(q))) for q in ((0, 0, 0), (1, 1, 1))]
        x, y = [min(p[i] for p in base) for i in (0, 1)]
        out.append(words(x + scale * shift[0], y + scale * shift[1] + 4, NAMES[face], 12, fill="#5a6570"))
    return out


def third_panel(read, origin, scale):
    out = []
    for name, rise, fill in (("positive", 0.0, SELECTED), ("negative", 0.46, OTHER)):
        place = seen((origin[0], origin[1] - scale * rise), scale)
        points, facets = read.meshes[name]
        own = len(read.meshes["surface"][1])
        for i, facet in enumerate(facets):
            corners = [points[k] for k in facet]
            if towards_viewer(corners):
                out.append(polygon([place(p) for p in corners], SURFACE if i < own else fill, INK, 0.8))
        low = min(p[2] for p in points)
        x, y = place((1, 1, low + 0.25))
        caps = len(facets) - own
        out += [words(x + 14, y - 4, name, 14, "start", more='font-weight="bold"'),
                words(x + 14, y + 13, f"{len(points)} vertices", 12, "start"),
                words(x + 14, y + 28, f"{own} + {caps} facets", 12, "start")]
    return out


def legend(entries, x, y):
    out = []
    for mark, text in entries:
        out += [mark(x, y), words(x + 22, y + 4, text, 12, "start")]
        x += 40 + 6.5 * len(text)
    return out


def swatch(fill):
    return lambda x, y: f'<rect x="{x:.1f}" y="{y - 7:.1f}" width="14" height="14" fill="{fill}" stroke="{INK}" stroke-width="0.8"/>'


def main():
    read = Read(sys.stdin)
    out = ['<svg xmlns="http://www.w3.org/2000/svg" viewBox="0 0 1200 400" width="1200" height="400" font-family="Helvetica, Arial, sans-serif">',
           '<title>Case C15: the unit cube with a square at half height</title>',
           f'<defs><marker id="head" markerWidth="5" markerHeight="5" refX="2.5" refY="2.5" orient="auto"><path d="M0,0 L5,2.5 L0,5 z" fill="{RED}"/></marker></defs>',
           '<rect width="1200" height="400" fill="#ffffff"/>']
    for x, title in ((170, "1  Surface, open edges, candidates"), (580, "2  Supplied triangles, box unfolded"), (1010, "3  The two solids")):
        out.append(words(x, 28, title, 15, more='font-weight="bold"'))
    out += first_panel(read, (46, 302), 178)
    out += second_panel(read, (374, 152), 103)
    out += third_panel(read, (858, 318), 152)
    out += legend([(lambda x, y: dot((x + 7, y), True), "candidate that is a mesh vertex"), (lambda x, y: dot((x + 7, y), False), "grid point"),
                   (lambda x, y: arrow((x - 8, y), (x + 16, y)), "open edge"), (swatch(SEED), "seed"), (swatch(SELECTED), "joined to a seed"),
                   (swatch(OTHER), "neither")], 150, 384)
    out.append("</svg>")
    print("\n".join(out))


main()
