#!/usr/bin/env python3
"""The table of what to believe, in README.md.

    python3 docs/definitions.py            prints it
    python3 docs/definitions.py --write    puts it into README.md, between the two marks there
    python3 docs/definitions.py --check    status 1 if README.md has another

LIST below has the files in reading order, each with what it holds. Lines are counted here. The list must be complete: it is every file of
definitions that the contracts of the library's functions name (crates/yongpham/src), or that such a file names; a file that is missing
from it, or is in it without need, is told, and nothing is printed."""

import re
import sys
from pathlib import Path

ROOT = Path(__file__).resolve().parent.parent
START, END = "<!-- definitions: written by docs/definitions.py -->", "<!-- end of definitions -->"

LIST = [
    ("lists/Lists", "the few words about lists: every, some, keep, count, place, an insertion sort, the first of each kind"),
    ("words/Overlay", "an output after a result was written to its front"),
    ("root/Doubles", "IEEE 754's operations under short names, constants, comparisons, a double as whole units"),
    ("root/Root", "the square root: nearer than every other double; and computed"),
    ("hypot/Length", "the length of a segment: the nearest double, the even one of two; and computed"),
    ("rounding/Rounding", "halves away from zero, the key of a coordinate, the segments of an axis"),
    ("geometry/Triangles", "three of a kind: sides, the opposite turn, flat lists taken by threes"),
    ("geometry/Points", "difference, dot and cross product, length, double area, each operation rounded"),
    ("geometry/Boxes", "axes, faces 0 to 5 and where they stand"),
    ("geometry/Meshes", "a mesh from its flat lists and back"),
    ("geometry/Axes", "the lines of an axis, and G, how many points the face grids have"),
    ("refusals/Refusals", "the number and values of each refusal; the first test that holds; what outputs and work room end as"),
    ("input_tests/Front", "tests 1 to 8, which operations share"),
    ("refusals/Reports", "a reply as a number and four words"),
    ("refusals/Answers", "an operation's answer: its tests, its outputs, the work room; and the same for C"),
    ("tolerance/Tolerance", "the tolerance of a box, its tests and its reply"),
    ("aabb_planes/Planes", "one point against the planes of the box: inside, snapping, crossing"),
    ("aabb_polygons/Polygons", "one polygon cut by one plane, and by six"),
    ("aabb_facets/Clipped", "a mesh cut facet by facet: shared vertices, fans"),
    ("aabb_clipping/Clip", "what clip answers and leaves"),
    ("mesh_weld/Joining", "what a rule for joining vertices is, and which laws it must meet"),
    ("mesh_weld/Weld", "vertices kept or taken for one kept before, by such a rule"),
    ("mesh_weld/Cells", "document 01's rule: 27 cells, the first that is near"),
    ("mesh_filter/Filters", "facets with a repeated corner, flat ones, duplicates"),
    ("components/Joined", "what it is for two items to be joined: a chain of steps"),
    ("components/Components", "the groups of joined items, computed; and as a table of numbers and sizes"),
    ("mesh_compact/Status", "what becomes of each facet; and the rule for those kept, without computing"),
    ("mesh_compact/Compact", "the facets kept, with vertices numbered by first use"),
    ("mesh_cleanup/Clean", "what clean answers and leaves"),
    ("edges/Edges", "the sides of facets, and which edges are open"),
    ("box_faces/Faces", "which faces a point lies on; u and v of a face; which turn is outward"),
    ("box_faces/Segments", "whether a point lies on a segment of a face"),
    ("box_faces/Sides", "the four sides of a face, and where along one a point stands"),
    ("candidate_pool/OpenEdges", "an open edge as it is listed: its face and its two candidates"),
    ("candidate_pool/Pool", "a candidate, and how one is entered: one for each key"),
    ("candidate_pool/Setting", "box, eps, resolution, skip tolerance and joining rule in one"),
    ("candidate_edges/Surface", "open edges and vertices on two faces entered"),
    ("candidate_grids/Grid", "the grid points of each face, and those left out"),
    ("candidate_constraints/Constraints", "the edges that a triangulation of a face must have"),
    ("candidate_surface/Asked", "what is asked beside the mesh"),
    ("candidate_surface/Candidates", "the four lists of candidates, and when there is nothing to close"),
    ("closure_tests/Tests", "tests 1 to 9, of candidates and of caps"),
    ("candidate_outputs/Outputs", "the four lists as words, and the outputs for them"),
    ("boundary_closure/Operation", "what candidates answers and leaves"),
    ("cap_triangles/Selection", "triangles turned outward, seeds, shared edges; which are selected, computed and as a relation"),
    ("cap_triangles/Listed", "tests 10 and 11"),
    ("cap_closing/Closing", "what the triangles taken write; demand 3"),
    ("caps/Operation", "what caps answers and leaves"),
    ("caps/Modes", "a mode from its number"),
    ("irregular_edges/Irregular", "edges of three sides or more, or of two that run the same way"),
    ("boundary_groups/Groups", "open edges by components, and which of these are rings"),
    ("boundary_components/Boundary", "what boundary components answers and leaves; what it is for a mesh to be closed"),
    ("yongpham/Calls", "the first five for C: a box as six doubles, a reply as a number and four words, the mode"),
]


def path(name):
    crate, file = name.split("/")
    return ROOT / "crates" / crate / "specs" / f"{file}.antt"


def named(text):
    """The repository's files of definitions that a text uses; types declared in src/ are no such files, and Rattle's own library is none of ours."""
    pairs = re.findall(r"use Rattle\.(\w+)\.specs\.(\w+)", text)
    return [f"{crate}/{file}" for crate, file in pairs if file != "declared" and crate != "std"]


def needed():
    found, open_ones = set(), []
    for source in sorted((ROOT / "crates/yongpham/src").glob("*.rt")):
        open_ones += named(source.read_text())
    while open_ones:
        name = open_ones.pop()
        if name not in found:
            found.add(name)
            open_ones += named(path(name).read_text())
    return found


def table():
    listed, wanted = {name for name, _ in LIST}, needed()
    if listed != wanted:
        sys.exit(f"docs/definitions.py: missing in its list: {sorted(wanted - listed)}; without need: {sorted(listed - wanted)}")
    rows, total = ["| | file | lines | holds |", "|---|---|---|---|"], 0
    for number, (name, holds) in enumerate(LIST, 1):
        count = len(path(name).read_text().splitlines())
        total += count
        rows.append(f"| {number} | [{name}]({path(name).relative_to(ROOT)}) | {count} | {holds} |")
    rows.append(f"| | together | {total:,} | |")
    return "\n".join(rows)


def main():
    readme = ROOT / "README.md"
    text = readme.read_text()
    before, rest = text.split(START)
    old, after = rest.split(END)
    new = f"\n\n{table()}\n\n"
    if "--write" in sys.argv:
        readme.write_text(before + START + new + END + after)
    elif "--check" in sys.argv:
        if old != new:
            sys.exit("docs/definitions.py: README.md has another table; --write puts this one in")
    else:
        print(table())


main()
