#!/usr/bin/env python3
"""The steps of the two roots in docs/ROOT.md, from the definition and not from our code: after each step the root so far is
the largest whole number whose square does not exceed the digits brought down (math.isqrt), and the rest is what its square leaves.

    python3 docs/root_page.py            prints them
    python3 docs/root_page.py --write    puts them into docs/ROOT.md, between its marks, and into crates/root_steps/stdout
    python3 docs/root_page.py --check    status 1 if one of the two has other steps

The program root_steps draws the same two roots by the library's own step, and rt ci holds what it writes to crates/root_steps/stdout."""

import re
import struct
import sys
from math import isqrt, sqrt
from pathlib import Path

ROOT = Path(__file__).resolve().parent.parent
PAGE, OUTPUT = ROOT / "docs/ROOT.md", ROOT / "crates/root_steps/stdout"
MARK = re.compile(r"(<!-- steps of (\d+): written by docs/root_page.py -->\n```text\n).*?(\n```\n<!-- end of steps -->)", re.S)


def steps(pairs, width):
    """The lines of a root drawn from these pairs of digits, numbers right in a field of so many places; and the root."""
    lines, down, root = [], 0, 0
    for i, pair in enumerate(pairs, 1):
        rest = down - root * root
        down = down * 4 + pair
        trial, before, root = 4 * root + 1, rest * 4 + pair, isqrt(down)
        goes = root % 2 == 1
        assert goes == (trial <= before)
        lines += [
            f"step {i:2}  {pair:02b} brought down       {before:{width}b}",
            f"         4 x root + 1       {'-' if goes else ' '} {trial:{width}b}  {'goes: 1' if goes else 'does not go: 0'}",
            f"         left                 {down - root * root:{width}b}",
            f"         root so far          {root:{width}b}",
        ]
    return lines, root


def of_169():
    lines, root = steps([0b10, 0b10, 0b10, 0b01], 9)
    return "\n".join(["The root of 169, in base two 10 10 10 01", "", *lines, f"169 = {root} x {root} + {169 - root * root}"])


def of_2():
    lines, root = steps([0b10] + [0] * 53, 57)
    bits = struct.unpack("<Q", struct.pack("<d", sqrt(2.0)))[0]
    side, way = ("above", "up") if root % 2 else ("below", "down")
    return "\n".join([
        "The root of 2, in base two 10.00 00 00 ..", "", *lines, "",
        f"The last digit is {root % 2}: the root lies {side} the middle of two doubles, and is rounded {way}.",
        f"rounded to 53 digits          {root // 2 + root % 2:57b}",
        f"the digits of sqrt(2.0)       {2 ** 52 + bits % 2 ** 52:57b}",
        f"sqrt(2.0) has the bit pattern {bits:016x}",
    ])


def main():
    parts = {"169": of_169(), "2": of_2()}
    output = parts["169"] + "\n\n" + parts["2"] + "\n"
    page = PAGE.read_text()
    if sorted(m.group(2) for m in MARK.finditer(page)) != ["169", "2"]:
        sys.exit("docs/ROOT.md has not the two marks")
    wanted = MARK.sub(lambda m: m.group(1) + parts[m.group(2)] + m.group(3), page)
    if sys.argv[1:] == ["--write"]:
        PAGE.write_text(wanted)
        OUTPUT.write_text(output)
    elif sys.argv[1:] == ["--check"]:
        if page != wanted or OUTPUT.read_text() != output:
            sys.exit("docs/ROOT.md or crates/root_steps/stdout has other steps than docs/root_page.py finds")
    elif not sys.argv[1:]:
        print(output, end="")
    else:
        sys.exit(__doc__)


if __name__ == "__main__":
    main()
