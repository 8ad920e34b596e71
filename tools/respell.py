#!/usr/bin/env python3
"""Respells this repository's own definitions, fields and lemmas: words in snake case, in specs/, proofs/ and the clauses of src/.

usage: respell.py [--check] ROOT

Run once, right after the toolchain's port.py. A name is respelled where a file of specs/ or proofs/ declares it (a Proof.antt excepted), and its
spelling has a dash or an inner capital; types and modules, which begin with a capital, stay. --check writes nothing, and prints names that fall together.
"""
import os
import re
import sys
from collections import defaultdict

CHECK = "--check" in sys.argv
ROOT = [a for a in sys.argv[1:] if not a.startswith("--")][0]
TOKEN = re.compile(r"[^\s(){}\[\];,.\"«»@λ∀`]+")
DECLARED = re.compile(r"^\s*(?:(?:abbrev|unfoldable|pub)\s+)*([^\s:(){}\[\];,.\"]+(?:\s+[^\s:(){}\[\];,.\"]+)*)\s+:(?:\s|$)")
# A lemma that would have a definition's name gets `_lem`: by old spelling, filled in by `settle`.
APART = {"flat-map": "flat_map_lem", "is-nan": "is_nan_lem"}


def files(*endings):
    for above, folders, names in os.walk(os.path.join(ROOT, "crates")):
        folders[:] = sorted(f for f in folders if f != "out")
        for name in sorted(names):
            if name.endswith(endings):
                yield os.path.join(above, name)


def read(path):
    with open(path, encoding="utf-8") as f:
        return f.read()


def snake(name):
    if name in APART:
        return APART[name]
    # sortBy'  keyIs  getD-mem  c3bHolds
    name = re.sub(r"(?<=[a-z0-9])([A-Z])(?=[a-z]|$|-)", lambda m: "_" + m[1].lower(), name)
    name = re.sub(r"(?<=[A-Za-z0-9₀-₉'])-(?=[A-Za-z0-9])", "_", name)
    return name


def is_word(name):
    return not name[0].isupper() and not name[0].isdigit() and (re.search(r"[A-Za-z0-9]-[A-Za-z0-9]", name) or re.search(r"[a-z0-9][A-Z]", name))


def own_names():
    out = set()
    for path in files(".antt"):
        if path.endswith("/Proof.antt"):
            continue
        for line in read(path).split("\n"):
            if line.lstrip().startswith("--"):
                continue
            m = DECLARED.match(line)
            if m:
                out.update(n for n in m[1].split() if n not in ("pub", "abbrev", "unfoldable", "record", "module", "data"))
    return {n for n in out if is_word(n)}


def settle(names):
    """Finds the names that would fall together. What specs/ declares keeps the plain spelling, then what has an inner capital."""
    declared = defaultdict(set)
    for path in files(".antt"):
        if not path.endswith("/Proof.antt"):
            for line in read(path).split("\n"):
                m = DECLARED.match(line)
                if m and not line.lstrip().startswith("--"):
                    for n in m[1].split():
                        declared[n].add("/specs/" in path)
    groups = defaultdict(set)
    for n in declared:
        if not n[0].isupper() and n[0].isalpha():
            groups[snake(n)].add(n)
    for plain, group in groups.items():
        if len(group) > 1:
            first = {n for n in group if True in declared[n]} or {n for n in group if re.search("[a-z0-9][A-Z]", n)} or {plain}
            for n in group - first:
                APART[n] = plain + "_lem"
    return names | set(APART)


def imports(text):
    """Returns the names that a file brings from elsewhere than this repository's own crates."""
    crates = set(os.listdir(os.path.join(ROOT, "crates")))
    out = set()
    for m in re.finditer(r"use\s+([^\s{};]+?)\.\{([^{}]*)\}", text):
        part = m[1].split(".")
        if not (part[0] == "Rattle" and part[1] in crates):
            out.update(n.strip().split(" as ")[0].strip() for n in m[2].split(","))
    return out


def clauses(text):
    """The spans of a source file that antt reads: ghost use lines, and what stands in the braces of a clause."""
    for m in re.finditer(r"^[ \t]*(?:pub )?ghost use [^;]*;", text, re.M):
        yield m.span()
    for m in re.finditer(r"\b(?:requires|ensures|ghost|invariant|decreases)\b\*?[^{};\n]*\{", text):
        depth, at = 1, m.end()
        while depth and at < len(text):
            depth += {"{": 1, "}": -1}.get(text[at], 0)
            at += 1
        yield m.end(), at


def turned(text, names, kept):
    def one(m):
        # Behind a dot a name that is in snake case already is a field, or a function of src/.
        if m[0] not in names or m[0] in kept or (not is_word(m[0]) and m.start() and text[m.start() - 1] == "."):
            return m[0]
        return snake(m[0])

    return TOKEN.sub(one, text)


def main():
    names = settle(own_names())
    for path in files(".antt", ".rt"):
        text = read(path)
        kept = imports(text)
        if path.endswith(".antt"):
            new = turned(text, names, kept)
        else:
            new, at = "", 0
            for start, end in sorted(clauses(text)):
                if start >= at:
                    new += text[at:start] + turned(text[start:end], names, kept)
                    at = end
            new += text[at:]
        if CHECK:
            rel = os.path.relpath(path, ROOT)
            both = sorted(kept & names)
            if both:
                print(f"{rel}: a library's, kept: {both}")
            tokens = set(TOKEN.findall(re.sub(r"--.*", "", text)))
            into = defaultdict(set)
            for t in tokens:
                into[snake(t) if t in names and t not in kept else t].add(t)
            for k, v in sorted(into.items()):
                if len(v) > 1:
                    print(f"{rel}: {sorted(v)} -> {k}")
        elif new != text:
            with open(path, "w", encoding="utf-8") as f:
                f.write(new)


main()
