#!/usr/bin/env python3
"""Counts in crates/*/src/*.rt the places of the eight points of docs/DESIGN-PASS.md.

    python3 tools/forms.py [--list | --open] [COMMIT]

Without a commit the files as they lie here are read. --list prints each place, --open those with no reason beside them. It reads text: a place is found by its form. A
place that stays has a comment line `// Stays (C interface): why` (or speed, proof, plainer): over its line, over its function, over the impl that it is part of, or, with
`, point 6` or another number behind the bracket, at the head of its file. Of a fact or of parameters that several functions share one of them has a line that says point 5.
"""
import collections
import pathlib
import re
import subprocess
import sys

ROOT = pathlib.Path(__file__).resolve().parent.parent


def sources(commit):
    if commit is None:
        for path in sorted(ROOT.glob("crates/*/src/**/*.rt")):
            yield str(path.relative_to(ROOT)), path.read_text()
        return
    git = ["git", "-C", str(ROOT)]
    names = subprocess.run(git + ["ls-tree", "-r", "--name-only", commit, "crates"], capture_output=True, text=True, check=True).stdout.split()
    for name in names:
        if re.fullmatch(r"crates/[^/]+/src/.*\.rt", name):
            yield name, subprocess.run(git + ["show", f"{commit}:{name}"], capture_output=True, text=True, check=True).stdout


FN = re.compile(r"^( *)(?:pub(?:\([a-z]+\))? )?(?:final )?(?:extern \"C\" )?fn (\w+)")


def functions(name, text):
    """Each function: its name, its line, the comment above it, its signature, its clauses and its body."""
    lines = text.split("\n")
    i = 0
    while i < len(lines):
        m = FN.match(lines[i])
        if not m:
            i += 1
            continue
        indent = m.group(1)
        above = []
        k = i - 1
        while k >= 0 and (lines[k].strip().startswith("//") or lines[k].strip().startswith("#[")):
            above.insert(0, lines[k].strip())
            k -= 1
        j = i
        head = []
        while j < len(lines) and lines[j] != indent + "{" and not lines[j].endswith(" {}"):
            if re.search(r"\) (-> .*)?\{$", lines[j]) or lines[j] == indent + "}" :
                break
            head.append(lines[j])
            j += 1
        if j < len(lines) and lines[j] != indent + "{":
            head.append(lines[j])
        body = []
        j += 1
        while j < len(lines) and lines[j] != indent + "}":
            body.append(lines[j])
            j += 1
        joined = "\n".join(head)
        cut = re.search(r"\n *(requires|ensures|where|ghost)\b", joined)
        signature = joined[: cut.start()] if cut else joined
        clauses = joined[cut.start():] if cut else ""
        yield {
            "where": f"{name}:{i + 1}", "name": m.group(2), "comment": " ".join(above), "signature": signature, "clauses": clauses, "body": "\n".join(body),
            "file": name, "line": i + 1,
        }
        i = j + 1


def parameters(signature):
    m = re.search(r"\((.*)\)", signature, re.S)
    if not m:
        return []
    return re.findall(r"(?:mut )?(\w+): ([^,()]+(?:\([^)]*\))?)", m.group(1))


REASON = re.compile(r"// Stays \((C interface|speed|proof|plainer)\)((?:, points? [\d, and]+)?): \S")


def comment_over(lines, i):
    """The comment and attribute lines directly over line i, counted from 0."""
    k = i - 1
    while k >= 0 and re.match(r"\s*(//|#\[)", lines[k]):
        k -= 1
    return lines[k + 1: i]


def joined(own):
    """One reason of several lines: the first one's name, and the points of all. A line that names no point speaks of its function's form, and of no fact."""
    return (own[0][0], sorted({p for _, points in own for p in points} if all(points for _, points in own) else set("123467") | {p for _, points in own for p in points})) if own else None


def reasons_of(text):
    """The reasons of a file: those at its head, by point, and those over each line."""
    lines = text.split("\n")
    head = {}
    i = 0
    while i < len(lines) and (lines[i].startswith("//") or not lines[i].strip()):
        m = REASON.search(lines[i])
        if m:
            for point in re.findall(r"\d", m.group(2)):
                head[point] = m.group(1)
        i += 1
    beside = {}
    within = None
    over_function = None
    for i, line in enumerate(lines):
        own = [(m.group(1), re.findall(r"\d", m.group(2))) for m in map(REASON.search, comment_over(lines, i)) if m]
        if re.match(r"(?:pub )?(?:unsafe )?(?:impl|trait|enum|struct)\b", line):
            within = joined(own)
        if re.match(r"\}", line):
            within = None
        if FN.match(line):
            over_function = joined(own)
            indent = FN.match(line).group(1)
        beside[i + 1] = joined(own) or over_function or within
        if over_function and re.match(r"%s\}" % indent, line):
            over_function = None
    return head, beside


# 1: own enums of the shape of Option or Result; answers that say none, or true and false, by a number; parameters that say a kind by a number
ENUM = re.compile(r"(?:pub )?enum (\w+) \{(.*?)\n\}", re.S)
SAYS = re.compile(
    r"or how many|, or [a-z]+ if there is none|; [nk] if there is none|, or [nk]\b(?! )|\b0 where none|\b0 while|\b1 where|\b1 if|\b1 for |\b1 or 0|[Tt]he link to|as a link|or 257", re.I
)
KINDS = re.compile(r"\b(face|axis|c|operation|mode|number): (usize|u64|u32)\b")


def point1(files, found):
    for name, text in files:
        for m in ENUM.finditer(text):
            cases = [c.strip().rstrip(",") for c in m.group(2).split("\n") if c.strip() and not c.strip().startswith("//")]
            empty = [c for c in cases if "(" not in c]
            if m.group(1) == "Refusal":
                continue
            if (len(cases) == 2 and len(empty) == 1) or any(c.startswith("Refused(") for c in cases) or m.group(1) == "Read":
                found("1 own enum", f"{name}:{text.count(chr(10), 0, m.start()) + 1} {m.group(1)}")
        for f in functions(name, text):
            number = re.search(r"-> (usize|u64|u32)\b", f["signature"])
            if number and SAYS.search(f["comment"]):
                found("1 answer by a sentinel", f"{f['where']} {f['name']}")
            for m in KINDS.finditer(f["signature"]):
                if m.group(1) == "number" and "fn report" not in f["signature"]:
                    continue
                if m.group(1) == "c" and "digits" not in name and "columns" not in name:
                    continue
                found("1 kind by a number", f"{f['where']} {f['name']}: {m.group(1)}")


# 2: functions that are the same once names, types and numbers are taken away
WORD = re.compile(r"[A-Za-z_]\w*|\d[\w.]*|[^\s\w]")
KEEP = set("if else while for in return let mut match fn as pub true false loop break continue len Some None Ok Err impl self struct".split())


def plain(f):
    text = re.sub(r"//.*", "", f["signature"] + " { " + f["body"] + " }")
    names = {}
    out = []
    for t in WORD.findall(text):
        if re.match(r"\d", t):
            out.append("#")
        elif t in ("u8", "u32", "u64", "i64", "usize", "f64", "bool"):
            out.append("T")
        elif t in KEEP or not re.match(r"\w", t):
            out.append(t)
        else:
            out.append("a%d" % names.setdefault(t, len(names)))
    return " ".join(o for o in out if o not in ("pub", ",")), len(out)


def point2(files, found):
    groups = collections.defaultdict(list)
    for name, text in files:
        for f in functions(name, text):
            key, size = plain(f)
            if size >= 20:
                groups[key].append(f"{f['where']} {f['name']}")
    for key, members in sorted(groups.items(), key=lambda g: g[1]):
        if len(members) > 1:
            for m in members[1:]:
                found("2 twin", f"{m} (as {members[0].split(' ')[1]})")


# 3: loops, and among them those that count an index by hand
def point3(files, found):
    for name, text in files:
        lines = text.split("\n")
        for i, line in enumerate(lines):
            if not re.match(r"\s*(while|loop)\b", line):
                continue
            indent = re.match(r"\s*", line).group(0)
            j = i + 1
            while lines[j] != indent + "}":
                j += 1
            head = re.findall(r"\w+", line)
            counts = any(
                re.search(r"^\s*%s (\+= \d+|-= \d+|= %s [-+] \d+)" % (re.escape(v), re.escape(v)), b) for b in lines[i + 1: j] for v in head if re.match(r"[a-z]", v)
            )
            found("3 index by hand" if counts else "3 other loop", f"{name}:{i + 1} {line.strip()}")


# 4: equality, order, copying, conversion and printing by hand
HAND = [
    ("4 copying", re.compile(r"^\s*(\w+)\[[^\]]*\] = (\w+)\[[^\]]*\];$", re.M)),
    ("4 order", re.compile(r"if (\w+) < (\w+) \{ (?:\1 \} else \{ \2|\2 \} else \{ \1) \}")),
    ("4 conversion", re.compile(r"fn (?:mode_of|word|wide|low_half|double|is_nan|key_word|word_of_key|report_\w+|mesh_word|\w*_bits)\(")),
    ("4 printing", re.compile(r"fn (?:spell|glyph|print_\w+|text|number|bits)\b")),
]


# two parts or more compared one by one
PART = re.compile(r"if (?:!\()?[\w.\[\]()+* ]+ (?:!=|==) [\w.\[\]()+* ]+ \{\n\s*(?:return (?:true|false);|true|false|if )")


def point4(files, found):
    for name, text in files:
        for f in functions(name, text):
            if len(PART.findall(f["body"])) > 1 or (PART.search(f["body"]) and re.search(r"^    for|^    while", f["body"], re.M) and "-> bool" in f["signature"]):
                found("4 equality", f"{f['where']} {f['name']}")
        for kind, form in HAND:
            for m in form.finditer(text):
                found(kind, f"{name}:{text.count(chr(10), 0, m.start()) + 1} {m.group(0).strip().splitlines()[0]}")


def named(where):
    return ", as " + ", ".join(sorted(where)[:3])


# 5: facts that stand in the contracts of three or more functions, and parameters that travel together through three or more. A fact is a part of a `requires`, or a bound in an
# `ensures`; what a named predicate says of other values is the same fact, within a crate.
def facts_of(name, clauses):
    for word, clause in re.findall(r"(requires|ensures)(?: \w+)? \{(.*?)\}\s*(?=requires|ensures|$)", clauses, re.S):
        for part in re.split(r" × ", re.sub(r"\s+", " ", clause)):
            part = re.sub(r"\b([\w.]+)\.(old|now|new|entry)\b", r"\1", part.strip(" ()"))
            predicate = re.match(r"[A-Z]\w*", part)
            if word == "requires" and predicate:
                yield f"{predicate.group(0)} of {name.split('/')[1]}"
            elif word == "requires" or (re.search(r"[<≤]", part) and "→" not in part):
                yield part


def point5(files, found):
    facts = collections.defaultdict(set)
    groups = collections.defaultdict(set)
    for name, text in files:
        for f in functions(name, text):
            for fact in facts_of(name, f["clauses"]):
                facts[fact].add(f["where"] + " " + f["name"])
            names = [p for p, t in parameters(f["signature"])]
            for group in (
                ("n", "nf", "nc"), ("n", "nf"), ("vertices", "facets"), ("extents", "eps", "resolution"), ("extents", "eps"), ("out_vertices", "out_facets"),
                ("polygon", "n"), ("work", "out_vertices"), ("kept", "at", "n"), ("labels", "n", "k"), ("ends", "degrees"), ("m", "vs", "n"),
            ):
                if all(g in names for g in group):
                    groups[group].add(f["where"] + " " + f["name"])
                    break
    for fact, where in sorted(facts.items(), key=lambda x: -len(x[1])):
        if len(where) >= 3:
            found("5 repeated fact", f"{fact}: {len(where)} functions" + named(where), sorted(where))
    for group, where in sorted(groups.items(), key=lambda x: -len(x[1])):
        if len(where) >= 3:
            found("5 parameters together", f"{', '.join(group)}: {len(where)} functions" + named(where), sorted(where))


# 6: a slice with a place or a length beside it
def point6(files, found):
    for name, text in files:
        for f in functions(name, text):
            p = parameters(f["signature"])
            slices = [n for n, t in p if re.match(r"&(mut )?\[(u64|u32|f64|u8)\]", t)]
            beside = [n for n, t in p if t.strip() == "usize" and n not in ("face", "axis", "i", "j", "f", "v", "place", "step", "count_of")]
            if slices and beside:
                found("6 slice with numbers beside it", f"{f['where']} {f['name']}: {', '.join(slices)} with {', '.join(beside)}")


# 7: a switch on which step to run
def point7(files, found):
    for name, text in files:
        for f in functions(name, text):
            if re.search(r"\bif ([\w.\[\]]+) == \d+ \{[^{}]*\}\s*(?:else )?if \1 == \d+", f["body"]):
                found("7 switch by a number", f"{f['where']} {f['name']}")
            if re.search(r": bool\b", "\n".join(n + ": " + t for n, t in parameters(f["signature"]))):
                found("7 switch by a flag", f"{f['where']} {f['name']}")


def main():
    arguments = sys.argv[1:]
    listed = "--list" in arguments
    unreasoned = "--open" in arguments
    rest = [a for a in arguments if a not in ("--list", "--open")]
    files = list(sources(rest[0] if rest else None))
    reasons = {name: reasons_of(text) for name, text in files}
    places = collections.OrderedDict()

    def reason(kind, where):
        m = re.match(r"(\S+?):(\d+)", where)
        if not m:
            return None
        head, beside = reasons[m.group(1)]
        over = beside.get(int(m.group(2)))
        if over and kind[0] in over[1]:
            return over[0]
        return head.get(kind[0])

    def found(kind, place, members=()):
        why = next((r for r in (reason(kind, w) for w in members or [place]) if r), None)
        places.setdefault(kind, []).append((place, why))

    for point in (point1, point2, point3, point4, point5, point6, point7):
        point(files, found)
    for kind, members in places.items():
        open_places = [m for m, why in members if not why]
        print(f"{kind}: {len(members)}" + (f", with no reason beside {len(open_places)}" if unreasoned else ""))
        if listed or unreasoned:
            for m, why in members:
                if listed or not why:
                    print("    " + m + (f"  [{why}]" if listed and why else ""))


main()
