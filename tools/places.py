#!/usr/bin/env python3
"""Lists the places of crates/*/src that docs/DESIGN-PASS.md counts, point by point.

    python3 tools/places.py            the counts
    python3 tools/places.py POINT      the places of one point, one a line
"""
import collections
import glob
import re
import sys

POINTS = {
    1: "enums of our own; flags in structs; numbers for kinds",
    2: "functions, and types, of one shape",
    3: "loops that count by hand, or go over indices",
    4: "equality, order, copies, conversions and printing by hand",
    5: "requires that three functions share; parameters that three functions share",
    6: "arrays with a count beside them, and parallel arrays",
    7: "functions that switch on a kind of step",
    8: "proof files, and their lines",
}


def sources():
    for path in sorted(glob.glob("crates/*/src/*.rt")):
        with open(path, encoding="utf-8") as f:
            yield path, f.read()


def lines_that(pattern):
    found = []
    for path, text in sources():
        for n, line in enumerate(text.split("\n"), 1):
            if re.search(pattern, line) and not line.lstrip().startswith("//"):
                found.append((path, n, line.strip()))
    return found


FUNCTION = re.compile(r"^( *)(pub(?:\(crate\))? )?fn (\w+)(.*?)^\1}\n", re.M | re.S)


def functions():
    """Each function: its file, line, name, head, clauses and body."""
    for path, text in sources():
        for m in FUNCTION.finditer(text):
            whole = m.group(0)
            parts = re.split(r"^ *\{\n|\{\n", whole, maxsplit=1, flags=re.M)
            if len(parts) < 2:
                continue
            head, body = parts
            clauses = re.findall(r"^ *((?:requires|ensures).*)$", head, re.M)
            signature = re.sub(r"^ *(?:requires|ensures).*$", "", head, flags=re.M)
            yield path, text.count("\n", 0, m.start()) + 1, m.group(3), signature, clauses, body


def shape(code):
    """The code with each name and number of its own taken away."""
    keep = {"fn", "let", "mut", "for", "in", "while", "if", "else", "match", "return", "self", "Self",
            "true", "false", "None", "Some", "Ok", "Err", "as", "pub", "crate", "struct", "enum"}
    code = re.sub(r"//.*", "", code)
    code = re.sub(r"'\w+'|b'.'|\"[^\"]*\"", "t", code)
    words = re.findall(r"\w+|[^\w\s]", code)
    return " ".join(w if w in keep or not re.match(r"\w", w) else "x" for w in words)


def point_1():
    found = []
    for path, text in sources():
        for m in re.finditer(r"^ *(?:pub(?:\(crate\))? )?enum (\w+)[^{]*\{\n(.*?)^ *\}", text, re.M | re.S):
            body = re.sub(r"^\s*///.*\n", "", m.group(2), flags=re.M)
            variants = re.findall(r"^    (\w+)(\(|,| \{)", body, re.M)
            names = {name for name, _ in variants}
            alone = sum(1 for _, after in variants if after == ",")
            if "(Fault)" in body or names & {"Unknown", "Full", "Added", "Missing"} or (len(variants) == 2 and alone == 1):
                found.append((path, text.count("\n", 0, m.start()) + 1, "enum " + m.group(1)))
    found += lines_that(r"^\s*(pub(\(crate\))? )?\w+: bool,$")
    found += lines_that(r"^\s*pub const [A-Z_]+: u8\b")
    found += lines_that(r"^\s*static \w+: \[\[u\d+; \d+\]; \d+\]")
    found += lines_that(r"fn \w+\(code: u\d+\)")
    for path, text in sources():
        for m in re.finditer(r"(?<!fn )check_refused\(", text):
            if re.fullmatch(r"\d+", arguments(text, m.end())[2]):
                found.append((path, text.count("\n", 0, m.start()) + 1, "a refusal by its number"))
    return found


def arguments(text, start):
    """The arguments of a call whose bracket opens before `start`."""
    depth, found, begin = 0, [], start
    for i in range(start, len(text)):
        if text[i] in "([{":
            depth += 1
        elif text[i] in ")]}":
            if depth == 0:
                found.append(text[begin:i].strip())
                return found + [""] * 3
            depth -= 1
        elif text[i] == "," and depth == 0:
            found.append(text[begin:i].strip())
            begin = i + 1
    return found + [""] * 3


def point_2():
    groups = collections.defaultdict(list)
    for path, line, name, signature, _, body in functions():
        text = shape(body)
        if len(text.split()) >= 12 and not is_test(path, line):
            groups[text].append((path, line, name))
    for path, text in sources():
        for m in re.finditer(r"^(?:pub(?:\(crate\))? )?struct \w+[^;{]*\{\n(.*?)^\}", text, re.M | re.S):
            fields = re.sub(r"^\s*(///.*|ghost.*)\n", "", m.group(1), flags=re.M)
            key = "struct " + re.sub(r"\s+|pub(\(crate\))? ", " ", fields)
            groups[key].append((path, text.count("\n", 0, m.start()) + 1, m.group(0).split("{")[0].strip()))
    return [place for places in groups.values() if len(places) > 1 for place in places]


def is_test(path, line):
    with open(path, encoding="utf-8") as f:
        return f.read().split("\n")[line - 2].strip() == "#[test]"


def point_3():
    """A `while`; a range whose variable is an index or a shift; a counter beside a loop; arrays made entry by entry."""
    found = lines_that(r"\bwhile\b")
    for path, text in sources():
        for m in re.finditer(r"^( *)for (\w+) in [^\n]*\.\.[^\n]*\{\n(.*?)^\1\}", text, re.M | re.S):
            name, body = m.group(2), m.group(3)
            if name != "_" and re.search(r"\[%s( as usize)?\]|\[%s [+-]|<< %s\b|\b\w+ \+= 1;" % (name, name, name), body):
                found.append((path, text.count("\n", 0, m.start()) + 1, m.group(0).split("\n")[0].strip()))
    found += lines_that(r"\w+\(\w+, (\w+, )?7\),?$")
    return sorted(found)


def point_4():
    found = lines_that(r"fn (is_same|same|equal|check_answer|check_list)\b")
    found += lines_that(r"fn (word|letter|mode_letter|outcome_letter|verb_letter|verb_text)\(")
    found += lines_that(r"fn (verb|mode|outcome)_of\(letter: u8\)")
    found += lines_that(r"\{number\} \{place\}")
    found += lines_that(r"fn (blank_draft|new_pen)\(\)|: Failures = ")
    found += lines_that(r"\* ?256|256 \*|/ 256")
    for path, text in sources():
        for m in re.finditer(r"Report \{\n[^}]*?None,\n[^}]*?None,\n[^}]*?\}", text):
            found.append((path, text.count("\n", 0, m.start()) + 1, "a report with its unknown values written out"))
        for m in re.finditer(r"match \w+(?:\.\w+\(\w+\))? \{\n *(?:None => None|Some\(\w+\) => Some\([^\n]*\)),\n *(?:None => None|Some\(\w+\) => Some\([^\n]*\)),\n *\}", text):
            found.append((path, text.count("\n", 0, m.start()) + 1, "a match on an option that is map"))
        for m in re.finditer(r"match \w+ \{\n *[\w:]+ => (?:true|false),\n *[\w: |]+ => (?:true|false),\n *\}", text):
            found.append((path, text.count("\n", 0, m.start()) + 1, "a match that is matches!"))
    return sorted(set(found))


def point_5():
    requires = collections.defaultdict(list)
    together = collections.defaultdict(list)
    for path, line, name, signature, clauses, _ in functions():
        for clause in clauses:
            m = re.match(r"requires(?: \w+)? \{ (.*) \}", clause)
            if m:
                requires[m.group(1)].append((path, line, name + ": " + m.group(1)))
        m = re.search(r"\((.*)\)", signature, re.S)
        names = re.findall(r"(\w+): [&\w]", m.group(1)) if m else []
        names = [n for n in names if n not in ("rt", "heap", "language")]
        if "/src/" in path and "_cases" not in path:
            for a in range(len(names) - 2):
                together[" ".join(names[a:a + 3])].append((path, line, name + ": " + " ".join(names[a:a + 3])))
    found = [p for places in requires.values() if len(places) >= 3 for p in places]
    found += [p for places in together.values() if len(places) >= 3 for p in places]
    return found


def point_6():
    found = []
    for path, text in sources():
        for m in re.finditer(r"^(?:pub(?:\(crate\))? )?struct (\w+)[^;{]*\{\n(.*?)^\}", text, re.M | re.S):
            fields = re.sub(r"^\s*(///.*|ghost.*)\n", "", m.group(2), flags=re.M)
            arrays = re.findall(r"(\w+): \[[^\]]*; ?\d+\]", fields)
            counts = re.findall(r"(\w+): (?:usize|u16),", fields)
            counts = [c for c in counts if c in ("count", "length", "used", "waiting", "at", "next")]
            if arrays and (counts or len(arrays) > 1):
                found.append((path, text.count("\n", 0, m.start()) + 1, f"{m.group(1)}: {arrays} {counts}"))
    return found + lines_that(r"count: &mut usize|rows: &mut \[\w+\], count")


def point_7():
    return lines_that(r"which: Which|: fn\(")


def point_8():
    found = []
    for path in sorted(glob.glob("crates/*/proofs/**/*.antt", recursive=True)):
        if not path.endswith("/Lib.antt"):
            with open(path, encoding="utf-8") as f:
                found.append((path, sum(1 for line in f if line.strip()), "lines"))
    return found


FOUND = {1: point_1, 2: point_2, 3: point_3, 4: point_4, 5: point_5, 6: point_6, 7: point_7, 8: point_8}

if len(sys.argv) > 1:
    for path, line, text in FOUND[int(sys.argv[1])]():
        print(f"{path}:{line}: {text}")
else:
    for point, what in POINTS.items():
        places = FOUND[point]()
        more = f" ({sum(p[1] for p in places)} lines)" if point == 8 else ""
        print(f"{point}: {len(places)} places{more} -- {what}")
