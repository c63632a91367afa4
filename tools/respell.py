"""Brings the repository's own names in specs/ and proofs/ to one spelling, after the kit's port.py.

Functions, lemmas and fields are in snake case, types in camel case. Names of src/ keep their spelling, and so do
constructors, variables, strings, comments' plain words, inputs and outputs. Run once, at the top of the repository:

    python3 tools/respell.py
"""
import pathlib
import re

# names that would fall together with another one, and what they are called instead
APART = {
    "is_true": "is_true_lem",
    "kept_of": "kept_of_lem",
    "gone-out": "gone_out_lem",
    "out-at": "out_at_lem",
    "rises-from": "rises_from_lem",
    "is-record": "is_record_lem",
    "chainOn": "chain_on_record",
    "cutOff": "cut_off_bytes",
}
HEAD = re.compile(r"\s*(?:abbrev |unfoldable )?(?:pub )?(?:record |data )?([^\s:(){}]+)\s*(?:[({].*)?:(?!=)")
WORD = re.compile(r"\.?[^\s(){}\[\].,;:]+")
CLAUSE = re.compile(r"\s*(?:ghost|requires|ensures|invariant)\b")


def respelled(name):
    if name in APART:
        return APART[name]
    if name[0].isupper():
        return "".join(word[0].upper() + word[1:] for word in name.split("-"))
    if name.endswith("-++"):
        return name
    name = re.sub(r"(?<=[a-z0-9])([A-Z])", lambda found: "_" + found.group(1).lower(), name)
    return name.replace("-", "_")


def defined(files):
    """Each name with its new spelling; a field also as it stands behind a value, with a dot before it."""
    names, fields = set(APART), set()
    for file in files:
        in_record = False
        for line in file.read_text(encoding="utf-8").split("\n"):
            if line and not line[0].isspace():
                in_record = bool(re.match(r"(?:pub )?record\b", line))
            head = HEAD.match(line)
            if head and "goal." not in line.split(":", 1)[1]:
                names.add(head.group(1))
                if in_record and line[0].isspace():
                    fields.add(head.group(1))
    turned = {name: respelled(name) for name in names if respelled(name) != name}
    return turned | {"." + name: "." + respelled(name) for name in fields if name in turned}


def turn(text, names):
    return WORD.sub(lambda word: names.get(word.group(), word.group()), text)


def remark(text, names):
    """In a comment only what is no plain word."""
    return turn(text, {a: b for a, b in names.items() if re.search(r"[a-z0-9][A-Z]|^[A-Z].*-", a)})


def turn_line(line, mark, names):
    code, sep, comment = line.partition(mark)
    return turn(code, names) + sep + remark(comment, names)


def turn_source(text, names):
    """Only ghost items and clauses, with the lines that they go on in."""
    lines, depth = [], 0
    for line in text.split("\n"):
        ghost = depth > 0 or CLAUSE.match(line)
        if ghost:
            line = turn_line(line, "//", names)
            depth = max(0, depth + line.count("{") - line.count("}"))
        lines.append(line)
    return "\n".join(lines)


def main():
    antt = sorted(pathlib.Path("crates").glob("*/specs/**/*.antt")) + sorted(pathlib.Path("crates").glob("*/proofs/**/*.antt"))
    names = defined(antt)
    for file in antt:
        text = file.read_text(encoding="utf-8")
        file.write_text("\n".join(turn_line(line, "--", names) for line in text.split("\n")), encoding="utf-8")
    for file in sorted(pathlib.Path("crates").glob("*/src/**/*.rt")):
        file.write_text(turn_source(file.read_text(encoding="utf-8"), names), encoding="utf-8")
    print(f"{len(names)} names respelled")


if __name__ == "__main__":
    main()
