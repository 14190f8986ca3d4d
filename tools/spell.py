#!/usr/bin/env python3
"""Spells the repository's own definitions and lemmas as today's Rattle does: words in snake case, a dash only between
two names of functions.

usage: python3 tools/spell.py [ROOT]          rewrites the files below ROOT (the current folder) by tools/spelling.txt
       python3 tools/spell.py --edits [ROOT]  the must-fail edits alone
       python3 tools/spell.py --table KIT     writes tools/spelling.txt, once, from the files below the current folder;
                                              KIT lists the kit's own names, one a line

It was run once, behind the kit's own script, when this repository was brought over to the kit of its README.
"""
import glob
import os
import re
import sys

HERE = os.path.dirname(os.path.realpath(__file__))
TABLE = os.path.join(HERE, "spelling.txt")
NAME = re.compile(r"(?<![\w'-])([a-z][\w']*(?:-[\w']+)*)(?![\w'-])")
CAMEL = re.compile(r"[a-z][a-z0-9]*(?:[A-Z][a-z0-9]*)+['₀-₉]*")
SIGNATURE = re.compile(r"^(\s*)((?:pattern |unfoldable |abbrev |pub )*)([^\s(){}:]+) :(?=\s|$)")
BASIC = """append map length take drop get_or set cons nil suc zero min max replicate slice reverse filter sum concat mod
div mul sub""".split()


def snake(part):
    if not CAMEL.fullmatch(part):
        return part
    return re.sub(r"(?<=[a-z0-9])[A-Z]", lambda m: "_" + m.group(0).lower(), part).lower()


def antt(root):
    for pattern in ("crates/*/specs/**/*.antt", "crates/*/proofs/**/*.antt"):
        yield from sorted(glob.glob(os.path.join(root, pattern), recursive=True))


def read(path):
    with open(path, encoding="utf-8") as f:
        return f.read()


def code(text):
    return "\n".join(line.split("--")[0] if "--" in line else line for line in text.split("\n"))


def make_table(kit):
    kit = set(read(kit).split())
    tokens, declared, definitions, fields = set(), {}, set(BASIC), set()
    for path in antt("."):
        text = code(read(path))
        tokens.update(NAME.findall(text))
        in_function = re.search(r"/proofs/[^/]+/[^/]+\.antt$", path)
        in_record = False
        for line in text.split("\n"):
            if re.match(r"\s*(?:(?:pub|abbrev) )*record ", line):
                in_record = True
            elif line.strip() and not line.startswith(" "):
                in_record = False
            m = SIGNATURE.match(line)
            if not m or in_function:
                continue
            declared.setdefault(m.group(3), path)
            if in_record and m.group(1):
                fields.add(m.group(3))
            if "/specs/" in path and not m.group(1):
                definitions.add(snake(m.group(3)))
    names = {}
    for old in sorted(tokens):
        if old in kit:
            continue
        new = "-".join(snake(p) for p in old.split("-"))
        if "-" in new and old in declared:
            parts = new.split("-")
            joined = parts[0]
            for before, part in zip(parts, parts[1:]):
                both = before in definitions and (part in definitions)
                joined += ("-" if both else "_") + part
            new = joined
        if new != old:
            names[old] = new
    count = {}
    for new in names.values():
        count[new] = count.get(new, 0) + 1
    taken = tokens - set(names)
    for old, new in sorted(names.items()):
        if new in taken or count[new] > 1 or new in kit:
            plain = "-".join(snake(p) for p in old.split("-"))
            if plain != new or plain == old:
                if plain == old:
                    del names[old]
                else:
                    names[old] = plain
                print("kept its dash:", old, new, "kit" if new in kit else "")
            else:
                print("LOOK:", old, new, "kit" if new in kit else "", "taken" if new in taken else "")
    with open(TABLE, "w", encoding="utf-8") as f:
        for old, new in sorted(names.items()):
            f.write(f"{old} {new}{' field' if old in fields else ''}\n")
    print(len(names), "names")


def load():
    names, fields = {}, set()
    for line in read(TABLE).splitlines():
        row = line.split()
        names[row[0]] = row[1]
        if len(row) > 2:
            fields.add(row[0])
    return names, fields


NAMES, FIELDS = load() if os.path.exists(TABLE) else ({}, set())


def turn(text, dashes=True):
    def new(m):
        old = m.group(1)
        if old not in NAMES or ("-" in old and not dashes):
            return old
        if m.start() and text[m.start() - 1] == ".":
            before = re.search(r"([\w'-]+)\.$", text[: m.start()])
            word = before.group(1) if before else ""
            made = word in ("tie", "goal") or word.endswith(("Tie", "Goals", "Given", "Lts"))
            if made or not (word[:1].isupper() or old in FIELDS or "-" not in old):
                return old
        return NAMES[old]

    return NAME.sub(new, text)


def turn_quoted(text):
    return re.sub(r"`[^`\n]*`", lambda m: turn(m.group(0)), text)


def turn_antt(text):
    out = []
    for line in text.split("\n"):
        at = re.search(r"(^|\s)--(\s|$)", line)
        body, comment = (line[: at.start()], line[at.start() :]) if at else (line, "")
        out.append(turn(body) + turn(turn_quoted(comment), dashes=False))
    return "\n".join(out)


def turn_rt(text):
    out = []
    for line in text.split("\n"):
        at = re.search(r"(^|\s)//(/|!)?(\s|$)", line)
        body, comment = (line[: at.start()], line[at.start() :]) if at else (line, "")
        pieces = re.split(r'("(?:[^"\\]|\\.)*")', body)
        body = "".join(p if i % 2 else turn(p, dashes="ghost use" in body) for i, p in enumerate(pieces))
        out.append(body + turn(turn_quoted(comment), dashes=False))
    return "\n".join(out)


def turn_edit(text):
    out, file = [], ""
    for line in text.split("\n"):
        if line.startswith("file: "):
            file = line[6:].strip()
        elif line.startswith(("old: ", "new: ")):
            line = line[:5] + (turn_antt if file.endswith(".antt") else turn_rt)(line[5:])
        out.append(line)
    return "\n".join(out)


def main(words):
    if words[:1] == ["--table"]:
        return make_table(words[1])
    only_edits = words[:1] == ["--edits"]
    root = (words[1:] if only_edits else words)[0:1] or ["."]
    root = root[0]
    todo = [(p, turn_edit) for p in sorted(glob.glob(os.path.join(root, "crates/*/must-fail/*.edit")))]
    if not only_edits:
        todo = [(p, turn_antt) for p in antt(root)]
        todo += [(p, turn_rt) for p in sorted(glob.glob(os.path.join(root, "crates/*/src/**/*.rt"), recursive=True))]
        pages = ("README.md", "NOTICE", "docs/*.md", "crates/*.md", "examples/**/*.md", "host/*.md")
        for page in pages:
            todo += [(p, turn_quoted) for p in sorted(glob.glob(os.path.join(root, page), recursive=True))]
    for path, by in todo:
        old = read(path)
        new = by(old)
        if new != old:
            with open(path, "w", encoding="utf-8") as f:
                f.write(new)


if __name__ == "__main__":
    main(sys.argv[1:])
