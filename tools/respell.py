#!/usr/bin/env python3
"""Turns the repository's own names to the spelling of today's Rattle, once, after port.py.

Words are in snake case: a definition, lemma or field `hostOf` becomes `host_of`. A dash stays where it joins the names of two
definitions, as in `get-put_other`, and is `_` before a plain word. Types and modules keep their capitals; what Rust source
names keeps its spelling. Run at the top: tools/respell.py [--list]
"""

import os
import re
import sys

WORD = re.compile(r"[A-Za-z0-9_'\u2080-\u2089\u2032\u2115\u0398-\u03c9◌∷≡≢≤<>+*/%^&|↔⊎×∙←→-]+")
NAME = re.compile(r"^[a-z][A-Za-z0-9_'\u2080-\u2089\u2115-]*$")
DECLARED = re.compile(r"^(\s*)(abbrev |unfoldable )?(?:pub )?([^\s(){}:;,.]+)\s+:(?!\S)")
HEADED = re.compile(r"^\s*(?:abbrev |unfoldable )?(?:pub )?(?:record|data|module) (\S+)")
OWN = "paging rules held listing guest tables slots lawful shadow trees keeps promise cursor sections puzzle render trainer flamecurl demands buffers readings known terminal answers run calls script".split()


def files(*endings):
    for top in ("crates",):
        for folder, dirs, names in os.walk(top):
            dirs[:] = sorted(d for d in dirs if d != "out")
            for n in sorted(names):
                if n.endswith(endings):
                    yield os.path.join(folder, n)


def read(path):
    with open(path, encoding="utf-8") as f:
        return f.read()


def code(text):
    return "\n".join(re.sub(r"(^|\s)--.*$", "", l) for l in text.split("\n"))


def snake(word):
    return re.sub(r"(?<=[a-z0-9'])([A-Z]+)(?=[a-z0-9]|$|[-_'])", lambda m: "_" + m.group(1).lower(), word) if re.match("[a-z]", word) else word


def gather():
    own, fields, words, foreign = set(), set(), set(), set()
    for p in files(".antt"):
        text = code(read(p))
        proof = os.path.basename(p) == "Proof.antt"
        in_record = False
        for line in text.split("\n"):
            if HEADED.match(line):
                words.add(HEADED.match(line).group(1))
                in_record = bool(re.match(r"\s*(pub )?record", line))
                continue
            if line and not line[0].isspace():
                in_record = False
            m = DECLARED.match(line)
            if m and NAME.match(m.group(3)) and not proof:
                own.add(m.group(3))
                if in_record and m.group(1):
                    fields.add(m.group(3))
                if m.group(2):
                    words.add(m.group(3))
        for m in re.finditer(r"^use ([\w.'◌+-]+)\.\{([^}]*)\}", text, re.M):
            names = [n.strip().split(" as ")[0] for n in m.group(2).split(",")]
            parts = m.group(1).split(".")
            if not (parts[0] == "Rattle" and len(parts) > 1 and parts[1] in OWN):
                foreign.update(names)
    return own, fields, words, foreign


def spelled(name, words, fields):
    parts = name.split("-")
    if name in fields:
        return "_".join(snake(p) for p in parts)
    out, segment = snake(parts[0]), parts[0]
    for after in parts[1:]:
        joins = segment in words and after in words and min(len(segment), len(after)) > 1
        segment = after if joins else segment + "_" + after
        out += ("-" if joins else "_") + snake(after)
    return out


def main():
    own, fields, words, foreign = gather()
    words |= {"length", "get_or", "set", "take", "drop", "append", "replicate"} & foreign
    table = {}
    for n in sorted(own):
        if n in foreign:
            print("kept, std has it too: " + n)
            continue
        to = spelled(n, words, fields)
        if to != n:
            table[n] = to
    table["answers_by"] = "answers_by_lem"  # port.py had turned the lemma answers-by; answersBy is the definition
    # A lemma that would have a definition's name gets _lem.
    taken = set(own) | {to for n, to in table.items() if "-" not in n}
    for n, to in table.items():
        if "-" in n and to in taken:
            table[n] = to + "_lem"
    everything = set()
    for p in files(".antt"):
        everything.update(m.group(0) for m in WORD.finditer(code(read(p))) if m.start() == 0 or m.string[m.start() - 1] != '.')
    met = {}
    for n, to in table.items():
        met.setdefault(to, []).append(n)
        if to in everything:
            print(f"falls together with a name in use: {n} -> {to}")
    for to, ns in met.items():
        if len(ns) > 1:
            print(f"fall together: {ns} -> {to}")
    if "--list" in sys.argv:
        for n, to in table.items():
            print(f"{n} {to}")
        return
    swap = lambda m: table.get(m.group(0), m.group(0))
    for p in files(".antt", ".edit", ".rt"):
        old = read(p)
        if p.endswith(".antt"):
            new = WORD.sub(swap, old)
        else:
            plain = lambda m: table[m.group(0)] if m.group(0) in table and re.search("[A-Z]|-", m.group(0)) else m.group(0)
            new = WORD.sub(plain, old)
        if new != old:
            with open(p, "w", encoding="utf-8") as f:
                f.write(new)
    # Pages cite names between backticks. port.py turned these two kinds of names in the sources only.
    for p in ["README.md", "CONTRIBUTING.md"] + sorted("docs/" + n for n in os.listdir("docs") if n.endswith(".md")):
        old = read(p)
        new = re.sub(r"`[^`\n]+`", lambda m: WORD.sub(swap, m.group(0)), old)
        if new != old:
            with open(p, "w", encoding="utf-8") as f:
                f.write(new)
    print(f"{len(table)} names respelled")


main()
