#!/usr/bin/env python3
"""Brings the repository's own names in contracts, specs/ and proofs/ to one spelling.

usage: python3 tools/respell.py [--look]        at the top of the repository

Words are in snake case, types and facts in camel case: `read-frame` becomes `read_frame`, `Written-again` becomes
`WrittenAgain`. A lemma about a fact keeps its dash, as in `Bytes-drop`. Names of src/, of goals and of the library stay.
With --look nothing is written: it prints each name with its new spelling, and names that would fall together.
"""
import os
import re
import sys
from collections import defaultdict

NAME = r"[^\s(){}\[\].,;:=@\"⌜⌝λ→×]+"
SIGN = re.compile(r"^\s*((?:(?:pub|abbrev|unfoldable)\s+)*)((?:" + NAME + r"\s+)+):(?!=)\s*(.*)$")
MADE = re.compile(r"^\s*(?:pub\s+)?(record|data)\s+(" + NAME + r")(?=\s)")
WORDS = {"pub", "abbrev", "unfoldable", "record", "data", "use", "where", "open", "module", "let", "in", "ghost"}
TOKEN = re.compile(r'--(?=[\s]|$).*|//.*|"(?:[^"\\\n]|\\.)*"|' + r"[^\s(){}\[\].,;:=@\"⌜⌝]+|.|\n")


def texts(root, ends):
    for folder, dirs, files in os.walk(os.path.join(root, "crates")):
        dirs[:] = sorted(d for d in dirs if d not in ("out", "target"))
        for f in sorted(files):
            if f.endswith(ends):
                yield os.path.join(folder, f)


def read(p):
    with open(p, encoding="utf-8") as f:
        return f.read()


def odd(name):
    """Whether a name is spelled as neither a word nor a type."""
    return "-" in name.strip("-") or (name[:1].islower() and re.search(r"[a-z0-9][A-Z]", name) is not None)


def snake(name):
    return re.sub(r"(?<=[a-z0-9])([A-Z])", lambda m: "_" + m.group(1).lower(), name).replace("-", "_")


def camel(name):
    return "".join(p[:1].upper() + p[1:] for p in name.split("-"))


def gather(root):
    """Each own odd name: whether it is a fact or a type; and the names of fields."""
    facts, words, fields, goals = set(), set(), set(), set()
    for p in texts(root, ".antt"):
        lines = read(p).split("\n")
        record = None
        for i, line in enumerate(lines):
            m = MADE.match(line)
            if m:
                record = (len(line) - len(line.lstrip()), m.group(1))
                if odd(m.group(2)):
                    facts.add(m.group(2))
                continue
            if line.strip() and record and len(line) - len(line.lstrip()) <= record[0]:
                record = None
            m = SIGN.match(line)
            if not m or line.lstrip().startswith(("--", "use ")):
                continue
            rest = m.group(3)
            j = i + 1
            while j < len(lines) and lines[j].startswith((" ", "\t")) and "→" in lines[j] and not SIGN.match(lines[j]):
                rest += " " + lines[j].strip()
                j += 1
            for n in m.group(2).split():
                if n in WORDS or not odd(n):
                    continue
                if re.match(r"(goal|need|choice)\.", rest.strip()):
                    goals.add(n)
                elif record and record[1] == "record":
                    fields.add(n)
                    words.add(n)
                elif n[0].isupper() and re.search(r"(^|→\s*)Type( 0| \{?ℓ\}?)?$", rest.strip()):
                    facts.add(n)
                else:
                    words.add(n)
    return facts, words, fields, goals


# A name whose new spelling another one has already.
APART = {"bits-of": "bits_bits_of", "Differing-bits": "BitsExamples"}


def spellings(facts, words):
    new = {n: APART.get(n) or camel(n) for n in facts}
    for n in words:
        new[n] = n if n[0].isupper() else APART.get(n) or snake(n)
    return {n: s for n, s in new.items() if n != s}


def respell(text, new, fields, ghost):
    """The text with own names respelled. Names that the file takes from the library, or that it answers as goals, stay."""
    stay = set()
    for m in re.finditer(r"use\s+((?:Rattle\.(?:std|core|alloc)|Prim|lib|mathlib|borrow)[^\s{]*)\.\{([^}]*)\}", text):
        stay |= set(re.split(r"[\s,]+", m.group(2)))
    stay |= {n for m in re.finditer(r"(?m)^\s*(?:pub\s+|abbrev\s+)*(\S+)\s*:\s*(?:goal|need|choice)\.", text) for n in [m.group(1)]}
    modules = {m.group(1) for m in re.finditer(r"(?m)^\s*(?:ghost\s+)?use\s+\S+\s+as\s+(\w+)", text)} - {"goal", "need", "choice"}
    modules |= {m.group(1) for m in re.finditer(r"(?m)^\s*(?:ghost\s+)?use\s+[\w.]*?(\w+);?$", text)}
    out, before = [], []
    for m in TOKEN.finditer(text):
        t = m.group(0)
        prior = "".join(before[-1:])
        if t in new and t not in stay and (not ghost or "-" in t):
            head = before[-2] if len(before) > 1 else ""
            if prior != "." or t in fields or head in modules:
                t = new[t]
        out.append(t)
        before = (before + [m.group(0)])[-2:]
    return "".join(out)


def main(look):
    root = "."
    facts, words, fields, goals = gather(root)
    new = spellings(facts, words)
    to = defaultdict(set)
    plain = set()
    for p in texts(root, ".antt"):
        for m in re.finditer(r"(?m)^\s*(?:(?:pub|abbrev|unfoldable)\s+)*(?:record\s+|data\s+)?(" + NAME + r")\s", read(p)):
            plain.add(m.group(1))
    for n, s in new.items():
        to[s].add(n)
    for s in sorted(to):
        if len(to[s]) > 1 or s in plain - set(new):
            print("together:", s, sorted(to[s]), "beside a name of that spelling" if s in plain - set(new) else "")
    if look:
        for n in sorted(new):
            print(n, "->", new[n])
        print("goals of that spelling too:", sorted(goals & set(new)))
        return
    changed = 0
    for p in texts(root, (".antt", ".rt")):
        text = read(p)
        turned = respell(text, new, fields, p.endswith(".rt"))
        if turned != text:
            with open(p, "w", encoding="utf-8") as f:
                f.write(turned)
            changed += 1
    print(f"respell: {len(new)} names, {changed} files")


if __name__ == "__main__":
    main("--look" in sys.argv[1:])
