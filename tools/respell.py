#!/usr/bin/env python3
"""Respells this repository's own words in antt from camel case to snake case, as today's Rattle has them, once, behind port.py.

usage: tools/respell.py [--list]     at the top of the repository

What turns: the few fields of specs/ with a dash (FIELDS), and each word in camel case (`leastOf`, `fold-leastOf`) in the .antt files of crates/, and in the clauses, ghost items and comments'
code spans of its .rt files; not a name of the Rust code, of the library or of a string. A word whose new spelling is already a word of
the antt of a file that has the old one is given another (OTHER). --list prints old and new.
Edits (.edit) are brought over by the same table, in their lines `old:` and `new:`.
"""
import os
import re
import sys

TOP = "crates"
WORD = re.compile(r"(?<![\w'′₀-₉·-])[A-Za-z][\w'′₀-₉-]*")
FIELDS = "z-low z-high r-low r-high ring-room outer-there outer-bin outer-band bore-there bore-same bore-bin bore-band at-end spec-held cells-held tools-held stop-rises start-rises".split()
OTHER = {"atEnd": "is_at_end", "fullAt": "full_there", "lineOn": "line_on_bytes", "maxCells": "most_cells", "moveAsks": "asks_of_move", "noCell": "cell_of_none", "pairFits": "pair_fits_in", "ringRoom": "room_for_rings", "ringsAfter": "rings_left_after", "rootIn": "root_within"}
CAMEL = re.compile(r"(?:^|-|_)[a-z][a-z0-9]*[A-Z]")


def files(endings):
    for folder, dirs, names in os.walk(TOP):
        dirs[:] = sorted(d for d in dirs if d != "out")
        for n in sorted(names):
            if n.endswith(endings):
                yield os.path.join(folder, n)


def snake_part(part):
    if not re.match(r"[a-z][a-z0-9]*[A-Z]", part):
        return part
    part = re.sub(r"([a-z0-9])([A-Z])", r"\1_\2", part)
    part = re.sub(r"([A-Z])([A-Z][a-z])", r"\1_\2", part)
    return part.lower()


def snake(word):
    return "-".join(snake_part(p) for p in word.split("-"))


def clause_spans(text):
    """Where an .rt file is antt: ghost items and the blocks of clauses, and code spans of comments."""
    spans = []
    i, n = 0, len(text)
    head = re.compile(r"\b(requires|ensures|ghost|invariant|decreases)\b")
    while i < n:
        if text.startswith("//", i):
            j = text.find("\n", i)
            j = n if j < 0 else j
            for m in re.finditer(r"`[^`\n]*`", text[i:j]):
                spans.append((i + m.start(), i + m.end()))
            i = j
        elif text[i] == '"':
            j = i + 1
            while j < n and text[j] != '"':
                j += 2 if text[j] == "\\" else 1
            i = j + 1
        else:
            m = head.match(text, i) if (i == 0 or not (text[i - 1].isalnum() or text[i - 1] in "_.")) else None
            if not m:
                i += 1
                continue
            if m.group(1) == "ghost" and re.match(r"ghost\s+use\b", text[i:]):
                j = text.index(";", i)
                spans.append((i, j))
                i = j
                continue
            j = i
            while j < n and text[j] not in "{;":
                j += 1
            if j >= n or text[j] == ";":
                i = m.end()
                continue
            depth, k = 0, j
            while k < n:
                depth += {"{": 1, "}": -1}.get(text[k], 0)
                k += 1
                if depth == 0:
                    break
            spans.append((j, k))
            i = k
    return spans


def attr_spans(text):
    return [m.span() for m in re.finditer(r"#!?\[tactic\([^\]]*\]", text)]


def words(text):
    return set(WORD.findall(text))


def bare(text):
    """Words that do not stand behind a dot."""
    return set(m.group(0) for m in WORD.finditer(text) if m.start() == 0 or text[m.start() - 1] != ".")


def main():
    texts = {p: open(p, encoding="utf-8").read() for p in files((".antt", ".rt"))}
    strings = re.compile(r'"(?:[^"\\\n]|\\.)*"')
    olds = {}
    for p, t in texts.items():
        if p.endswith(".antt"):
            scope = strings.sub("", t)
        else:
            scope = " ".join(t[a:b] for a, b in clause_spans(t) + attr_spans(t))
        for w in words(scope):
            if CAMEL.search(w) and not w.isupper():
                olds.setdefault(w, set()).add(p)
    for w in FIELDS:
        olds[w] = {p for p, t in texts.items() if w in words(t)}

    def taken(p):
        """The words of a file's antt that a new spelling would meet: names of Rust's functions stand apart."""
        t = texts[p]
        if p.endswith(".antt"):
            t = re.sub(r"(?m)(?<![^\s(){};])--.*$", "", strings.sub("", t))
            return bare(t)
        code = re.sub(r"//.*", "", strings.sub("", t))
        return {w for w in bare(code) if re.search(r"(?<![\w.:])%s(?![\w(<])(?!::)" % re.escape(w), re.sub(r"fn %s\b" % re.escape(w), "", code))}

    has = {p: taken(p) for p in texts}
    new_of = {}
    table = {}
    for w in sorted(olds):
        for new in (OTHER.get(w, w), w.replace("-", "_") if w in FIELDS else snake(w)):
            if new == w:
                continue
            met = [p for p in olds[w] if new in has[p]]
            if met or new in new_of:
                print(f"left: {w}: {new} is there already: {new_of.get(new, '')} {' '.join(met[:3])}", file=sys.stderr)
                continue
            table[w] = new
            new_of[new] = w
            break
    if "--list" in sys.argv[1:]:
        for w, new in sorted(table.items()):
            print(w + "\t" + new)
        return

    def turn(text):
        return WORD.sub(lambda m: table.get(m.group(0), m.group(0)), text)

    for p, t in texts.items():
        if p.endswith(".antt"):
            out, at = "", 0
            for m in strings.finditer(t):
                out += turn(t[at:m.start()]) + m.group(0)
                at = m.end()
            new = out + turn(t[at:])
        else:
            new, at = "", 0
            for a, b in sorted(clause_spans(t) + attr_spans(t)):
                if a < at:
                    continue
                new += t[at:a] + turn(t[a:b])
                at = b
            new += t[at:]
        if new != t:
            open(p, "w", encoding="utf-8").write(new)
    for p in sorted(["README.md", "CHANGELOG.md"] + [os.path.join("docs", f) for f in os.listdir("docs") if f.endswith(".md")]):
        t = open(p, encoding="utf-8").read()
        new = re.sub(r"`[^`\n]*`", lambda m: turn(m.group(0)), t)
        if new != t:
            open(p, "w", encoding="utf-8").write(new)
    for p in files((".edit",)):
        t = open(p, encoding="utf-8").read()
        lines = [turn(l) if l.startswith(("old:", "new:")) else l for l in t.splitlines(keepends=True)]
        if "".join(lines) != t:
            open(p, "w", encoding="utf-8").write("".join(lines))


main()
