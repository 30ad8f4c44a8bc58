#!/usr/bin/env python3
"""Counts the places that docs/DESIGN-PASS.md speaks of, in crates/*/src and crates/*/proofs.

usage: tools/forms.py [--list] [POINT..]        at the top of the repository; POINT is 1 to 8
A place is told as FILE:LINE: WORDS. It reads text, and knows nothing of types: it finds where to look.
"""
import collections, glob, re, sys

sources = {f: open(f).read() for f in sorted(glob.glob("crates/*/src/**/*.rt", recursive=True))}


def bare(s):
    "the text without comments and ghost lines, line by line"
    return re.sub(r"ghost use[^\n]*", "", re.sub(r"//[^\n]*", "", s))


code = {f: bare(s) for f, s in sources.items()}


def line(s, i):
    return s.count("\n", 0, i) + 1


def block(s, i):
    "the end of the block whose { is at or after i"
    i = s.index("{", i)
    depth = 0
    for k in range(i, len(s)):
        depth += {"{": 1, "}": -1}.get(s[k], 0)
        if depth == 0:
            return i, k + 1
    return i, len(s)


def functions():
    for f, s in code.items():
        for m in re.finditer(r"(?m)^( *)((?:pub(?:\(\w+\))? )?(?:extern \"C\" )?fn (\w+)[^{;]*?)(?=\s*(?:requires|ensures|\{|where))", s):
            rest = s[m.end():]
            k = re.match(r"(?:\s*(?:requires|ensures)\s*\w*\s*\{(?:[^{}]|\{[^{}]*\})*\})*", rest)
            clauses = k[0] if k else ""
            try:
                a, b = block(s, m.end() + len(clauses))
            except ValueError:
                continue
            yield f, line(s, m.start()), m[3], m[2], clauses, s[a:b]


def point1():
    for f, s in code.items():
        for m in re.finditer(r"enum (\w+) \{", s):
            a, b = block(s, m.start())
            body = s[a + 1:b - 1]
            names = re.findall(r"(?m)^    (\w+)(\([^)]*\)| \{)?", body)
            plain = [n for n, p in names if not p]
            data = [n for n, p in names if p]
            if "Refused" in plain + data or (data and len(plain) == 1 and len(names) == 2) or (len(data) >= 1 and len(plain) == 1 and re.search(r"No|Bad|Over|Nothing", plain[0])):
                yield f, line(s, m.start()), "enum " + m[1]
        for m in re.finditer(r"(?m)^ +(?:pub )?(\w*refused|ok|there|found): (?:bool|u32|u64),|\bOUTSIDE: \w+|\b(?:kind|order): (?:u8|i8|u32|usize)\b|\bkinds: &\[u8\]", s):
            yield f, line(s, m.start()), "a number or a flag for a case: " + m[0].strip()


def shape(body):
    body = re.sub(r"b?\"[^\"]*\"|b'[^']*'|\b0x[\da-fA-F_]+|\b\d[\d_.]*(?:u64|u32|usize|f64|u8)?", "#", body)
    body = re.sub(r"\b[A-Z]\w*(?:::[A-Z]\w*)*", "T", body)
    body = re.sub(r"\b(?:u8|u32|u64|usize|f64|i8)\b", "t", body)
    return re.sub(r"\s+", " ", body)


def point2():
    seen = collections.defaultdict(list)
    for f, n, name, head, clauses, body in functions():
        if body.count("\n") < 4 or "test_" in f:
            continue
        words = re.sub(r"\b" + name + r"\b", "F", shape(body))
        seen[words].append((f, n, name))
    for words, places in seen.items():
        if len(places) > 1:
            f, n, name = places[0]
            yield f, n, "twins: " + ", ".join(f"{p[0].split('/')[1]}::{p[2]}" for p in places)


def point3():
    for f, s in code.items():
        for m in re.finditer(r"(?m)^( *)(while \b.*) \{$", s):
            a, b = block(s, m.end() - 1)
            body = s[a:b]
            cond = re.findall(r"[a-z_]\w*", m[2][6:])
            if any(re.search(r"\b%s (?:\+= 1|-= 1|= %s [+-] 1);" % (v, v), body) for v in cond):
                yield f, line(s, m.start()), m[2]


def point4():
    for f, n, name, head, clauses, body in functions():
        inner = body[1:-1].strip()
        if re.fullmatch(r"\w+(?:\.\w+)* as \w+", inner):
            yield f, n, "a conversion: " + name
        elif re.fullmatch(r"\(?(?:\(?(\w+)\.[\w.]+ == (\w+)\.[\w.]+\)?(?:\s*&\s*)?)+", inner):
            yield f, n, "an equality: " + name
        elif re.fullmatch(r"if a < b \{ [ab] \} else \{ [ab] \}", inner):
            yield f, n, "an order: " + name
        elif re.search(r"(?:while|for) [^{]*\{\s*(\w+)\[[^\]]*\] = (\w+)\[[^\]]*\];\s*(?:\w+ \+= 1;\s*)*\}", body):
            yield f, n, "a copy: " + name


def point5():
    facts = collections.defaultdict(set)
    for f, n, name, head, clauses, body in functions():
        for m in re.finditer(r"requires\s*\w*\s*\{((?:[^{}]|\{[^{}]*\})*)\}", clauses):
            for fact in re.split(r"×", m[1]):
                fact = re.sub(r"\s+", " ", fact).strip().strip("()").strip()
                facts[(f.split("/")[1], fact)].add((f, n, name))
    for (c, fact), places in sorted(facts.items()):
        if len(places) >= 3:
            f, n, _ = sorted(places)[0]
            yield f, n, f"in {len(places)} contracts: {fact}"
    groups = collections.defaultdict(set)
    for f, n, name, head, clauses, body in functions():
        m = re.search(r"\(([^)]*)\)", head)
        ps = [re.sub(r"\s+", " ", p).strip() for p in (m[1] if m else "").split(",") if ":" in p]
        for i in range(len(ps) - 2):
            groups[(f.split("/")[1], tuple(ps[i:i + 3]))].add((f, n, name))
    for (c, ps), places in sorted(groups.items()):
        if len(places) >= 4:
            f, n, _ = sorted(places)[0]
            yield f, n, f"in {len(places)} functions: {', '.join(ps)}"


def point6():
    for f, n, name, head, clauses, body in functions():
        if "turning_c/" in f:
            continue
        for m in re.finditer(r"(\w+): &(?:mut )?\[[^\]]*\]", head):
            x = m[1]
            for p in re.findall(r"\b(\w+): usize", head[m.end():]):
                fact = rf"(?:^|[^\w]){p}\b[^×]*[≤≡][^×]*length {x}\b|length {x}\b[^×]*[≤≡][^×]*\b{p}\b"
                if re.search(fact, clauses) and not re.search(rf"\b{p}\b \+ |suc {p}\b|{p} <", clauses):
                    yield f, n, f"{name}: {x}, {p}"
                    break
    for f, s in code.items():
        for m in re.finditer(r"(\w+): \[[^\]]*\],\s+(?:pub )?(?:n|count|len|held|many): usize", s):
            yield f, line(s, m.start()), "a field: " + re.sub(r"\s+", " ", m[0])


def point7():
    for f, s in code.items():
        for m in re.finditer(r"match (?:kind|step|way|phase|state)\b|: fn\(|\[fn\(|\bfn\(\w", s):
            yield f, line(s, m.start()), m[0]
    for f, n, name, head, clauses, body in functions():
        if len(re.findall(r"if (?:kind|name|w|word) == |if text::same\(", body)) >= 3:
            yield f, n, "a chain of tests: " + name


def point8():
    for f in sorted(glob.glob("crates/*/proofs/**/Answers.antt", recursive=True)):
        s = open(f).read()
        for m in re.finditer(r"(?m)^([\w-]+) c = search rules$", s):
            yield f, line(s, m.start()), m[1]
        for m in re.finditer(r"(?m)^([\w-]+) c = .*(?:true|false)-raw", s):
            yield f, line(s, m.start()), m[1] + " (raw)"


points = [point1, point2, point3, point4, point5, point6, point7, point8]
listed = "--list" in sys.argv
asked = [int(a) for a in sys.argv[1:] if a.isdigit()] or range(1, 9)
for k in asked:
    found = list(points[k - 1]())
    if listed:
        for f, n, words in found:
            print(f"{k} {f}:{n}: {words}")
    print(f"point {k}: {len(found)} places")
