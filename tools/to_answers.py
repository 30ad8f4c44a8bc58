#!/usr/bin/env python3
"""Turns old Proof.antt files (a list of goals behind `tie.close (tie.spec ..)`) into Invariants.antt and Answers.antt.

usage: tools/to_answers.py NAMES CRATE..     at the top of the repository

NAMES has a folder CRATE with the names.json that `rattle check --generated NAMES/CRATE --old-names` writes. What it cannot turn it leaves,
and says so. The port to today's Rattle ran it once.
"""
import json
import os
import re
import sys

W = r"(?!=(?:\s|$))[^\s(){}.;,@\"«»\[\]\\]+"


def norm(s):
    return re.sub(r"[-_]", "", re.sub(r"_lem$", "", s)).lower()


def split_decls(text):
    """Splits into use lines and declarations, each with the comments above it."""
    uses, decls, pending, cur = [], [], [], None
    for line in text.split("\n"):
        if cur is not None and line[:1] in (")", "]", "}"):
            cur["lines"].append(line)
            continue
        if cur is None or re.match(r"\S", line):
            if line.startswith("use ") or line.startswith("pub use "):
                uses.append(line)
                continue
            if line.startswith("--"):
                pending.append(line)
                cur = None
                continue
            if not line.strip():
                cur = None
                continue
            head = re.match(r"(?:(?:pub|abbrev|unfoldable)\s+)*(%s)" % W, line)
            name = head.group(1) if head else line
            if decls and name == decls[-1]["name"] and not pending:
                decls[-1]["lines"].append(line)
                cur = decls[-1]
                continue
            if decls and line.startswith("unfolding ") and not pending:
                decls[-1]["lines"].append(line)
                cur = decls[-1]
                continue
            cur = {"name": name, "lines": [line], "notes": pending}
            pending = []
            decls.append(cur)
        else:
            cur["lines"].append(line)
    return uses, decls, pending


def undoubled(head, text):
    return "\n".join(l for l in text.split("\n") if l not in head)


def named(o):
    m = re.match(r"(?:--[^\n]*\n|\s*\n)*(?:(?:pub|abbrev|unfoldable)\s+)*(%s)" % W, o)
    return m.group(1) if m else "?"


def groups(text):
    """The arguments of a call: names and bracketed groups."""
    out, i = [], 0
    while i < len(text):
        if text[i].isspace():
            i += 1
            continue
        j, depth = i, 0
        while j < len(text) and (depth or not text[j].isspace()):
            depth += {"(": 1, "[": 1, "{": 1, ")": -1, "]": -1, "}": -1}.get(text[j], 0)
            if depth < 0:
                return out + [text[i:j]] * (j > i)
            j += 1
        out.append(text[i:j])
        i = j
    return out


class Function:
    def __init__(self, d):
        self.places = d["places"]
        self.arms = d["arms"]
        self.index = {norm(p[0]): i for i, p in enumerate(self.places)}
        self.needs = d["needs"]
        self.asked = d["asked_at"]
        self.loops = d["loops"]
        self.changed = d["changed"]
        self.typed = d["typed"]
        self.flags = []
        self.params = d["params"]
        self.newplaces = d["places_by_name"]

    def need(self, old):
        o = norm(re.sub(r"^Need-", "", old))
        for k in (o, re.sub("^(overflow|nonzero)", "", o)):
            for i, (a, b) in enumerate(self.needs):
                if norm(a) == k:
                    return i
        return None

    def parent(self, i):
        p = self.places[i][1]
        return self.index[norm(p)] if p is not None else None

    def chain(self, var, at, path):
        """The new path of VAR.path, where VAR is the record of the place `at`."""
        fields = list(path)
        if fields and fields[0] in ("before",) and at is not None:
            pass
        while fields and fields[0] == "before":
            nxt = self.parent(at) if at is not None else None
            # a step that is there no longer: the name of the step then tells the place
            at = nxt if nxt is not None else at
            fields.pop(0)
        if not fields:
            return at, None
        lab = fields[0]
        if lab in ("args", "requires", "ranges", "well-formed", "well_formed"):
            return at, var + "." + ".".join(["well_formed" if lab.startswith("well") else lab] + fields[1:])
        # a label of the place or of one above it, since a place inherits
        q, seen = at, False
        while q is not None:
            if norm(self.places[q][2][0]) == norm(lab) and lab:
                seen = True
                break
            q = self.parent(q)
        if not seen:
            all_ = [k for k in range(len(self.places)) if norm(self.places[k][2][0]) == norm(lab)]
            if len({self.places[k][2][1] for k in all_}) > 1:
                self.flags.append("which step " + lab)
            if not all_:
                self.flags.append("no step " + lab)
                return at, var + "." + ".".join(fields)
            q = all_[0]
        rest = fields[1:]
        # the deepest place of this arm tells its fields
        best = None
        r = q
        for cand in [q] + [k for k in range(len(self.places)) if self.descends(k, q)]:
            arm = self.arms[cand]
            if not arm:
                continue
            for field, label, p in arm[2]:
                if norm(label) == norm(self.places[q][2][0]) and p and rest[: len(p)] == p and not field.endswith("-own"):
                    if best is None or len(p) > len(best[2]):
                        best = (arm[0], field, p)
            if best:
                break
        if best:
            return at, ".".join([var, best[0], best[1]] + rest[len(best[2]):])
        new = self.places[q][2][1]
        ren = dict((norm(a), b) for a, b in self.places[q][4] if True)
        if rest and norm(rest[0]) in ren:
            rest = [ren[norm(rest[0])]] + rest[1:]
        if len(rest) > 1 and rest[0] == "auto" and rest[1].isdigit():
            n, k = 0, 1
            while k < len(rest) and rest[k] == "1":
                n, k = n + 1, k + 1
            names_of = self.params.get(self.places[q][3] or "", [])
            if n < len(names_of):
                rest = ["auto", names_of[n]] + rest[k + 1:]
        return at, ".".join([var, new] + rest)

    def descends(self, k, q):
        while k is not None:
            if k == q:
                return True
            k = self.parent(k)
        return False

    def ups(self, at, to):
        n = 0
        while at is not None and at != to:
            at = self.parent(at)
            n += 1
        return n if at is not None else None

    def body(self, text, var, at, helpers={}):
        """Respells the paths of a body whose record `var` is at the place `at`."""
        names = {var: at}
        text = re.sub(r"[ \t]+\n", "\n", text)
        prefix = {}

        def call(m):
            h, v, path = m.group(1), m.group(2), m.group(3)
            if v not in names:
                return m.group(0)
            n = self.ups(at, helpers[h])
            if n is None:
                self.flags.append("cannot reach the place of " + h)
                return m.group(0)
            return f"{h} \u0001" + ".before" * n

        if helpers:
            hp = "|".join(re.escape(h) for h in sorted(helpers, key=len, reverse=True))
            early = re.compile(r"(?<![\w'.·-])(%s) (%s|[a-z]\w*'*)((?:\.before)*)(?![\w'.-])" % (hp, re.escape(var)))

        def one(m):
            v = m.group(1)
            if v not in names:
                return m.group(0)
            path = prefix.get(v, []) + m.group(2)[1:].split(".")
            where, new = self.chain(var, names[v], path)
            if new is None:
                return "@" + str(where)
            return new

        # let-bound places first, in order
        pat = re.compile(r"(?<![\w'.·-])(%s)((?:\.%s)+)" % (r"[A-Za-z_₀-₉'\w]+", r"[\w'-]+"))
        spot = 0
        while True:
            m = re.compile(r"let (\w+'*) = (\w+'*)((?:\.[\w'-]+)*) in\s*").search(text, spot)
            if not m:
                break
            spot = m.end()
            if m.group(2) not in names:
                continue
            fields = prefix.get(m.group(2), []) + (m.group(3)[1:].split(".") if m.group(3) else [])
            base = names[m.group(2)]
            if all(it == "before" for it in fields):
                for _ in fields:
                    up = self.parent(base) if base is not None else None
                    base = up if up is not None else base
                names[m.group(1)] = base
            elif fields[-1] == "given" or re.search(r"(?<![\w'.·-])%s\.given" % re.escape(m.group(1)), text):
                names[m.group(1)], prefix[m.group(1)] = base, fields
            else:
                continue
            text = text[: m.start()] + text[m.end():]
            spot = m.start()
        if helpers:
            text = early.sub(call, text)
        text = pat.sub(one, text)
        text = re.sub(r"@(\d+)", var, text)
        text = text.replace("\u0001", var)
        for n in names:
            if n != var and re.search(r"(?<![\w'.·-])%s(?![\w'-])" % re.escape(n), text):
                text = re.sub(r"(?<![\w'.·-])%s(?![\w'-])" % re.escape(n), var, text)
        return text


def convert(root, crate, names, folder):
    path = os.path.join(folder, "Proof.antt")
    text = open(path, encoding="utf-8").read()
    if "tie.close" not in text:
        return "walk"
    rel = os.path.relpath(folder, os.path.join(root, "crates", crate, "proofs")).replace("/", ".")
    key = f"Rattle-{crate}-proofs.{rel}.Lts"
    if key not in names:
        return "no names: " + key
    f = Function(names[key])
    uses, decls, tail = split_decls(text)
    top = next((d for d in decls if any("tie.close" in l for l in d["lines"])), None)
    spec = "\n".join(top["lines"])
    m = re.search(r"tie\.spec\s+", spec)
    args = groups(spec[m.end():])
    unfold = re.search(r"(?m)^unfolding (.*)$", spec)
    inv, ans, other = [], [], []
    by_name = {d["name"]: d for d in decls if d is not top}
    slots = []
    n_inv = 0
    for d in decls:
        sig = d["lines"][0]
        if re.search(r": tie\.(invariant|decreases)-", sig):
            n_inv += 1
    used = set()
    order = [a for a in args]
    # invariants and measures come first
    k = 0
    for a in order:
        d = by_name.get(a)
        if d and re.search(r": tie\.(invariant|decreases)", d["lines"][0]):
            slots.append(("inv", d))
        else:
            slots.append(("need", k, a))
            k += 1
    if k != len(f.needs):
        pass
    goalname = {}
    helpers, places_used = {}, []
    for d in decls:
        h = re.match(r"(%s) : \(c : tie\.(%s)((?: [\w'-]+)*)\) → " % (W, W), d["lines"][0])
        if d is not top and h and not any(d["name"] == sl[-1] for sl in slots if sl[0] == "need"):
            q = f.index.get(norm(h.group(2)))
            if q is not None:
                helpers[d["name"]] = q
    for s in slots:
        if s[0] == "inv":
            d = s[1]
            used.add(d["name"])
            sig = d["lines"][0]
            mm = re.search(r"tie\.(invariant|decreases)-([\w'-]+)", sig)
            loop = next((i for i, l in enumerate(f.loops) if norm(l[0][0]) == norm(mm.group(2))), None)
            if loop is None:
                f.flags.append("no loop " + mm.group(2))
                continue
            (old, new), vs = f.loops[loop]
            ch = f.changed[loop]
            params = []
            for v, c in zip(vs, ch):
                params.append(("l.initial." + v) if c else "l." + v)
            params += ["l." + v for v, c in zip(vs, ch) if c]
            body_lines = [l for l in d["lines"][1:] if not l.startswith("unfolding ")]
            unf = [l for l in d["lines"][1:] if l.startswith("unfolding ")]
            btext = "\n".join(body_lines)
            mm2 = re.match(r"(%s)((?:\s+(?:%s|\([^()]*\)))*)\s*=\s*" % (W, W), btext)
            if not mm2:
                f.flags.append("invariant of another form")
                continue
            olds = mm2.group(2).split()
            body = btext[mm2.end():]
            if len(olds) > len(params):
                olds = [o for o in olds if not re.fullmatch(r"t\d+", o) or re.search(r"(?<![\w'.-])%s(?![\w'-])" % o, body)]
            if len(olds) != len(params):
                f.flags.append(f"invariant {d['name']}: {len(olds)} for {len(params)} names: {vs} {ch} {olds}")
            mp = dict(zip(olds, params))
            mp.pop("_", None)
            body = re.sub(r"(?<![\w'.·-])([A-Za-z_][\w₀-₉'-]*)(?![\w'-])", lambda q: mp.get(q.group(1), q.group(1)), body)
            kind = mm.group(1)
            inv.append("\n".join(d["notes"] + [f"abbrev pub {kind}-{new} : goal.{kind}-{new}"] + unf + [f"{kind}-{new} l = {body}"]))
            continue
        _, i, a = s
        if a in by_name:
            told = re.search(r": tie\.([\w'-]+)", by_name[a]["lines"][0])
            at_name = f.need(told.group(1)) if told else None
            if at_name is None and k != len(f.needs):
                f.flags.append("no goal for " + a)
                used.add(a)
                continue
            i = at_name if at_name is not None else i
        elif k != len(f.needs):
            if not re.search(r"\.\s*(tt|search rules|\(tt, tt\))\)$", a):
                f.flags.append("which goal for " + a[:60])
            continue
        if i >= len(f.needs):
            continue
        new = f.needs[i][1]
        place = f.index[norm(f.asked[i][0])] if i < len(f.asked) else 0
        if a in by_name:
            d = by_name[a]
            used.add(a)
            goalname[a] = (new, place)
            lines = d["lines"]
            sigend = next((j for j, l in enumerate(lines) if j and (l.startswith(d["name"] + " ") or l.startswith(d["name"] + "=") or l == d["name"])), 1)
            unf = [l for l in lines[1:] if l.startswith("unfolding ")]
            btext = "\n".join(l for l in lines[sigend:] if not l.startswith("unfolding "))
            mm2 = re.match(r"(%s)((?:\s+%s)*)\s*=\s*" % (W, W), btext)
            if not mm2:
                f.flags.append("answer of another form: " + a)
                continue
            ps = mm2.group(2).split()
            body = btext[mm2.end():]
            var = ps[0] if ps else None
            if var is None:
                f.flags.append("answer with no argument: " + a)
                var = "c"
            more = [x for x in ps[1:] if not (new.endswith("requires") or "-requires-" in new)]
            for extra in ps[1:]:
                if extra not in more and extra != "_" and re.search(r"(?<![\w'.-])%s(?![\w'-])" % re.escape(extra), body):
                    f.flags.append("uses " + extra + " in " + a)
        else:
            d = {"notes": []}
            unf = ["unfolding " + unfold.group(1)] if unfold else []
            lam = re.match(r"\(λ ([^.]*)\.\s*(.*)\)$", a, re.S)
            if not lam:
                if a.startswith("(") or a not in by_name:
                    f.flags.append("argument of another form: " + a[:60])
                continue
            ps = lam.group(1).split()
            more = [x for x in ps[1:] if not (new.endswith("requires") or "-requires-" in new)]
            var, body = ps[0], lam.group(2)
            if body.strip() in ("tt", "search rules", "(tt, tt)") and not (unf and body.strip() == "tt" and new.startswith("returns")):
                continue
            if "search" not in body and "grind" not in body and "simp" not in body:
                pass
        body = f.body(body, var, place, helpers)
        if body.strip() in ("search rules", "omega arith") and not unf:
            continue
        if re.match(r"(enum_|known_told|shared_slice|way_told|enum-|element_)", new) and body.strip() == "search rules":
            continue
        ans.append("\n".join(d["notes"] + [f"pub {new} : goal.{new}"] + unf + [f"{' '.join([new, var] + more)} = {body.rstrip()}"]))
    for d in decls:
        if d is top or d["name"] in used:
            continue
        t = "\n".join(d["notes"] + d["lines"])
        if d["name"] in helpers:
            q = helpers[d["name"]]
            new = f.newplaces[q]
            places_used.append(new)
            t = re.sub(r"\(c : tie\.%s(?: [\w'-]+)*\)" % W, f"(c : {new})", t, 1)
            t = f.body(t, "c", q, {h: k for h, k in helpers.items() if h != d["name"]})
        if "tie." in t:
            f.flags.append("helper over a place: " + d["name"])
        other.append(t)
    # where helper lemmas stand before answers that use them
    keep = [u for u in uses if not re.search(r"\.(Statement|Tie|Reads|Lts)(\.\{| as |$)", u)]
    head = [l for l in [text.split("\n")[0]] if l.startswith("--")]
    said = []
    if inv:
        said.append("Invariants")
        used_by_inv = "\n".join(inv)
        helpers = [o for o in other if "tie." not in o and re.search(r"(?<![\w'.-])%s(?![\w'-])" % re.escape(named(o)), used_by_inv)]
        out = head + keep + [f"use Rattle.{crate}.proofs.{rel}.Given as goal", ""] + ["\n\n".join(helpers + inv), ""]
        open(os.path.join(folder, "Invariants.antt"), "w", encoding="utf-8").write("\n".join(out))
        other = [o for o in other if o not in helpers]
    if ans or other:
        other, ans = [undoubled(head, it) for it in other], [undoubled(head, it) for it in ans]
        more = [f"use Rattle.{crate}.proofs.{rel}.Goals.{{{', '.join(sorted(set(places_used)))}}}"] if places_used else []
        out = head + keep + [f"use Rattle.{crate}.proofs.{rel}.Goals as goal"] + more + [""] + ["\n\n".join(other + ans), ""]
        open(os.path.join(folder, "Answers.antt"), "w", encoding="utf-8").write("\n".join(out))
    os.remove(path)
    return "; ".join(f.flags) if f.flags else None


def main():
    root, base = ".", sys.argv[1]
    for crate in sys.argv[2:]:
        names = json.load(open(os.path.join(base, crate, "names.json"), encoding="utf-8"))
        for folder, dirs, fs in os.walk(os.path.join(root, "crates", crate, "proofs")):
            if "Proof.antt" in fs:
                said = convert(root, crate, names, folder)
                if said:
                    print(f"{folder}: {said}")


main()
