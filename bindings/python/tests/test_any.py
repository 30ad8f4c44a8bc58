"""Every call with every wrong type, and calls over random, damaged and limit input: none crashes.

TURNING_CALLS says how many random calls are made; 100,000 without it.
"""
import ctypes
import faulthandler
import inspect
import io
import math
import os
import random
import struct
import tempfile
import unittest
from array import array
from decimal import Decimal
from fractions import Fraction

import turning
from turning import (
    Arc,
    Cell,
    ChangeList,
    Drill,
    Envelope,
    Job,
    Line,
    Nose,
    Polygon,
    Profile,
    Refused,
    Ring,
    Segment,
    Spec,
    Stock,
    Target,
    ThreadCut,
    ThreadCutInner,
    check_passes,
    propose_passes,
)

faulthandler.enable()
CALLS = int(os.environ.get("TURNING_CALLS", "100000"))


class Falls:
    """Fails whatever it is asked for."""

    def __float__(self):
        raise ValueError("no number")

    def __index__(self):
        raise ValueError("no index")

    def __iter__(self):
        raise ValueError("no rows")

    def __len__(self):
        return -1


class Lies:
    """Answers what does not fit."""

    def __float__(self):
        return "1"  # type: ignore[return-value]

    def __index__(self):
        return 1.5  # type: ignore[return-value]

    def __iter__(self):
        return 7  # type: ignore[return-value]

    def __fspath__(self):
        return 3  # type: ignore[return-value]

    def read(self, *_):
        return 12

    def write(self, *_):
        return "x"


class Huge:
    def __index__(self):
        return 10**400


def generator():
    yield 1
    yield (1, 2)
    yield "x"


def wrong():
    """A value of every kind that somebody may hand over."""
    stock = Stock(Spec(0, 3, 10))
    return [
        None, True, False, 0, 1, -1, 2**31, 2**32, 2**63, 2**64, -(2**64), 10**400, 0.0, -0.0, 1.5, -1.5, 1e300, 5e-324,
        math.nan, math.inf, -math.inf, 1j, Decimal("1.5"), Decimal("NaN"), Decimal("sNaN"), Fraction(1, 3), "", "x", "1", "outer", "inner",
        "\0", "\ud800", b"", b"x", b"1234", bytearray(b"1234"), memoryview(b"12345678"), memoryview(array("d", [1, 2, 3, 4])),
        memoryview(array("d", [1.0] * 8)).cast("B").cast("d", (2, 4)), memoryview(array("d", [1.0] * 8)).cast("B").cast("d", (4, 2)),
        memoryview(array("d", [1.0] * 8))[::2], array("f", [1]), array("d"), array("d", [1, 2, 3, 4]), array("i", [1]), (), (1,), (1, 2), (1, 2, 3), (1, 2, 3, 4), (1, 2, 3, 4, 5), [], [1],
        [[]], [[1]], [[1, 2]], [(1, 2, 3)], [(1, 2, 3, 4)], [[1, 2, 3, 4, 5]], [None], [[None] * 4], [["1"] * 4], ["1234"], [b"1234"],
        [[1, 2]] * 2000, [(0, (1, 1, 1, 1), (1, 1, 1, 1))], [(2**64, (1,), (1,))], {}, {1: 2}, {"a": 1}, set(), {(1, 2)}, frozenset([1]),
        range(4), range(10**9), iter([]), generator(), map(str, []), object(), object, int, len, lambda *_: 1, Ellipsis, NotImplemented,
        type, Exception("x"), io.BytesIO(b"x"), io.StringIO("x"), ctypes.c_double(1), ctypes.c_void_p(1), ctypes.c_char_p(b"x"),
        (ctypes.c_double * 4)(), Falls(), Lies(), Huge(), turning, stock, stock.spec, stock.cells, stock.drill(tip_z=0, radius=1), Job(),
        Envelope([]), Profile([]), Cell(1, 2, 3, 4), Ring(0, 1, 2, 3), Segment(1, 2, 3, 4), Target(1, 2), Arc(), Drill(0, 1), Line((1, 2), (3, 4), 1),
        Line(None, None, None), Nose(None, None), Nose([(1, 2)], 1), Polygon("x"), ThreadCut("a", None, []), ThreadCutInner(1, 2, "3"), Drill(None, 1, 1),
        Refused(1), random.Random(1), slice(1, 2), super, property(),
    ]  # fmt: skip


def calls(folder):
    """Every call, as what it takes it of and arguments that it accepts."""
    spec = Spec(0, 12, 30, 0, 1)
    stock = Stock(spec)
    changes = stock.drill(tip_z=0, radius=2)
    part = Envelope([(0, 10), (5, 10), (9, 6)])
    path = os.path.join(folder, "x.stock")
    stock.write(path)
    targets = [(1, 30)] * 12
    insert = [(2, 4), (4, 4), (4, 12)]

    def opened(*a, **k):
        with turning.open_stock(*a, **k) as s:
            return s

    def with_edition(edition):
        other = stock.copy()
        other.edition = edition

    def bins(i):
        return stock.cells[i]

    def changed(k):
        return changes[k]

    return [
        (Spec, (0, 12, 30, 0, 1, 99), {}),
        (spec.bin, (1,), {}),
        (Stock, (spec,), {"edition": 1}),
        (Stock.rebuild, (spec, stock.cells, [(0, 1, 2, 3)]), {"edition": 1, "tests": []}),
        (stock.bin, (1,), {}),
        (stock.preview, (Drill(0, 1),), {}),
        (lambda **k: stock.preview(Line(**k)), (), {"a": (9, 0), "b": (9, 9), "rn": 1, "side": "outer", "sag": 0}),
        (lambda **k: stock.preview(Nose(**k)), (), {"segments": [(9, 0, 9, 9, 0)], "rn": 1, "side": "outer"}),
        (lambda **k: stock.preview(Polygon(**k)), (), {"points": insert, "side": "inner", "excess": 0}),
        (lambda **k: stock.preview(ThreadCut(**k)), (), {"z0": 0, "z1": 3, "radius": 9}),
        (lambda **k: stock.preview(ThreadCutInner(**k)), (), {"z0": 0, "z1": 3, "radius": 9}),
        (lambda **k: stock.preview(Drill(**k)), (), {"tip_z": 0, "radius": 3, "cone": 1}),
        (stock.line, (), {"a": (9, 0), "b": (9, 9), "rn": 1, "side": "outer", "sag": 0}),
        (stock.nose, ([(9, 0, 9, 9, 0)],), {"rn": 1, "side": "inner"}),
        (stock.preview_polygon, (insert,), {"side": "outer", "excess": 0}),
        (stock.thread_cut, (), {"z0": 0, "z1": 3, "radius": 9}),
        (stock.thread_cut_inner, (), {"z0": 0, "z1": 3, "radius": 9}),
        (stock.drill, (), {"tip_z": 0, "radius": 3, "cone": 1}),
        (lambda c: stock.copy().commit(c), (changes,), {}),
        (lambda *e: stock.copy().remove_ring(*e), (0, 1, 2, 3), {}),
        (lambda c, r: stock.copy().apply_move(c, r), (changes, [(0, 1, 2, 3)]), {}),
        (stock.difference, (stock,), {}),
        (stock.envelope_at, (1,), {}),
        (stock.range, (1, 2), {}),
        (with_edition, (1,), {}),
        (bins, (1,), {}),
        (changed, (1,), {}),
        (ChangeList.from_records, ([changes[0]],), {"edition": 0, "generation": 0}),
        (stock.write, (path,), {}),
        (Stock.read, (path,), {"max_cells": 99}),
        (Stock.from_bytes, (stock.to_bytes(),), {"max_cells": 99}),
        (opened, (path,), {"keep": False, "max_cells": 99}),
        (Envelope, ([(0, 1), (2, 3)],), {}),
        (part.within, (1, 2), {}),
        (part.radius_at, (1,), {}),
        (part.radius_range, (1, 2), {}),
        (part.excess, (insert, 0), {}),
        (part.penetration, (insert, 0), {}),
        (part.eroded, (1, 0), {}),
        (Profile, ([(20, 0, 0.3), (20, 10, 0)],), {}),
        (Profile([(20, 0, 0.3), (20, 10, 0)]).segments, (0.1,), {}),
        (turning.root, (2,), {}),
        (turning.length, (2, 3), {}),
        (check_passes, (stock, targets, [ThreadCut(0, 1, 29)]), {}),
        (lambda c: check_passes(stock, targets, [c]), (Line((20, 0), (20, 9), 1),), {}),
        (propose_passes, (stock, targets), {"rn": 1}),
        (Job, (), {"edition": 1, "on": stock}),
        (Job().write, (b"bar\t0\t12000\t30000\t0\t1000\n",), {}),
    ]


class WrongTypes(unittest.TestCase):
    """Every argument of every call is each wrong value in turn: accepted, refused, or an exception of Python."""

    def test_every_call(self):
        with tempfile.TemporaryDirectory() as folder:
            was = os.getcwd()
            os.chdir(folder)
            try:
                self.every_call(folder)
            finally:
                os.chdir(was)

    def every_call(self, folder):
        made = 0
        for call, given, named in calls(folder):
            call(*given, **named)
            for k in range(len(given) + len(named)):
                for value in wrong():
                    arguments, keywords = list(given), dict(named)
                    if k < len(given):
                        arguments[k] = value
                    else:
                        keywords[list(named)[k - len(given)]] = value
                    made += 1
                    try:
                        call(*arguments, **keywords)
                    except (TypeError, ValueError, Refused, IndexError, OSError):
                        pass
            for arguments in ((), (None,) * 9):
                made += 1
                with self.assertRaises(TypeError):
                    call(*arguments, **({} if arguments else {"not_there": 1}))
        self.assertGreater(made, 10_000)
        print(f"{made} calls with a wrong type")

    def test_none_is_left_out(self):
        """Each public name is called above, or is a plain record."""
        with tempfile.TemporaryDirectory() as folder:
            text = inspect.getsource(calls) + str(len(calls(folder)))
        records = {"Bin", "Cell", "Cells", "Change", "Cut", "Material", "Ring", "Segment", "Target", "Verdict", "Volume", "Refused", "Arc"}
        for name in turning.__all__:
            if name not in records and not name.endswith("_LIMIT"):
                self.assertIn(name, text)
        for kind, made in ((Stock, "stock."), (Envelope, "part.")):
            for name, value in vars(kind).items():
                if inspect.isfunction(value) and not name.startswith("_") and name not in ("copy", "bins", "volume", "to_bytes"):
                    self.assertIn(f".{name}", text)


class Any(unittest.TestCase):
    """Random, damaged and limit input."""

    def number(self):
        r = self.dice
        if r.random() < 0.02:
            return r.choice([math.nan, math.inf, -math.inf, -0.0, 1e6, -1e6, 1e6 + 1e-9, 5e-324, struct.unpack("d", r.randbytes(8))[0]])
        return r.randrange(-8000, 40000) / 1000

    def size(self, most):
        return self.dice.choice([0, 1, 2, 3, self.dice.randrange(12), most, most + 1]) if self.dice.random() < 0.1 else self.dice.randrange(6)

    def rows(self, width, n):
        return [tuple(self.number() for _ in range(width)) for _ in range(n)]

    def ask(self, call, *arguments, **named):
        self.made += 1
        try:
            return call(*arguments, **named)
        except Refused as refused:
            self.assertIn(refused.number, range(1, 26))
            self.assertNotIn(refused.number, (6, 9, 20))
            self.numbers[refused.number] = self.numbers.get(refused.number, 0) + 1
            return None

    def ring(self):
        z, r = self.number(), abs(self.number())
        return (z, z + abs(self.number()) / 4, r, r + abs(self.number()) / 8)

    def cut(self):
        r, side = self.dice, self.dice.choice(["outer", "inner"])
        return r.choice([
            lambda: Line((self.number(), self.number()), (self.number(), self.number()), abs(self.number()) / 10, side, abs(self.number()) / 100),
            lambda: Nose(self.rows(5, self.size(40)), abs(self.number()) / 10, side),
            lambda: Polygon(self.rows(2, self.size(64)), side, abs(self.number()) / 10),
            lambda: ThreadCut(self.number(), self.number(), self.number()),
            lambda: ThreadCutInner(self.number(), self.number(), self.number()),
            lambda: Drill(self.number(), self.number(), self.number()),
            Arc,
        ])()  # fmt: skip

    def test_any(self):
        self.dice, self.made, self.numbers = random.Random(int(os.environ.get("TURNING_SEED", "34"))), 0, {}
        while self.made < CALLS:
            self.one_stock()
        print(f"{self.made} calls, refused: {dict(sorted(self.numbers.items()))}")

    def one_stock(self):
        r = self.dice
        z, outer, cell = self.number(), abs(self.number()) + 0.5, r.choice([0.1, 0.25, 1.0, 3.0])
        spec = Spec(z, z + cell * r.randrange(1, 80), outer, r.choice([0, outer / 3]), cell)
        self.ask(spec.validate)
        stock = self.ask(Stock, spec, edition=r.randrange(2**32))
        if stock is None:
            return
        old = None
        for _ in range(r.randrange(12)):
            before = stock.copy()
            changes = self.ask(stock.preview, self.cut())
            if changes is None:
                self.assertEqual(stock, before)
                continue
            if r.random() < 0.2:
                records = [list(c) for c in changes]
                for _ in range(r.randrange(3)):
                    if records:
                        record = r.choice(records)
                        record[r.randrange(1, 3)] = tuple(self.number() for _ in range(4))
                        record[0] = r.choice([record[0], r.randrange(99), 2**64 - 1])
                changes = ChangeList.from_records(records, edition=stock.edition, generation=stock.generation)
            if old is not None and r.random() < 0.2:
                changes = old
            old = changes
            before = stock.copy()
            refused = self.numbers.copy()
            if r.random() < 0.4:
                self.ask(stock.apply_move, changes, [self.ring() for _ in range(r.randrange(4))])
            else:
                self.ask(stock.commit, changes)
            if refused != self.numbers:
                self.assertEqual(stock, before)
            self.ask(stock.remove_ring, *self.ring())
            self.ask(stock.envelope_at, self.number())
            self.ask(stock.range, self.number(), self.number())
            self.ask(stock.volume)
        self.parts(stock)
        self.texts(stock)
        self.others(stock)

    def parts(self, stock):
        again = self.ask(Stock.rebuild, stock.spec, stock.cells, stock.rings, edition=stock.edition)
        self.assertEqual(again.cells, stock.cells)
        self.assertEqual(len(self.ask(stock.difference, again)), 0)
        cells = [list(c) for c in stock.cells]
        self.dice.choice(cells)[self.dice.randrange(4)] = self.number()
        self.ask(Stock.rebuild, stock.spec, cells[: self.dice.choice([None, -1])], [self.ring()])

    def texts(self, stock):
        text = stock.to_bytes()
        read = self.ask(Stock.from_bytes, text)
        self.assertEqual((read.cells, read.rings, read.to_bytes()), (stock.cells, stock.rings, text))
        for _ in range(3):
            damaged = bytearray(text)
            for _ in range(self.dice.randrange(1, 4)):
                k = self.dice.randrange(len(damaged) or 1)
                if self.dice.random() < 0.3:
                    del damaged[k:]
                elif damaged:
                    damaged[k] = self.dice.choice(b"0123456789ABCDEF\t\nx\0\xff")
            self.ask(Stock.from_bytes, damaged, max_cells=self.dice.choice([0, 9, 16384]))
        job = self.ask(Job, on=self.dice.choice([None, stock])) or Job()
        job.write(b"bar\t0\t40000\t30000\t0\t1000\n"[: self.dice.choice([0, 9, 99])])
        for _ in range(self.dice.randrange(9)):
            a, b = self.dice.randrange(40000), self.dice.randrange(40000)
            line = self.dice.choice([
                b"thread_cut\t%d\t%d\t9000\n" % (a, b), b"drill\t%d\t%d\t1000\n" % (a, b), b"ring\t%d\t%d\t%d\t%d\n" % (a, a + 900, b, b + 900),
                b"line\touter\t800\t0\t%d\t0\t%d\t40000\n" % (a, b), self.dice.randbytes(self.dice.randrange(200)),
            ])  # fmt: skip
            self.ask(job.write, line)
        said = job.output()
        left = self.ask(job.finish)
        self.assertTrue(said.endswith(b"gen\t%d\n" % left.generation) if left else said.startswith(b"refused\t"))

    def others(self, stock):
        r = self.dice
        points = self.rows(2, self.size(1024))
        part = self.ask(Envelope, sorted(points) if r.random() < 0.5 else points)
        if part is not None:
            insert = self.rows(2, self.size(64))
            self.ask(part.within, self.number(), self.number())
            self.ask(part.radius_at, self.number())
            self.ask(part.radius_range, self.number(), self.number())
            self.ask(part.excess, insert, abs(self.number()) / 50)
            self.ask(part.penetration, insert, abs(self.number()) / 50)
            self.ask(part.eroded, self.number(), abs(self.number()) / 50)
        self.ask(Profile([(abs(a), b, r.uniform(-1, 1)) for a, b in self.rows(2, self.size(20))]).segments, r.choice([1, 0.1, self.number()]))
        level = abs(self.number())
        targets = [(level - 1, level + r.randrange(3))] * (len(stock) + r.choice([0, 0, 0, 1]))
        cuts = self.ask(propose_passes, stock, targets, rn=abs(self.number()) / 20) or []
        self.ask(check_passes, stock, targets, cuts + [self.cut() for _ in range(r.choice([0, 0, 1, 3]))])


if __name__ == "__main__":
    unittest.main()
