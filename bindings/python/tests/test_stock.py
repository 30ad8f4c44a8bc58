"""What each call of the package answers."""
import copy
import io
import os
import pickle
import subprocess
import sys
import tempfile
import threading
import unittest

import turning
from turning import (
    Arc,
    Cell,
    Change,
    ChangeList,
    Drill,
    Envelope,
    Job,
    Line,
    Nose,
    Polygon,
    Profile,
    Refused,
    Ring,
    Segment,
    Spec,
    Stock,
    ThreadCut,
    ThreadCutInner,
    check_passes,
    propose_passes,
)

EXAMPLES = os.path.join(os.path.dirname(os.path.abspath(__file__)), "..", "..", "..", "examples")


def bar(n=4, **more):
    return Spec(z_min=0, z_max=n, outer=10, cell=1, **more)


class Refusals(unittest.TestCase):
    def refused(self, number, place=None):
        case = self

        class Context:
            def __enter__(self):
                return self

            def __exit__(self, kind, value, _):
                case.assertIs(kind, Refused)
                case.assertEqual((value.number, value.place), (number, place))
                case.assertTrue(str(value).startswith(f"refused with {number}"))
                return True

        return Context()

    def test_numbers_and_places(self):
        with self.refused(1):
            Stock(Spec(z_min=0, z_max=0, outer=10))
        with self.refused(2):
            Stock(bar(turning.CELL_LIMIT + 1))
        with self.refused(2):
            Stock(bar(9, max_cells=8))
        stock = Stock(bar())
        with self.refused(21):
            stock.bin(4)
        with self.refused(5):
            stock.drill(tip_z=0, radius=0)
        with self.refused(13):
            stock.preview(Arc())
        with self.refused(3):
            Stock.rebuild(bar(), [])
        with self.refused(10, 1):
            stock.apply_move(stock.thread_cut(z0=0, z1=1, radius=8), [(0, 1, 0, 1), (0, 0, 0, 1)])
        with self.refused(10, 0):
            stock.remove_ring(float("nan"), 1, 0, 1)
        cell = stock.cells[0]
        same = [Change(i, cell, cell) for i in (0, 2, 2)]
        with self.refused(7, 2):
            stock.commit(ChangeList.from_records(same, edition=0, generation=0))
        with self.refused(21, 0):
            stock.commit(ChangeList.from_records([(4, cell, cell)], edition=0, generation=0))
        less = cell._replace(outer_lower=5.0)
        with self.refused(22, 0):
            stock.commit(ChangeList.from_records([(0, less, less)], edition=0, generation=0))
        with self.refused(8, 0):
            stock.commit(ChangeList.from_records([(0, cell, cell._replace(outer_upper=11.0))], edition=0, generation=0))
        stock.commit(ChangeList.from_records([(0, cell, less)], edition=0, generation=0))
        with self.refused(23, 0):
            stock.commit(ChangeList.from_records([(0, less, cell)], edition=0, generation=1))
        with self.refused(19):
            stock.commit(ChangeList.from_records([], edition=0, generation=0))
        with self.refused(24):
            stock.difference(Stock(bar(5)))
        with self.refused(14):
            Envelope([(float("nan"), 0)])
        with self.refused(17):
            Profile([]).segments(0.1)
        with self.refused(18):
            Profile([(500, 0, 1), (500, 900, 0)]).segments(1e-9)
        with self.refused(16, 1):
            Stock.from_bytes(b"")
        with self.refused(25):
            check_passes(stock, [], [])
        with self.refused(5):
            turning.root(-1)

    def test_text(self):
        self.assertEqual(str(Refused(13, 3, job=True)), "refused with 13 at line 3 of the job: an arc is no cut")
        self.assertEqual(repr(Refused(19)), "Refused(19, None)")
        self.assertEqual(str(pickle.loads(pickle.dumps(Refused(13, 3, job=True)))), str(Refused(13, 3, job=True)))


class Whole(unittest.TestCase):
    def test_cuts(self):
        stock = Stock(bar(12))
        for cut, changed in [
            (Line(a=(9, -1), b=(9, 13), rn=0.5), 12),
            (Nose([(9, -1, 9, 6, 0), Segment(9, 6, 9, 13)], rn=0.5), 12),
            (Polygon([(1, 8), (3, 8), (3, 12), (1, 12)]), 2),
            (ThreadCut(3, 1, 8), 2),
            (ThreadCutInner(1, 3, 4), 2),
            (Drill(6, 3), 6),
        ]:
            changes = stock.preview(cut)
            self.assertEqual(len(changes), changed, cut)
            self.assertEqual((changes.edition, changes.generation), (0, 0))
        self.assertEqual(len(stock.nose([], rn=1)), 0)

    def test_list(self):
        stock = Stock(bar(), edition=3)
        changes = stock.thread_cut(z0=1, z1=3, radius=8)
        self.assertEqual(changes[0], Change(1, Cell(10, 10, 0, 0), Cell(8, 10, 0, 0)))
        self.assertEqual(changes[-1].index, 2)
        self.assertEqual(changes[:1], (changes[0],))
        again = ChangeList.from_records(changes, edition=changes.edition, generation=changes.generation)
        self.assertEqual(again, changes)
        self.assertEqual(pickle.loads(pickle.dumps(changes)), changes)
        with self.assertRaises(TypeError):
            ChangeList()
        with self.assertRaises(IndexError):
            changes[2]
        stock.commit(again)
        self.assertEqual(stock.generation, 1)

    def test_cells(self):
        stock = Stock(bar())
        cells = stock.cells
        self.assertEqual(len(cells), 4)
        self.assertEqual(cells[-1], (10, 10, 0, 0))
        self.assertEqual(list(cells), [cells[i] for i in range(4)])
        view = cells.view()
        self.assertEqual((view.shape, view.readonly, view[0, 1]), ((4, 4), True, 10.0))
        with self.assertRaises(TypeError):
            view[0, 0] = 1.0
        with self.assertRaises(IndexError):
            cells[4]
        stock.commit(stock.drill(tip_z=0, radius=2))
        self.assertEqual(cells[0].inner_lower, 2.0)  # a view of the stock as it is

    def test_numpy(self):
        try:
            import numpy
        except ImportError:
            self.skipTest("numpy is not there")
        stock = Stock(bar())
        seen = numpy.asarray(stock.cells)
        self.assertEqual((seen.shape, seen.flags.writeable), ((4, 4), False))
        with self.assertRaises(ValueError):
            seen.flags.writeable = True
        self.assertEqual(Stock.rebuild(bar(), seen).cells, stock.cells)

    def test_buffers(self):
        from array import array

        rows = memoryview(array("d", [10, 10, 0, 0] * 4)).cast("B").cast("d", (4, 4))
        self.assertEqual(Stock.rebuild(bar(), rows).cells, Stock(bar()).cells)

    def test_rings(self):
        stock = Stock(Spec(z_min=0, z_max=9, outer=9, cell=1))
        none = ChangeList.from_records([], edition=0, generation=0)
        rings = [(0, 9, 0, 9), (1, 2, 1, 2), (4, 5, 4, 5)]
        self.assertEqual(stock.apply_move(none, rings), [0, 1, 1])
        other = Stock(stock.spec)
        self.assertEqual([other.remove_ring(*r) for r in rings[1:] + rings[:1]], [0, 1, 5])
        tests = []
        again = Stock.rebuild(stock.spec, stock.cells, rings, edition=2, tests=tests)
        self.assertEqual(tests, [0, 1, 1])
        self.assertEqual(again.rings, (Ring(0, 9, 0, 9),))
        self.assertLess(stock.volume().greatest, 1e-9)

    def test_room_for_rings(self):
        from turning._page import compared

        stock, other = Stock(bar(300)), Stock(bar(300))
        for k in range(turning.RING_LIMIT):
            self.assertEqual(stock.remove_ring(k, k + 0.5, 4, 5), k)
        before = stock.copy()
        with self.assertRaises(Refused) as caught:
            stock.remove_ring(0, 1, 6, 7)
        self.assertEqual(caught.exception.number, 11)
        self.assertEqual(stock, before)
        # what 256 rings leave of one over all of them is found without room for it beside them
        other.remove_ring(0, 256, 4, 5)
        self.assertEqual(len(compared(stock, other).splitlines()), 256)
        with self.assertRaises(Refused) as caught:
            compared(stock, Stock.rebuild(bar(300), other.cells, [(0, 300, 0, 10)]))
        self.assertEqual(caught.exception.number, 11)

    def test_queries(self):
        stock = Stock(bar())
        stock.commit(stock.drill(tip_z=1, radius=3))
        self.assertEqual(stock.range(1.25, 2.75), (3, 10))
        self.assertEqual(stock.envelope_at(0.5), (0, 10))
        self.assertIsNone(stock.range(3, 2))
        self.assertIsNone(stock.envelope_at(float("nan")))
        self.assertEqual([b.z1 for b in stock], [1, 2, 3, 4])
        least, greatest = stock.volume()
        self.assertEqual(least, greatest)
        fresh = Stock(bar())
        changes = fresh.difference(stock)
        fresh.commit(changes)
        self.assertEqual(fresh.cells, stock.cells)

    def test_copies(self):
        stock = Stock(bar(), edition=7)
        stock.commit(stock.drill(tip_z=1, radius=3))
        stock.remove_ring(0, 1, 4, 5)
        for other in (stock.copy(), copy.copy(stock), copy.deepcopy(stock), pickle.loads(pickle.dumps(stock))):
            self.assertEqual(other, stock)
            other.remove_ring(2, 3, 4, 5)
            self.assertNotEqual(other, stock)
        self.assertIn("edition 7, generation 2", repr(stock))

    def test_envelope(self):
        part = Envelope([(0, 10), (5, 10), (9, 6)])
        self.assertEqual((part.order, len(part), part.radius_at(7), part.radius_at(10)), (1, 3, 8, None))
        self.assertEqual((part.radius_range(4, 7), part.within(4, 9)), ((8, 10), range(1, 3)))
        insert = [(2, 4), (4, 4), (4, 12), (2, 12)]
        self.assertEqual((part.penetration(insert, 0), part.excess(insert, 0), part.eroded(2, 0.5)), (6, 2, 9.5))
        self.assertEqual(len(Profile([(20, 0, 0.3), (20, 10, 0)]).segments(0.1)), 4)
        wave = Profile([(500, 900 * k, 1) for k in range(256)])
        self.assertEqual(len(wave.segments(0.0011)), 255 * 1024)
        self.assertEqual((turning.root(4), turning.length(3, 4)), (2, 5))

    def test_passes(self):
        stock = Stock(Spec(z_min=0, z_max=12, outer=30, cell=1))
        targets = [(19.99, 20.01)] * 5 + [(19.5, 30)] + [(27.99, 28.01)] * 6
        cuts = propose_passes(stock, targets, rn=0.8)
        self.assertEqual(len(cuts), 2)
        said = check_passes(stock, targets, cuts)
        self.assertTrue(said)
        self.assertEqual((said.after.generation, stock.generation), (2, 0))
        self.assertEqual(check_passes(stock, targets, cuts[:1]).bin, 6)
        said = check_passes(stock, targets, [cuts[0], Arc()])
        self.assertEqual((said.yes, said.cut, said.reason.number), (False, 1, 13))

    def test_limits(self):
        for n in (1, 64, 65, 512, 4096, 4097, turning.CELL_LIMIT):
            stock = Stock(bar(n))
            self.assertEqual(len(stock), n)
            changes = stock.line(a=(8, -9), b=(8, n + 9), rn=0.5)
            self.assertEqual(len(changes), n)
            stock.commit(changes)
            self.assertEqual(stock.range(0, n), (0, 7.5))
            self.assertTrue(check_passes(stock, [(7, 8)] * n, []))

    def test_a_rebuilt_stock_cannot_be_reached_from_its_cells(self):
        cells = [(10, 10, 0, 0)] * 4
        stock = Stock.rebuild(bar(), cells)
        cells[0] = (1, 1, 0, 0)
        self.assertEqual(stock.cells[0], (10, 10, 0, 0))

    def test_threads(self):
        stock = Stock(bar(300))
        wrong = []

        def work(k):
            try:
                for i in range(200):
                    changes = stock.thread_cut(z0=0, z1=300, radius=9 - 0.001 * i)
                    try:
                        stock.commit(changes)
                    except Refused as refused:
                        if refused.number != 19:
                            raise
                    stock.envelope_at(k)
            except BaseException as error:  # noqa: B036
                wrong.append(error)

        threads = [threading.Thread(target=work, args=(k,)) for k in range(4)]
        for thread in threads:
            thread.start()
        for thread in threads:
            thread.join()
        self.assertEqual(wrong, [])


class Files(unittest.TestCase):
    def setUp(self):
        folder = tempfile.TemporaryDirectory()
        self.addCleanup(folder.cleanup)
        self.path = os.path.join(folder.name, "x.stock")

    def test_paths_and_files(self):
        stock = Stock(bar(), edition=3)
        stock.remove_ring(0, 1, 4, 5)
        stock.write(self.path)
        with open(self.path, "rb") as file:
            self.assertEqual(file.read(), stock.to_bytes())
        out = io.BytesIO()
        stock.write(out)
        self.assertEqual(out.getvalue(), stock.to_bytes())
        for read in (Stock.read(self.path), Stock.read(io.BytesIO(out.getvalue())), Stock.from_bytes(out.getvalue())):
            self.assertEqual((read.cells, read.rings, read.edition, read.generation), (stock.cells, stock.rings, 3, 0))
        with self.assertRaises(TypeError):
            Stock.read(io.StringIO("stock"))
        with self.assertRaises(FileNotFoundError):
            Stock.read(self.path + "x")

    def test_open_stock(self):
        Stock(bar()).write(self.path)
        with turning.open_stock(self.path) as stock:
            stock.remove_ring(0, 1, 4, 5)
        self.assertEqual(Stock.read(self.path).rings, ())
        with turning.open_stock(self.path, keep=True) as stock:
            stock.remove_ring(0, 1, 4, 5)
        self.assertEqual(Stock.read(self.path).rings, (Ring(0, 1, 4, 5),))
        with self.assertRaises(ZeroDivisionError):
            with turning.open_stock(self.path, keep=True) as stock:
                stock.remove_ring(2, 3, 4, 5)
                1 / 0
        self.assertEqual(len(Stock.read(self.path).rings), 1)
        self.assertEqual(os.listdir(os.path.dirname(self.path)), ["x.stock"])

    def test_job(self):
        with open(os.path.join(EXAMPLES, "wheel.job"), "rb") as file:
            text = file.read()
        with open(os.path.join(EXAMPLES, "wheel.stock"), "rb") as file:
            kept = file.read()
        job = Job()
        for k in range(0, len(text), 7):
            job.write(text[k : k + 7])
        self.assertEqual(job.finish().to_bytes(), kept)
        self.assertTrue(job.output().endswith(b"gen\t4\n"))
        on = Job(on=job.finish())
        on.write(b"ring\t0\t2000\t18000\t21000\n")
        self.assertEqual(on.finish().generation, 1)
        on.write(b"bar\t0\t1000\t1000\t0\t1000\n")
        self.assertEqual(on.output(), b"refused\t2\t15\n")
        self.assertEqual(Job().output(), b"refused\t1\t15\n")

    def said(self, *arguments, status=0):
        folder = os.path.join(os.path.dirname(os.path.abspath(__file__)), "..")
        run = subprocess.run([sys.executable, "-m", "turning", *arguments], capture_output=True, cwd=folder)
        self.assertEqual(run.returncode, status, run.stderr)
        return run.stdout

    def test_programs(self):
        def data(*names):
            with open(os.path.join(EXAMPLES, "..", *names), "rb") as file:
                return file.read()

        root = os.path.abspath(os.path.join(EXAMPLES, ".."))
        wheel = os.path.join(root, "examples", "wheel.job")
        self.assertEqual(self.said("job", "--to", self.path, wheel)[-6:], b"gen\t4\n")
        with open(self.path, "rb") as file:
            self.assertEqual(file.read(), data("examples", "wheel.stock"))
        self.assertEqual(self.said("job", os.path.join(root, "examples", "refused.job"), status=1)[:8], b"refused\t")
        self.assertEqual(self.said("job", "--edition", "3", wheel, status=1), b"refused\tedition\n")
        self.assertEqual(self.said("show", os.path.join(root, "crates", "show_job", "stdin")), data("crates", "show_job", "stdout"))
        both = [os.path.join(root, "examples", name) for name in ("before.stock", "after.stock")]
        self.assertEqual(self.said("compare", *both), data("examples", "stocks.out"))
        self.assertEqual(self.said("compare", both[0], both[0]), b"")
        self.assertEqual(self.said("compare", both[0], self.path, status=1), b"refused\t24\n")
        self.assertEqual(self.said("compare", wheel, both[0], status=1), b"refused\t1\t1\t16\n")


def load_tests(loader, tests, _):
    import doctest

    tests.addTests(doctest.DocTestSuite("turning._stock"))
    tests.addTests(doctest.DocTestSuite("turning._job"))
    readme = os.path.join(os.path.dirname(os.path.abspath(__file__)), "..", "README.md")
    tests.addTests(doctest.DocFileSuite(readme, module_relative=False))
    return tests


if __name__ == "__main__":
    unittest.main()
