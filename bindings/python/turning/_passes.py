"""Cuts that a drawing tool proposes, checked against targets."""
from array import array
from ctypes import byref, c_size_t, c_uint32, c_uint64
from itertools import islice
from typing import Any, Iterable, List, NamedTuple, Optional

from . import _c
from ._model import Arc, Cut, Drill, Line, Nose, Polygon, ThreadCut, ThreadCutInner
from ._refused import Refused, ask
from ._stock import Stock
from ._taken import each, number, row, rows, side_of

PASS_LIMIT = 128


class Verdict(NamedTuple):
    """What a check says. `yes` with the stock after the cuts; or the first `cut` that is refused and its `reason`; or the first `bin`
    that is not within its target."""

    yes: bool
    after: Optional[Stock] = None
    cut: Optional[int] = None
    reason: Optional[Refused] = None
    bin: Optional[int] = None

    def __bool__(self) -> bool:
        return self.yes


class _Flat:
    """Cuts as they lie in memory for C."""

    def __init__(self) -> None:
        self.kinds = array("I")
        self.numbers = array("d")
        self.parts = array(_c.SIZE_CODE)
        self.lists = array("d")

    def put(self, kind: int, numbers: list, part: Optional[array] = None) -> None:
        part = array("d") if part is None else part
        self.kinds.append(kind)
        self.numbers.extend(numbers + [0.0] * (6 - len(numbers)))
        self.parts.extend((len(self.lists), len(part)))
        self.lists.extend(part)

    def put_cut(self, cut: Any, k: int) -> None:
        if isinstance(cut, Line):
            a, b = row(cut.a, 2, "a"), row(cut.b, 2, "b")
            self.put(4 * side_of(cut.side), [number(cut.rn, "rn"), number(cut.sag, "sag"), *a, *b])
        elif isinstance(cut, ThreadCut):
            self.put(1, [number(cut.z0, "z0"), number(cut.z1, "z1"), number(cut.radius, "radius")])
        elif isinstance(cut, Nose):
            self.put(2 + 4 * side_of(cut.side), [number(cut.rn, "rn")], rows(cut.segments, 5, "segments", 4096))
        elif isinstance(cut, Polygon):
            self.put(3 + 4 * side_of(cut.side), [number(cut.excess, "excess")], rows(cut.points, 2, "points", 64))
        elif isinstance(cut, ThreadCutInner):
            self.put(5, [number(cut.z0, "z0"), number(cut.z1, "z1"), number(cut.radius, "radius")])
        elif isinstance(cut, Drill):
            self.put(8, [number(cut.tip_z, "tip_z"), number(cut.radius, "radius"), number(cut.cone, "cone")])
        elif isinstance(cut, Arc):
            self.put(9, [])
        else:
            raise TypeError(f"cut {k} is to be a cut, not {type(cut).__name__}")


def _stock_of(stock: Any) -> Stock:
    if not isinstance(stock, Stock):
        raise TypeError(f"stock is to be a turning.Stock, not {type(stock).__name__}")
    return stock


def check_passes(stock: Stock, targets: Iterable, cuts: Iterable[Cut]) -> Verdict:
    """Makes the cuts one after the other on a copy, and says whether every bin then is within its target (lower, upper).

    Up to 128 outside cuts. A no is no refusal. Refusals: 25.
    """
    stock = _stock_of(stock)
    aims = rows(targets, 2, "targets", _c.CELL_LIMIT)
    flat = _Flat()
    it = each(cuts, "cuts are to be a list of cuts")
    # of more than the most the number alone is asked
    for k, cut in enumerate(islice(it, PASS_LIMIT + 1)):
        flat.put_cut(cut, k)
    after, blocks = _c.doubles(len(stock._cells)), _c.doubles(len(stock._blocks))
    verdict, place, reason, generation = c_uint32(), c_size_t(), c_uint32(), c_uint64()
    ask(
        _c.check_passes(
            *stock._stamped,
            *stock._blocks_lent,
            *_c.lent(aims),
            *_c.lent(flat.kinds),
            *_c.lent(flat.numbers),
            *_c.lent(flat.parts),
            *_c.lent(flat.lists),
            *_c.lent(after),
            *_c.lent(blocks),
            byref(verdict),
            byref(place),
            byref(reason),
            byref(generation),
        )
    )
    if verdict.value == 2:
        return Verdict(False, cut=place.value, reason=Refused(reason.value))
    if verdict.value == 3:
        return Verdict(False, bin=place.value)
    made = Stock._of(stock.spec, stock.edition, after, stock._rings[:], stock._stored.value, generation.value)
    return Verdict(True, after=made)


def propose_passes(stock: Stock, targets: Iterable, *, rn: float) -> List[Line]:
    """Proposes level straight passes of a nose of radius rn, by rising z, 128 at most; `check_passes` tells how good they are.

    Refusals: 25 of the targets, 5 of the radius.
    """
    stock = _stock_of(stock)
    aims = rows(targets, 2, "targets", _c.CELL_LIMIT)
    rn = number(rn, "rn")
    kinds, numbers, parts = array("I", [0] * PASS_LIMIT), _c.doubles(6 * PASS_LIMIT), _c.sizes(2 * PASS_LIMIT)
    count = c_size_t()
    ask(_c.propose_passes(*stock._asked, *_c.lent(aims), rn, *_c.lent(kinds), *_c.lent(numbers), *_c.lent(parts), byref(count)))
    cuts = []
    for k in range(count.value):
        rn, sag, ar, az, br, bz = numbers[6 * k : 6 * k + 6]
        cuts.append(Line(a=(ar, az), b=(br, bz), rn=rn, side="outer", sag=sag))
    return cuts
