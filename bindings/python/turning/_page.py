"""Two texts that programs of the repository write: the page of `show-job`, and the lines of `compare-stocks`."""
import struct
from array import array
from decimal import ROUND_HALF_EVEN, Decimal
from typing import List, Sequence, Tuple

from ._model import Ring, Spec
from ._refused import Refused
from ._stock import Stock

_BIN_HEADS = ("z from", "z to", "outer lower", "outer upper", "inner lower", "inner upper")
_RING_HEADS = ("z from", "z to", "r from", "r to")


def _millimetres(x: float) -> str:
    """A length rounded to 1e-9, with no zeros behind."""
    said = format(Decimal(x).quantize(Decimal("1e-9"), ROUND_HALF_EVEN), "f")
    said = said.rstrip("0").rstrip(".")
    return "0" if said in ("-0", "") else said


class _Columns:
    """Numbers in columns, whose points stand below each other."""

    def __init__(self, heads: Sequence[str], table: Sequence[Sequence[str]]):
        self.heads = heads
        self.before, self.after = [], []
        for c, head in enumerate(heads):
            parts = [_parted(line[c]) for line in table]
            after = max((len(p[1]) for p in parts), default=0)
            self.before.append(max([len(p[0]) for p in parts] + [max(len(head) - after, 0)]))
            self.after.append(after)

    def head(self) -> str:
        return "".join("  " + head.rjust(b + a) for head, b, a in zip(self.heads, self.before, self.after))

    def row(self, line: Sequence[str]) -> str:
        said = ""
        for text, before, after in zip(line, self.before, self.after):
            whole, rest = _parted(text)
            said += "  " + whole.rjust(before) + rest.ljust(after)
        return said


def _parted(text: str) -> Tuple[str, str]:
    """What stands before the point, and from it on."""
    whole, point, rest = text.partition(".")
    return whole, point + rest


def _metal(cell) -> str:
    if cell.inner_upper < cell.outer_lower:
        return f"{_millimetres(cell.inner_upper)} .. {_millimetres(cell.outer_lower)}"
    return "none"


def _doubt(cell) -> str:
    if cell.outer_upper <= cell.inner_lower:
        return "empty"
    said = []
    for lower, upper in (cell[:2], cell[2:]):
        if lower < upper:
            said.append(f"{_millimetres(lower)} .. {_millimetres(upper)}")
    return ", ".join(said) or "-"


def page(stock: Stock) -> str:
    """What a stock holds, for a person, as `show-job` writes it."""
    bins = list(stock.bins())
    rings = stock.rings
    lines = ["lengths are in millimetres, rounded to 1e-9" + ("; the rings below are taken out of the bins" if rings else "")]
    table = [[_millimetres(x) for x in (b.z0, b.z1, *b.cell)] for b in bins]
    columns = _Columns(_BIN_HEADS, table)
    metals = [_metal(b.cell) for b in bins]
    width = max([len(m) for m in metals] + [len("certainly metal")])
    lines.append(" bin" + columns.head() + "  " + "certainly metal".ljust(width) + "  uncertain")
    for b, line, metal in zip(bins, table, metals):
        lines.append(str(b.index).rjust(4) + columns.row(line) + "  " + metal.ljust(width) + "  " + _doubt(b.cell))
    if rings:
        table = [[_millimetres(x) for x in ring] for ring in rings]
        columns = _Columns(_RING_HEADS, table)
        lines.append("ring" + columns.head())
        for k, line in enumerate(table):
            lines.append((str(k).rjust(4) + columns.row(line)).rstrip(" "))
    lines.append(f"generation {stock.generation}")
    return "\n".join(lines) + "\n"


def _store(spec: Spec, rings: Sequence[Ring]) -> Stock:
    """A stock that stores these rings, in a bar of the same ends and radius that has a bin or two."""
    bare = Stock(Spec(spec.z_min, spec.z_max, spec.outer, 0, min(spec.z_max - spec.z_min, 1e6)))
    flat = array("d", [edge for ring in rings for edge in ring])
    return Stock._of(bare.spec, 0, bare._cells, flat, len(rings), 0)


def _left(store: Stock, ring: Ring) -> List[Ring]:
    """What the rings of a store leave of one: what the call that stores a ring stores of it. Refusals: 11.

    Where there is no room for that, each ring of the store is taken from the pieces in turn, in a store of its own.
    """
    try:
        whole = store.copy()
        whole.remove_ring(*ring)
        return list(whole.rings[len(store.rings) :])
    except Refused as refused:
        if refused.number != 11:
            raise
    pieces = [ring]
    for one in store.rings:
        alone = _store(store.spec, [one])
        pieces = [part for piece in pieces for part in _left(alone, piece)]
        if len(pieces) > 256:
            raise Refused(11)
    return pieces


def _ring_line(ring: Ring) -> bytes:
    return b"\t".join([b"ring", *(struct.pack(">d", x).hex().upper().encode() for x in ring)]) + b"\n"


def compared(first: Stock, second: Stock) -> bytes:
    """What differs between two stocks, as lines of a stock file. Refusals: 24, 11."""
    if first.spec._bar() != second.spec._bar():
        raise Refused(24)
    one, two = _store(first.spec, first.rings), _store(first.spec, second.rings)
    lefts = [_left(two, ring) for ring in first.rings] + [_left(one, ring) for ring in second.rings]
    text = []
    for before, after, *lines in zip(first.cells, second.cells, _cell_lines(first), _cell_lines(second)):
        if before != after:
            text += lines
    text += [_ring_line(ring) for left in lefts for ring in left]
    return b"".join(text)


def _cell_lines(stock: Stock):
    lines = stock._lines()
    next(lines)
    return lines
