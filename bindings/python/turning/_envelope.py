"""The envelope of a profile, profiles of arcs, and two numbers."""
from ctypes import byref, c_double, c_int32, c_size_t, c_uint32
from typing import Any, Iterable, List, Optional, Tuple

from . import _c
from ._model import Segment
from ._refused import ask
from ._taken import number, rows


class Envelope:
    """A chain of points (z, radius), each joined to the next: 1,024 at most. Refusals: 14."""

    __slots__ = ("_flat", "_lent", "_order")

    def __init__(self, points: Iterable):
        flat = rows(points, 2, "points", 1024)
        lent = _c.lent(flat)
        order = c_int32()
        ask(_c.envelope_order(*lent, byref(order)))
        self._flat = flat
        self._lent = lent
        self._order = order.value

    @property
    def points(self) -> Tuple[Tuple[float, float], ...]:
        flat = iter(self._flat.tolist())
        return tuple(zip(flat, flat))

    @property
    def order(self) -> int:
        """1 if z never falls from point to point, else -1 if it never rises, else 0."""
        return self._order

    def within(self, lo: float, hi: float) -> range:
        """The points with lo <= z <= hi; with order 0 all, and with lo > hi none. Refusals: 14."""
        first, count = c_size_t(), c_size_t()
        ask(_c.within(*self._lent, number(lo, "lo"), number(hi, "hi"), byref(first), byref(count)))
        return range(first.value, first.value + count.value)

    def radius_at(self, u: float) -> Optional[float]:
        """The highest radius of the chain at z = u, or None. Refusals: 14."""
        found, radius = c_uint32(), c_double()
        ask(_c.radius_at(*self._lent, number(u, "u"), byref(found), byref(radius)))
        return radius.value if found.value else None

    def radius_range(self, lo: float, hi: float) -> Optional[Tuple[float, float]]:
        """The lowest and the highest radius over lo..hi, or None. Refusals: 14."""
        found, lowest, highest = c_uint32(), c_double(), c_double()
        ask(_c.radius_range(*self._lent, number(lo, "lo"), number(hi, "hi"), byref(found), byref(lowest), byref(highest)))
        return (lowest.value, highest.value) if found.value else None

    def _touch(self, call: Any, polygon: Iterable, tol: float) -> Optional[float]:
        insert = rows(polygon, 2, "polygon", 64)
        found, by = c_uint32(), c_double()
        ask(call(*self._lent, *_c.lent(insert), number(tol, "tol"), byref(found), byref(by)))
        return by.value if found.value else None

    def excess(self, polygon: Iterable, tol: float) -> Optional[float]:
        """How far an insert reaches beyond this bore widened by tol, or None. Refusals: 14."""
        return self._touch(_c.excess, polygon, tol)

    def penetration(self, polygon: Iterable, tol: float) -> Optional[float]:
        """How far an insert reaches into this part eroded by tol, or None. Refusals: 14."""
        return self._touch(_c.penetration, polygon, tol)

    def eroded(self, u: float, tol: float) -> Optional[float]:
        """The radius of this part eroded by tol at z = u, or None. Refusals: 14."""
        found, radius = c_uint32(), c_double()
        ask(_c.eroded(*self._lent, number(u, "u"), number(tol, "tol"), byref(found), byref(radius)))
        return radius.value if found.value else None

    def __len__(self) -> int:
        return len(self._flat) // 2

    def __repr__(self) -> str:
        return f"<turning.Envelope of {len(self)} points, order {self._order}>"


class Profile:
    """A path of lines and arcs: points (radius, z, bulge of the arc to the next point), 2 to 256 of them."""

    __slots__ = ("_flat",)

    def __init__(self, points: Iterable):
        self._flat = rows(points, 3, "points", 256)

    @property
    def points(self) -> Tuple[Tuple[float, float, float], ...]:
        flat = iter(self._flat.tolist())
        return tuple(zip(flat, flat, flat))

    def segments(self, tolerance: float) -> List[Segment]:
        """Its chords, the path of a nose's centre. Refusals: 17, 18 where ten halvings do not reach the tolerance."""
        tolerance = number(tolerance, "tolerance")
        count = c_size_t()
        # few chords for the most part; if they do not fit, room for all that there can be
        most = 1024 * min(len(self), 256)
        for room in sorted({min(4096, most), most}):
            made = _c.doubles(5 * room)
            said = _c.segments(*_c.lent(self._flat), tolerance, *_c.lent(made), byref(count))
            if said != 18:
                break
        ask(said)
        flat = iter(made[: 5 * count.value].tolist())
        return list(map(Segment, flat, flat, flat, flat, flat))

    def __len__(self) -> int:
        return len(self._flat) // 3

    def __repr__(self) -> str:
        return f"<turning.Profile of {len(self)} points>"


def root(x: float) -> float:
    """The number nearest to the exact root of x. Refusals: 5."""
    out = c_double()
    ask(_c.root(number(x, "x"), byref(out)))
    return out.value


def length(x: float, y: float) -> float:
    """The length of (x, y). Refusals: 5."""
    out = c_double()
    ask(_c.length(number(x, "x"), number(y, "y"), byref(out)))
    return out.value
