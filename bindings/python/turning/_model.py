"""What a stock is made of: spec, cells, rings, segments, cuts."""
from ctypes import byref, c_double, c_size_t
from dataclasses import dataclass
from typing import Iterable, NamedTuple, Tuple, Union

from . import _c
from ._refused import ask
from ._taken import SIZE_MAX, number, whole


class Cell(NamedTuple):
    """What is known of one bin: bounds on its outer radius and on the radius of its bore."""

    outer_lower: float
    outer_upper: float
    inner_lower: float
    inner_upper: float


class Bin(NamedTuple):
    """A bin with its place along z."""

    index: int
    z0: float
    z1: float
    cell: Cell


class Ring(NamedTuple):
    """A hole that a cell cannot hold: z0 to z1, from radius r0 to r1."""

    z0: float
    z1: float
    r0: float
    r1: float


class Change(NamedTuple):
    """A bin, what it holds, and what it shall hold."""

    index: int
    before: Cell
    after: Cell


class Segment(NamedTuple):
    """A straight part of the path of a nose's centre: a radius and a z of each end, and how far the real path leaves it."""

    a_r: float
    a_z: float
    b_r: float
    b_z: float
    sag: float = 0.0


class Target(NamedTuple):
    """The two radii between which the outside of a bin is to end."""

    lower: float
    upper: float


class Material(NamedTuple):
    """The most material that may remain: the least bore and the greatest outer radius."""

    bore_lower: float
    outer_upper: float


class Volume(NamedTuple):
    """The bounds of a volume in cubic millimetres."""

    least: float
    greatest: float


@dataclass(frozen=True)
class Line:
    """A round nose of radius rn whose centre runs straight from a to b, each a radius and a z."""

    a: Tuple[float, float]
    b: Tuple[float, float]
    rn: float
    side: str = "outer"
    sag: float = 0.0


@dataclass(frozen=True)
class Nose:
    """A round nose of radius rn whose centre runs along segments, 4,096 at most."""

    segments: Iterable
    rn: float
    side: str = "outer"


@dataclass(frozen=True)
class Polygon:
    """A convex polygon that an insert sweeps: points of a z and a radius, 64 at most, in order around it."""

    points: Iterable
    side: str = "outer"
    excess: float = 0.0


@dataclass(frozen=True)
class ThreadCut:
    """A thread from outside between z0 and z1, in either order, down to its root."""

    z0: float
    z1: float
    radius: float


@dataclass(frozen=True)
class ThreadCutInner:
    """A thread from inside."""

    z0: float
    z1: float
    radius: float


@dataclass(frozen=True)
class Drill:
    """A drill that enters at z_max and whose tip stands at tip_z; its point is cone long."""

    tip_z: float
    radius: float
    cone: float = 0.0


@dataclass(frozen=True)
class Arc:
    """An arc, which is no cut: it is refused with 13. `Profile.segments` makes chords of it."""


Cut = Union[Line, Nose, Polygon, ThreadCut, ThreadCutInner, Drill, Arc]


@dataclass(frozen=True)
class Spec:
    """The bar that a stock is cut from, in millimetres.

    `max_cells` is the owner's own limit on the number of bins.
    """

    z_min: float
    z_max: float
    outer: float
    bore: float = 0.0
    cell: float = 1.0
    max_cells: int = _c.CELL_LIMIT

    def __post_init__(self) -> None:
        for name in ("z_min", "z_max", "outer", "bore", "cell"):
            object.__setattr__(self, name, number(getattr(self, name), name))
        object.__setattr__(self, "max_cells", whole(self.max_cells, "max_cells", SIZE_MAX))

    def _numbers(self) -> tuple:
        """The six numbers as C takes them."""
        return (
            c_double(self.z_min),
            c_double(self.z_max),
            c_double(self.outer),
            c_double(self.bore),
            c_double(self.cell),
            c_size_t(self.max_cells),
        )

    def _bar(self) -> tuple:
        return (self.z_min, self.z_max, self.outer, self.bore, self.cell)

    def validate(self) -> int:
        """The number of bins. Refusals: 1, 2."""
        n = c_size_t()
        ask(_c.validate(*self._numbers(), byref(n)))
        return n.value

    def bin(self, i: int) -> Tuple[float, float]:
        """Where bin i starts and ends. Refusals: 1, 2, 21."""
        i = whole(i, "i", SIZE_MAX)
        za, zb = c_double(), c_double()
        ask(_c.bin(*self._numbers(), i, byref(za), byref(zb)))
        return za.value, zb.value


def spec_of(spec) -> Spec:
    if not isinstance(spec, Spec):
        raise TypeError(f"spec is to be a turning.Spec, not {type(spec).__name__}")
    return spec
