"""A stock, and lists of changes."""
import io
import operator
import os
from array import array
from collections.abc import Sequence
from contextlib import contextmanager
from ctypes import Structure, byref, c_double, c_size_t, c_uint32, c_uint64
from itertools import islice
from typing import Any, Iterable, Iterator, List, Optional, Tuple

from . import _c
from ._model import (
    Arc,
    Bin,
    Cell,
    Change,
    Cut,
    Drill,
    Line,
    Material,
    Nose,
    Polygon,
    Ring,
    Spec,
    ThreadCut,
    ThreadCutInner,
    Volume,
    spec_of,
)
from ._refused import Refused, ask, ask_at
from ._taken import SIZE_MAX, each, edition_of, generation_of, number, octets, row, rows, side_of, whole

_Two = c_double * 2


class _Told(Structure):
    """What a preview tells beside its changes."""

    _fields_ = [("count", c_size_t), ("edition", c_uint32), ("generation", c_uint64)]


_EDITION = _Told.edition.offset
_GENERATION = _Told.generation.offset
_PART = 1 << 16


class Cells(Sequence):
    """The cells of a stock, one for each bin, read only. They show the stock as it is now: a commit shows in them.

    `view()` is a memoryview of n rows of four numbers; `numpy.asarray(cells)` is an array over the same memory, read only too.
    """

    __slots__ = ("_numbers", "_n")

    def __init__(self, numbers: array, n: int):
        self._numbers = numbers
        self._n = n

    def __len__(self) -> int:
        return self._n

    def __getitem__(self, i):
        if isinstance(i, slice):
            return tuple(self[k] for k in range(*i.indices(self._n)))
        k = operator.index(i)
        if k < 0:
            k += self._n
        if not 0 <= k < self._n:
            raise IndexError("there is no bin of that index")
        return Cell(*self._numbers[4 * k : 4 * k + 4])

    def __iter__(self) -> Iterator[Cell]:
        flat = iter(self._numbers.tolist())
        return map(Cell, flat, flat, flat, flat)

    def __eq__(self, other: Any) -> bool:
        if isinstance(other, Cells):
            return self._numbers == other._numbers
        return NotImplemented

    __hash__ = None  # type: ignore[assignment]

    def view(self) -> memoryview:
        """The numbers as n rows of four, read only."""
        return memoryview(self._numbers).toreadonly().cast("B").cast("d", (self._n, 4))

    def __array__(self, dtype=None, copy=None):
        import numpy

        made = numpy.asarray(self.view())
        if copy or (dtype is not None and made.dtype != dtype):
            return numpy.array(made, dtype=dtype)
        return made

    def __repr__(self) -> str:
        return f"<turning.Cells of {self._n} bins>"


class ChangeList(Sequence):
    """Changes by rising index, with the edition and the generation of the stock that they were taken of.

    Previews make it. `ChangeList.from_records` makes it of changes that were kept, its two numbers with them.
    """

    __slots__ = ("_indices", "_records", "_edition", "_generation", "_lent")

    def __init__(self) -> None:
        raise TypeError("a list of changes is made by a preview, or by ChangeList.from_records")

    @classmethod
    def _of(cls, indices: array, records: array, edition: int, generation: int) -> "ChangeList":
        self = object.__new__(cls)
        self._indices = indices
        self._records = records
        self._edition = edition
        self._generation = generation
        start, count = indices.buffer_info()
        self._lent = (start, count, *records.buffer_info(), count, edition, generation)
        return self

    @classmethod
    def from_records(cls, changes: Iterable, *, edition: int, generation: int) -> "ChangeList":
        """The list of these changes (index, before, after). Whether they make sense is asked by the commit."""
        edition, generation = edition_of(edition), generation_of(generation)
        indices, records = array(_c.SIZE_CODE), array("d")
        for k, change in enumerate(each(changes, "changes are to be rows of index, before, after")):
            what = f"change {k} is to be an index, a cell before and a cell after"
            parts = list(islice(each(change, what), 4))
            if len(parts) != 3:
                raise ValueError(what)
            index = whole(parts[0], f"the index of change {k}", SIZE_MAX)
            numbers = row(parts[1], 4, f"the cell before change {k}") + row(parts[2], 4, f"the cell after change {k}")
            indices.append(index)
            records.extend(numbers)
        return cls._of(indices, records, edition, generation)

    @property
    def edition(self) -> int:
        return self._edition

    @property
    def generation(self) -> int:
        return self._generation

    def __len__(self) -> int:
        return len(self._indices)

    def __getitem__(self, k):
        if isinstance(k, slice):
            return tuple(self[i] for i in range(*k.indices(len(self))))
        k = operator.index(k)
        index = self._indices[k]
        if k < 0:
            k += len(self)
        numbers = self._records[8 * k : 8 * k + 8]
        return Change(index, Cell(*numbers[:4]), Cell(*numbers[4:]))

    def __eq__(self, other: Any) -> bool:
        if isinstance(other, ChangeList):
            return (
                self._indices == other._indices
                and self._records == other._records
                and (self._edition, self._generation) == (other._edition, other._generation)
            )
        return NotImplemented

    __hash__ = None  # type: ignore[assignment]

    def __reduce__(self):
        return _listed, (list(self), self._edition, self._generation)

    def __repr__(self) -> str:
        return f"<turning.ChangeList of {len(self)} changes, edition {self._edition}, generation {self._generation}>"


def _listed(changes, edition, generation):
    return ChangeList.from_records(changes, edition=edition, generation=generation)


class Stock:
    """A stock on the lathe. It owns its cells, the numbers kept beside them, and its rings. Lengths are millimetres.

    >>> stock = Stock(Spec(z_min=0, z_max=4, outer=10, cell=1), edition=3)
    >>> stock
    <turning.Stock z 0 to 4, outer 10, bore 0, 4 bins of 1, 0 rings, edition 3, generation 0>
    >>> stock.commit(stock.thread_cut(z0=1, z1=3, radius=8))
    >>> stock.cells[1]
    Cell(outer_lower=8.0, outer_upper=10.0, inner_lower=0.0, inner_upper=0.0)
    """

    def __init__(self, spec: Spec, *, edition: int = 0):
        self._empty(spec_of(spec), edition_of(edition))
        ask(_c.new(*self._changed))

    def _empty(self, spec: Spec, edition: int) -> None:
        """The memory of a stock, with nothing in it. Refusals: 1, 2."""
        n = spec.validate()
        six = spec._numbers()
        cells, blocks, rings = _c.doubles(4 * n), _c.doubles(2 * ((n + 63) // 64)), _c.doubles(4 * _c.RING_LIMIT)
        self._spec = spec
        self._n = n
        self._six = six
        self._edition = c_uint32(edition)
        self._generation = c_uint64()
        self._cells, self._blocks, self._rings = cells, blocks, rings
        self._stored = c_size_t()
        self._room: list = []
        self._lend()

    def _lend(self) -> None:
        """The first arguments of the calls, put together once: C types that stay where they are while the stock lives."""
        six, edition, generation = self._six, self._edition, self._generation
        cells, blocks, rings = _c.lent(self._cells), _c.lent(self._blocks), _c.lent(self._rings)
        self._cells_lent, self._blocks_lent, self._rings_lent = cells, blocks, rings
        self._asked = (*six, *cells)
        self._ranged = (*six, *cells, *blocks)
        self._stamped = (*six, edition, generation, *cells)
        self._changed = (*six, edition, byref(generation), *cells, *blocks)
        self._ringed = (*six, *rings, byref(self._stored), byref(generation))

    @classmethod
    def _of(cls, spec: Spec, edition: int, cells: array, rings: array, stored: int, generation: int) -> "Stock":
        """A stock of parts that a file or a job left. Refusals: 1, 2, 3, 4."""
        self = object.__new__(cls)
        self._empty(spec, edition)
        if len(cells) != len(self._cells):
            raise Refused(3)
        if stored > _c.RING_LIMIT or len(rings) < 4 * stored:
            raise Refused(4)
        self._cells[:] = cells
        self._rings[: 4 * stored] = rings[: 4 * stored]
        self._lend()
        self._stored.value = stored
        self._generation.value = generation
        ask(_c.renew(*self._ranged))
        self._line_count()
        return self

    @classmethod
    def rebuild(
        cls, spec: Spec, cells: Iterable, rings: Iterable = (), *, edition: int = 0, tests: Optional[List[int]] = None
    ) -> "Stock":
        """A stock made again of its cells and of rings that are given one after the other, overlapping or not.

        Its generation is 0: give it a new edition. A list that is handed as `tests` gets, for each ring, how many tests against stored
        rings it took. Refusals: 1, 2, 3, 10, 11.
        """
        spec, edition = spec_of(spec), edition_of(edition)
        tests = _tests(tests)
        if isinstance(cells, Cells):
            flat = array("d", cells._numbers)
        else:
            flat = rows(cells, 4, "cells", _c.CELL_LIMIT)
        given = rows(rings, 4, "rings")
        self = object.__new__(cls)
        self._empty(spec, edition)
        if len(flat) != len(self._cells):
            raise Refused(3)
        room, place = _c.sizes(len(given) // 4 if tests is not None else 0), c_size_t()
        number_ = _c.from_parts(
            *self._six,
            edition,
            byref(self._generation),
            *_c.lent(flat),
            *self._blocks_lent,
            *_c.lent(given),
            *self._rings_lent,
            byref(self._stored),
            *_c.lent(room),
            byref(place),
        )
        ask_at(number_, place.value)
        self._cells = flat
        self._lend()
        if tests is not None:
            tests[:] = room.tolist()
        return self

    def copy(self) -> "Stock":
        """Another stock that holds the same, at the same generation."""
        return type(self)._of(self._spec, self.edition, self._cells[:], self._rings[:], self._stored.value, self._generation.value)

    def __copy__(self) -> "Stock":
        return self.copy()

    def __deepcopy__(self, _) -> "Stock":
        return self.copy()

    def __reduce__(self):
        return _unpickled, (self.to_bytes(), self._spec.max_cells, self._generation.value)

    # ---- what it holds

    @property
    def spec(self) -> Spec:
        return self._spec

    @property
    def edition(self) -> int:
        """Which wheel it is: the owner's own number. Another may be set, so that no list from before matches."""
        return self._edition.value

    @edition.setter
    def edition(self, edition: int) -> None:
        self._edition.value = edition_of(edition)

    @property
    def generation(self) -> int:
        """How often it was changed."""
        return self._generation.value

    @property
    def cells(self) -> Cells:
        return Cells(self._cells, self._n)

    @property
    def rings(self) -> Tuple[Ring, ...]:
        """The stored rings. No two overlap."""
        flat = iter(self._rings[: 4 * self._stored.value].tolist())
        return tuple(map(Ring, flat, flat, flat, flat))

    @property
    def blocks(self) -> Tuple[Tuple[float, float], ...]:
        """The kept numbers of each 64 bins: the greatest outer upper bound, the least inner lower bound."""
        flat = iter(self._blocks.tolist())
        return tuple(zip(flat, flat))

    def __len__(self) -> int:
        return self._n

    def bin(self, i: int) -> Tuple[float, float]:
        """Where bin i starts and ends. Refusals: 21."""
        return self._spec.bin(i)

    def bins(self) -> Iterator[Bin]:
        """The bins in order, each with its z range and its cell."""
        for i, cell in enumerate(self.cells):
            z0, z1 = self._spec.bin(i)
            yield Bin(i, z0, z1, cell)

    def __iter__(self) -> Iterator[Bin]:
        return self.bins()

    def __eq__(self, other: Any) -> bool:
        if isinstance(other, Stock):
            return (
                self._spec == other._spec
                and (self.edition, self.generation) == (other.edition, other.generation)
                and self._cells == other._cells
                and self.rings == other.rings
            )
        return NotImplemented

    __hash__ = None  # type: ignore[assignment]

    def __repr__(self) -> str:
        s = self._spec
        return (
            f"<turning.Stock z {s.z_min:g} to {s.z_max:g}, outer {s.outer:g}, bore {s.bore:g}, {self._n} bins of {s.cell:g}, "
            f"{self._stored.value} rings, edition {self.edition}, generation {self.generation}>"
        )

    # ---- previews

    def _previewed(self, call, *arguments) -> ChangeList:
        """Asks a call for changes, with room for one of every bin. Room that a preview has done with is used again."""
        try:
            room = self._room.pop()
        except IndexError:
            indices, records, told = _c.sizes(self._n), _c.doubles(8 * self._n), _Told()
            outs = (byref(told), byref(told, _EDITION), byref(told, _GENERATION))
            room = (indices, records, told, (*_c.lent(indices), *_c.lent(records), *outs))
        indices, records, told, lent = room
        refused = call(*self._stamped, *arguments, *lent)
        if refused:
            self._room.append(room)
            raise Refused(refused)
        k = told.count
        made = ChangeList._of(indices[:k], records[: 8 * k], told.edition, told.generation)
        self._room.append(room)
        return made

    def preview(self, cut: Cut) -> ChangeList:
        """What a cut would change; the stock stays. Refusals: 13, 5."""
        if isinstance(cut, Line):
            return self.line(a=cut.a, b=cut.b, rn=cut.rn, side=cut.side, sag=cut.sag)
        if isinstance(cut, Nose):
            return self.nose(cut.segments, rn=cut.rn, side=cut.side)
        if isinstance(cut, Polygon):
            return self.preview_polygon(cut.points, side=cut.side, excess=cut.excess)
        if isinstance(cut, ThreadCut):
            return self.thread_cut(z0=cut.z0, z1=cut.z1, radius=cut.radius)
        if isinstance(cut, ThreadCutInner):
            return self.thread_cut_inner(z0=cut.z0, z1=cut.z1, radius=cut.radius)
        if isinstance(cut, Drill):
            return self.drill(tip_z=cut.tip_z, radius=cut.radius, cone=cut.cone)
        if isinstance(cut, Arc):
            raise Refused(13)
        raise TypeError(f"cut is to be a Line, Nose, Polygon, ThreadCut, ThreadCutInner, Drill or Arc, not {type(cut).__name__}")

    def line(self, *, a, b, rn: float, side: str = "outer", sag: float = 0.0) -> ChangeList:
        """A round nose whose centre runs straight from a to b, each a radius and a z. Refusals: 5."""
        segment = array("d", row(a, 2, "a") + row(b, 2, "b") + [number(sag, "sag")])
        return self._previewed(_c.preview, side_of(side), number(rn, "rn"), *_c.lent(segment))

    def nose(self, segments: Iterable, *, rn: float, side: str = "outer") -> ChangeList:
        """A round nose along segments (a_r, a_z, b_r, b_z, sag), 4,096 at most. Refusals: 5."""
        flat = rows(segments, 5, "segments", 4096)
        return self._previewed(_c.preview, side_of(side), number(rn, "rn"), *_c.lent(flat))

    def preview_polygon(self, points: Iterable, *, side: str = "outer", excess: float = 0.0) -> ChangeList:
        """A convex polygon of points (z, radius), 64 at most. Refusals: 5."""
        flat = rows(points, 2, "points", 64)
        return self._previewed(_c.preview_polygon, side_of(side), number(excess, "excess"), *_c.lent(flat))

    def thread_cut(self, *, z0: float, z1: float, radius: float) -> ChangeList:
        """A thread from outside between z0 and z1, in either order. Refusals: 5."""
        return self._previewed(_c.thread_cut, number(z0, "z0"), number(z1, "z1"), number(radius, "radius"))

    def thread_cut_inner(self, *, z0: float, z1: float, radius: float) -> ChangeList:
        """A thread from inside. Refusals: 5."""
        return self._previewed(_c.thread_cut_inner, number(z0, "z0"), number(z1, "z1"), number(radius, "radius"))

    def drill(self, *, tip_z: float, radius: float, cone: float = 0.0) -> ChangeList:
        """A drill that enters at z_max. Refusals: 5."""
        return self._previewed(_c.drill, number(tip_z, "tip_z"), number(radius, "radius"), number(cone, "cone"))

    # ---- changes

    def commit(self, changes: ChangeList) -> None:
        """Makes the changes of a list. Refusals: 19, 7, 8/21/22/23, 12."""
        if not isinstance(changes, ChangeList):
            raise TypeError(f"changes are to be a turning.ChangeList, not {type(changes).__name__}")
        place = c_size_t()
        number_ = _c.apply(*self._changed, *changes._lent, byref(place))
        if number_:
            ask_at(number_, place.value)

    def remove_ring(self, z0: float, z1: float, r0: float, r1: float) -> int:
        """Takes one ring out, and tells how many tests against stored rings that took. Refusals: 10, 12, 11."""
        edges = number(z0, "z0"), number(z1, "z1"), number(r0, "r0"), number(r1, "r1")
        tests, place = c_size_t(), c_size_t()
        number_ = _c.remove_ring(*self._ringed, *edges, byref(tests), byref(place))
        if number_:
            ask_at(number_, place.value)
        return tests.value

    def apply_move(self, changes: ChangeList, rings: Iterable = ()) -> List[int]:
        """Changes and rings in one, decided whole. Tells for each ring how many tests against stored rings it took.

        Refusals: 19, 10, 7, 8/21/22/23, 12, 11.
        """
        if not isinstance(changes, ChangeList):
            raise TypeError(f"changes are to be a turning.ChangeList, not {type(changes).__name__}")
        removed = rows(rings, 4, "rings")
        tests, place = _c.sizes(len(removed) // 4), c_size_t()
        number_ = _c.apply_move(
            *self._changed,
            *self._rings_lent,
            byref(self._stored),
            *changes._lent,
            *_c.lent(removed),
            *_c.lent(tests),
            byref(place),
        )
        ask_at(number_, place.value)
        return tests.tolist()

    def difference(self, after: "Stock") -> ChangeList:
        """The changes that make the cells of `after` of these. Refusals: 24, where the two are not of one bar."""
        if not isinstance(after, Stock):
            raise TypeError(f"after is to be a turning.Stock, not {type(after).__name__}")
        if self._spec._bar() != after._spec._bar():
            raise Refused(24)
        return self._previewed(_c.changes_to, *after._cells_lent)

    # ---- queries

    def volume(self) -> Volume:
        """The least and the greatest volume that remains, without the rings."""
        out = _Two()
        ask(_c.volume(*self._asked, *self._rings_lent, self._stored, byref(out), byref(out, 8)))
        return Volume(*out)

    def envelope_at(self, z: float) -> Optional[Material]:
        """The most material that may remain at z, or None."""
        found, out = c_uint32(), _Two()
        ask(_c.envelope_at(*self._asked, number(z, "z"), byref(found), byref(out), byref(out, 8)))
        return Material(*out) if found.value else None

    def range(self, lo: float, hi: float) -> Optional[Material]:
        """The most material that may remain from lo to hi, or None."""
        found, out = c_uint32(), _Two()
        ask(_c.range_(*self._ranged, number(lo, "lo"), number(hi, "hi"), byref(found), byref(out), byref(out, 8)))
        return Material(*out) if found.value else None

    # ---- files

    def _line_count(self) -> int:
        lines = c_size_t()
        ask(_c.stock_lines(*self._asked, *self._rings_lent, self._stored, byref(lines)))
        return lines.value

    def _lines(self) -> Iterator[bytes]:
        """The lines of its file."""
        line, length = array("B", bytes(128)), c_size_t()
        start, _ = _c.lent(line)
        for k in range(self._line_count()):
            ask(
                _c.stock_line(
                    *self._six, self._edition, *self._cells_lent, *self._rings_lent, self._stored, k, start, byref(length)
                )
            )
            yield line[: length.value].tobytes()

    def to_bytes(self) -> bytes:
        """Its stock file."""
        return b"".join(self._lines())

    def write(self, file: Any) -> None:
        """Writes its stock file, to a path or to a file that takes bytes.

        Of a path the old file is there, or the whole new one: it is written under the name with `.new` behind it and then renamed.
        """
        text = self.to_bytes()
        if hasattr(file, "write"):
            file.write(text)
            return
        path = _path(file)
        new = path + (b".new" if isinstance(path, bytes) else ".new")
        with open(new, "wb") as out:
            out.write(text)
            out.flush()
            os.fsync(out.fileno())
        os.replace(new, path)

    @classmethod
    def read(cls, file: Any, *, max_cells: int = _c.CELL_LIMIT) -> "Stock":
        """Reads a stock file, from a path or from a file that gives bytes. The stock is at generation 0.

        Refusals: 16 with its line, 1, 2, 3, 4.
        """
        max_cells = whole(max_cells, "max_cells", SIZE_MAX)
        if hasattr(file, "read"):
            return cls._read(file, max_cells)
        with open(_path(file), "rb") as opened:
            return cls._read(opened, max_cells)

    @classmethod
    def from_bytes(cls, text: bytes, *, max_cells: int = _c.CELL_LIMIT) -> "Stock":
        """The stock of a stock file that is in memory. Refusals: 16 with its line, 1, 2, 3, 4."""
        return cls._read(io.BytesIO(octets(text, "text")), whole(max_cells, "max_cells", SIZE_MAX))

    @classmethod
    def _read(cls, file: Any, max_cells: int) -> "Stock":
        state, bar, line = array("Q", bytes(64)), _c.doubles(5), array("B", bytes(128))
        cells, rings = _c.doubles(4 * _c.CELL_LIMIT), _c.doubles(4 * _c.RING_LIMIT)
        # room for every stock that is accepted: more cells are refused with 2, more rings with 4
        room = (*_c.lent(cells), *_c.lent(rings))
        words, numbers, held = _c.lent(state)[0], _c.lent(bar)[0], _c.lent(line)[0]
        while True:
            part = file.read(_PART)
            if not part:
                break
            part = octets(part, "what is read of the file")
            if _c.read_part(words, numbers, *room, held, part, len(part)):
                break
        n, stored, edition, at = c_size_t(), c_size_t(), c_uint32(), c_size_t()
        number_ = _c.read_end(words, numbers, max_cells, *room, byref(n), byref(stored), byref(edition), byref(at))
        ask_at(number_, at.value)
        spec = Spec(*bar.tolist(), max_cells)
        return cls._of(spec, edition.value, cells[: 4 * n.value], rings, stored.value, 0)


def _unpickled(text: bytes, max_cells: int, generation: int) -> Stock:
    stock = Stock.from_bytes(text, max_cells=max_cells)
    stock._generation.value = generation_of(generation)
    return stock


def _tests(tests: Any) -> Optional[list]:
    if tests is not None and not isinstance(tests, list):
        raise TypeError(f"tests is to be a list, not {type(tests).__name__}")
    return tests


def _path(file: Any):
    if isinstance(file, (int, float)):
        raise TypeError(f"file is to be a path or a file, not {type(file).__name__}")
    try:
        return os.fspath(file)
    except TypeError:
        raise TypeError(f"file is to be a path or a file, not {type(file).__name__}") from None


@contextmanager
def open_stock(path: Any, *, keep: bool = False, max_cells: int = _c.CELL_LIMIT) -> Iterator[Stock]:
    """The stock of a stock file, for a `with` block. With keep=True it is written back where the block ends without an exception.

    with turning.open_stock("tonight.stock", keep=True) as stock:
        stock.commit(stock.drill(tip_z=-5, radius=5, cone=3))
    """
    if not isinstance(keep, bool):
        raise TypeError(f"keep is to be True or False, not {type(keep).__name__}")
    path = _path(path)
    stock = Stock.read(path, max_cells=max_cells)
    yield stock
    if keep:
        stock.write(path)
