"""Jobs: lines of text that make a bar and cut it."""
from array import array
from ctypes import byref, c_size_t, c_uint64
from typing import Any, Optional

from . import _c
from ._model import Spec
from ._refused import Refused
from ._stock import Stock
from ._taken import edition_of, octets

_CELLS = 512
_RINGS = 64
_MAX_CELLS, _CELL_COUNT, _RING_COUNT, _GENERATION, _EDITION = 0, 1, 2, 3, 7


class Job:
    """A job whose bytes come in parts, cut anywhere (docs/JOB.md).

    >>> job = Job()
    >>> _ = job.write(b"bar\\t0\\t12000\\t30000\\t0\\t1000\\n")
    >>> _ = job.write(b"arc\\n")
    >>> job.finish()
    Traceback (most recent call last):
    turning.Refused: refused with 13 at line 2 of the job: an arc is no cut
    """

    def __init__(self, *, edition: int = 0, on: Optional[Stock] = None):
        """With `on` the job goes on with a stock, under its edition, and has no bar. Refusals: 2 over 512 cells, 4 over 64 rings."""
        state = array("Q", bytes(64))
        bar, cells, rings, line = _c.doubles(5), _c.doubles(4 * _CELLS), _c.doubles(4 * _RINGS), array("B", bytes(128))
        state[_EDITION] = edition_of(edition)
        if on is not None:
            if not isinstance(on, Stock):
                raise TypeError(f"on is to be a turning.Stock, not {type(on).__name__}")
            stored = on._stored.value
            if len(on) > _CELLS:
                raise Refused(2)
            if stored > _RINGS:
                raise Refused(4)
            state[_MAX_CELLS], state[_CELL_COUNT], state[_RING_COUNT], state[_EDITION] = _CELLS, len(on), stored, on.edition
            bar[:] = array("d", on.spec._bar())
            cells[: 4 * len(on)] = on._cells
            rings[: 4 * stored] = on._rings[: 4 * stored]
        self._state, self._bar, self._cells, self._rings, self._line = state, bar, cells, rings, line
        self._lent = tuple(_c.lent(part)[0] for part in (state, bar, cells, rings, line))

    def write(self, part: bytes) -> int:
        """Takes some bytes more. Each whole line is carried out, to the first that is refused, which `finish` tells."""
        part = octets(part, "the parts of a job")
        _c.job_take(*self._lent, part, len(part))
        return len(part)

    def finish(self) -> Stock:
        """The stock that the job leaves if its input ended here. More may be written afterwards.

        Refusals: that of the first refused line, with its number from 1.
        """
        line = c_uint64()
        said = _c.job_finish(self._lent[0], byref(line))
        if said:
            raise Refused(said, line.value, job=True)
        state = self._state
        n, stored = state[_CELL_COUNT], state[_RING_COUNT]
        spec = Spec(*self._bar.tolist(), max_cells=state[_MAX_CELLS])
        return Stock._of(spec, state[_EDITION] & 0xFFFFFFFF, self._cells[: 4 * n], self._rings, stored, state[_GENERATION])

    def output(self) -> bytes:
        """What the job program would write if the input ended here: cells, rings and generation, or the one refusal."""
        state, _, cells, rings, _ = self._lent
        line, length = array("B", bytes(128)), c_size_t()
        start, _ = _c.lent(line)
        lines = []
        for k in range(_CELLS + _RINGS + 2):
            _c.job_output(state, cells, rings, k, start, byref(length))
            if not length.value:
                break
            lines.append(line[: length.value].tobytes())
        return b"".join(lines)

    def __repr__(self) -> str:
        return f"<turning.Job of {self._state[4]} lines, edition {self._state[_EDITION]}>"
