"""What a caller hands over, checked before C sees it: wrong types are a TypeError, wrong lengths and sizes a ValueError."""
import operator
from array import array
from itertools import islice
from typing import Any, Iterable, Iterator, Optional

from . import _c


def number(x: Any, name: str) -> float:
    """A number, of whatever type that has one."""
    if type(x) is float:
        return x
    kind = type(x)
    if not (hasattr(kind, "__float__") or hasattr(kind, "__index__")):
        raise TypeError(f"{name} is to be a number, not {kind.__name__}")
    try:
        return float(x)
    except OverflowError:
        raise ValueError(f"{name} is too large for a number") from None
    except TypeError:
        raise TypeError(f"{name} is to be a number, not {kind.__name__}") from None


def whole(x: Any, name: str, most: int) -> int:
    """A whole number from 0 to `most`."""
    try:
        n = operator.index(x)
    except TypeError:
        raise TypeError(f"{name} is to be a whole number, not {type(x).__name__}") from None
    if not 0 <= n <= most:
        raise ValueError(f"{name} is to be from 0 to {most}, not {n}")
    return n


def edition_of(x: Any) -> int:
    return whole(x, "edition", 2**32 - 1)


def generation_of(x: Any) -> int:
    return whole(x, "generation", 2**64 - 1)


def side_of(side: Any) -> int:
    """0 for "outer", 1 for "inner"."""
    if side == "outer" and isinstance(side, str):
        return 0
    if side == "inner" and isinstance(side, str):
        return 1
    if isinstance(side, str):
        raise ValueError(f'side is to be "outer" or "inner", not {side!r}')
    raise TypeError(f'side is to be "outer" or "inner", not {type(side).__name__}')


def _text(x: Any) -> bool:
    return isinstance(x, (str, bytes, bytearray))


def each(items: Any, what: str) -> Iterator:
    """The items of a list; text, a dict and a view with rows are none."""
    if not (_text(items) or isinstance(items, dict) or (isinstance(items, memoryview) and items.ndim != 1)):
        try:
            return iter(items)
        except TypeError:
            pass
    raise TypeError(f"{what}, not {type(items).__name__}")


def row(x: Any, width: int, name: str) -> list:
    """So many numbers."""
    values = list(islice(each(x, f"{name} is to be {width} numbers"), width + 1))
    if len(values) != width:
        raise ValueError(f"{name} is to be {width} numbers, not {'more' if len(values) > width else len(values)}")
    return [number(v, f"a number of {name}") for v in values]


def rows(items: Iterable, width: int, name: str, most: Optional[int] = None) -> array:
    """Rows of so many numbers, flat. Of more than the most one more is taken, which the call then refuses."""
    flat = _buffer(items, width)
    if flat is not None:
        return flat
    if isinstance(items, memoryview) and items.ndim != 1:
        raise ValueError(f"{name} are to be rows of {width} numbers, not a view of shape {items.shape} and format {items.format}")
    it = each(items, f"{name} are to be rows of {width} numbers")
    flat = array("d")
    for k, item in enumerate(it if most is None else islice(it, most + 1)):
        flat.extend(row(item, width, f"row {k} of {name}"))
    return flat


def _buffer(items: Any, width: int) -> Optional[array]:
    """The numbers of an array of doubles with such rows, as numpy has them; None for anything else."""
    if isinstance(items, (list, tuple)) or _text(items):
        return None
    try:
        view = memoryview(items)
    except TypeError:
        return None
    if view.ndim != 2 or view.shape[1] != width or view.format not in ("d", "<d", "=d", "@d") or not view.c_contiguous:
        return None
    flat = array("d")
    flat.frombytes(view.tobytes())
    return flat


def octets(x: Any, name: str) -> bytes:
    """Bytes."""
    if isinstance(x, bytes):
        return x
    if isinstance(x, (bytearray, memoryview)):
        return bytes(x)
    raise TypeError(f"{name} are to be bytes, not {type(x).__name__}")


SIZE_MAX = _c.SIZE_MAX
