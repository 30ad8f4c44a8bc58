"""The calls of include/turning.h, by ctypes. Nothing else in the package names a C function.

TURNING_SO names the shared library; without it, it is libturning.so beside this file, which `build-library` makes. The library holds
the interpreter's lock while a call runs (`PyDLL`), so that no other thread changes memory that a call is lent.
"""
import ctypes
import os
from array import array
from ctypes import c_double, c_size_t, c_uint32, c_uint64, c_void_p

# The number of the header that the package is written for.
HEADER = 7

CELL_LIMIT = 16_384
RING_LIMIT = 256
SIZE_MAX = 2 ** (8 * ctypes.sizeof(c_size_t)) - 1

# The code of `array` for numbers of the width of size_t.
SIZE_CODE = next(code for code in "QLI" if array(code).itemsize == ctypes.sizeof(c_size_t))


def _path():
    named = os.environ.get("TURNING_SO")
    return named or os.path.join(os.path.dirname(os.path.abspath(__file__)), "libturning.so")


def _load():
    path = _path()
    if not os.path.isfile(path):
        raise ImportError(f"there is no {path}: make it with bindings/python/build-library, or name another in TURNING_SO")
    try:
        library = ctypes.PyDLL(path)
        header = library.turning_header
    except (OSError, AttributeError) as error:
        raise ImportError(f"{path} is no library of the turning stock: {error}") from None
    header.restype = c_uint32
    header.argtypes = []
    found = header()
    if found != HEADER:
        raise ImportError(
            f"{path} is of header {found}, and this package is written for header {HEADER}: "
            "take the library and the package from one checkout"
        )
    return library


_library = _load()
_SPEC = [c_double] * 5 + [c_size_t]
_OUT = c_void_p
_LIST = [c_void_p, c_size_t]


def _call(name, *types):
    function = getattr(_library, "turning_" + name)
    function.restype = c_uint32
    function.argtypes = list(types)
    return function


_CELLS = _LIST
_BLOCKS = _LIST
_STAMP = [c_uint32, c_uint64]
_STOCK = [c_uint32, _OUT]
_CHANGES_OUT = _LIST + _LIST + [_OUT, _OUT, _OUT]
_CHANGES_IN = _LIST + _LIST + [c_size_t, c_uint32, c_uint64]

header = _call("header")
root = _call("root", c_double, _OUT)
length = _call("length", c_double, c_double, _OUT)
validate = _call("validate", *_SPEC, _OUT)
bin = _call("bin", *_SPEC, c_size_t, _OUT, _OUT)
new = _call("new", *_SPEC, *_STOCK, *_CELLS, *_BLOCKS)
renew = _call("renew", *_SPEC, *_CELLS, *_BLOCKS)
preview = _call("preview", *_SPEC, *_STAMP, *_CELLS, c_uint32, c_double, *_LIST, *_CHANGES_OUT)
preview_polygon = _call("preview_polygon", *_SPEC, *_STAMP, *_CELLS, c_uint32, c_double, *_LIST, *_CHANGES_OUT)
thread_cut = _call("thread_cut", *_SPEC, *_STAMP, *_CELLS, c_double, c_double, c_double, *_CHANGES_OUT)
thread_cut_inner = _call("thread_cut_inner", *_SPEC, *_STAMP, *_CELLS, c_double, c_double, c_double, *_CHANGES_OUT)
drill = _call("drill", *_SPEC, *_STAMP, *_CELLS, c_double, c_double, c_double, *_CHANGES_OUT)
apply = _call("apply", *_SPEC, *_STOCK, *_CELLS, *_BLOCKS, *_CHANGES_IN, _OUT)
changes_to = _call("changes_to", *_SPEC, *_STAMP, *_CELLS, *_LIST, *_CHANGES_OUT)
volume = _call("volume", *_SPEC, *_CELLS, *_LIST, c_size_t, _OUT, _OUT)
envelope_at = _call("envelope_at", *_SPEC, *_CELLS, c_double, _OUT, _OUT, _OUT)
range_ = _call("range", *_SPEC, *_CELLS, *_BLOCKS, c_double, c_double, _OUT, _OUT, _OUT)
check_passes = _call(
    "check_passes", *_SPEC, *_STAMP, *_CELLS, *_BLOCKS, *_LIST, *_LIST, *_LIST, *_LIST, *_LIST, *_LIST, *_LIST, _OUT, _OUT, _OUT, _OUT
)
propose_passes = _call("propose_passes", *_SPEC, *_CELLS, *_LIST, c_double, *_LIST, *_LIST, *_LIST, _OUT)
envelope_order = _call("envelope_order", *_LIST, _OUT)
within = _call("within", *_LIST, c_double, c_double, _OUT, _OUT)
radius_at = _call("radius_at", *_LIST, c_double, _OUT, _OUT)
radius_range = _call("radius_range", *_LIST, c_double, c_double, _OUT, _OUT, _OUT)
job_take = _call("job_take", _OUT, _OUT, _OUT, _OUT, _OUT, *_LIST)
job_finish = _call("job_finish", _OUT, _OUT)
job_output = _call("job_output", _OUT, _OUT, _OUT, c_size_t, _OUT, _OUT)
stock_lines = _call("stock_lines", *_SPEC, *_CELLS, *_LIST, c_size_t, _OUT)
stock_line = _call("stock_line", *_SPEC, c_uint32, *_CELLS, *_LIST, c_size_t, c_size_t, _OUT, _OUT)
read_part = _call("read_part", _OUT, _OUT, *_LIST, *_LIST, _OUT, *_LIST)
read_end = _call("read_end", _OUT, _OUT, c_size_t, *_LIST, *_LIST, _OUT, _OUT, _OUT, _OUT)
segments = _call("segments", *_LIST, c_double, *_LIST, _OUT)
excess = _call("excess", *_LIST, *_LIST, c_double, _OUT, _OUT)
penetration = _call("penetration", *_LIST, *_LIST, c_double, _OUT, _OUT)
eroded = _call("eroded", *_LIST, c_double, c_double, _OUT, _OUT)

# Since header 7: what the rings cost is told in `tests`, directly before `position`.
remove_ring = _call("remove_ring", *_SPEC, *_LIST, _OUT, _OUT, c_double, c_double, c_double, c_double, _OUT, _OUT)
apply_move = _call("apply_move", *_SPEC, *_STOCK, *_CELLS, *_BLOCKS, *_LIST, _OUT, *_CHANGES_IN, *_LIST, *_LIST, _OUT)
from_parts = _call("from_parts", *_SPEC, *_STOCK, *_CELLS, *_BLOCKS, *_LIST, *_LIST, _OUT, *_LIST, _OUT)


def doubles(count):
    """Room for so many numbers, all 0."""
    return array("d", bytes(8 * count))


def sizes(count):
    """Room for so many sizes, all 0."""
    return array(SIZE_CODE, bytes(count * array(SIZE_CODE).itemsize))


def lent(numbers):
    """Where an array starts, and its length. An array of the package is never made longer, so it stays where it is."""
    start, count = numbers.buffer_info()
    return c_void_p(start), count
