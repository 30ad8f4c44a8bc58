"""A model of the stock on a lathe, proved: the Python package over libturning.

A bar lies along z and is parted into bins. Each bin has a cell: bounds on its outer radius and on the radius of its bore. A preview
says which cells a cut would change, and `Stock.commit` makes the changes. All lengths are millimetres. Every rule is the library's;
this package lends memory and turns numbers into types. A refused call raises `Refused` and has changed nothing.
"""
from ._c import CELL_LIMIT, RING_LIMIT
from ._envelope import Envelope, Profile, length, root
from ._job import Job
from ._model import (
    Arc,
    Bin,
    Cell,
    Change,
    Cut,
    Drill,
    Line,
    Material,
    Nose,
    Polygon,
    Ring,
    Segment,
    Spec,
    Target,
    ThreadCut,
    ThreadCutInner,
    Volume,
)
from ._passes import PASS_LIMIT, Verdict, check_passes, propose_passes
from ._refused import Refused
from ._stock import Cells, ChangeList, Stock, open_stock

Refused.__module__ = "turning"

__all__ = [
    "Arc",
    "Bin",
    "CELL_LIMIT",
    "Cell",
    "Cells",
    "Change",
    "ChangeList",
    "Cut",
    "Drill",
    "Envelope",
    "Job",
    "Line",
    "Material",
    "Nose",
    "PASS_LIMIT",
    "Polygon",
    "Profile",
    "RING_LIMIT",
    "Refused",
    "Ring",
    "Segment",
    "Spec",
    "Stock",
    "Target",
    "ThreadCut",
    "ThreadCutInner",
    "Verdict",
    "Volume",
    "check_passes",
    "length",
    "open_stock",
    "propose_passes",
    "root",
]
