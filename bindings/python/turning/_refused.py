"""Why a call was refused."""
from typing import Optional

_WORDS = {
    1: "a number of the spec is outside the rules",
    2: "there is no bin, or there are more than max_cells or than the library takes",
    3: "the cells are not one for each bin, or one does not fit",
    4: "the stored rings are more than the room, or one does not fit, or two overlap",
    5: "an argument of a cut, a root or a length is outside its domain, or there are over 4,096 segments or 64 points",
    6: "there are more changes than room",
    7: "the indices of the changes do not strictly rise",
    8: "the cell after the change does not fit",
    10: "the ring is not finite, or is empty in a list",
    11: "over 256 pieces are in hand while a ring is cut, or there is no room for the rings",
    12: "the generation would pass 2^64 - 1",
    13: "an arc is no cut",
    14: "the points, the query, the insert or the tolerance of an envelope are outside the domain",
    15: "the line of the job is malformed, unfinished or missing",
    16: "the line of the stock file is not of its form, or is missing",
    17: "the points or the tolerance of a profile are outside the domain, or there are over 256 points",
    18: "ten halvings of an arc do not reach the tolerance, or there are more chords than room",
    19: "the list is of another edition or of another generation than the stock",
    20: "the kept numbers are not those of the cells",
    21: "there is no bin of that index",
    22: "the bin does not hold the cell before the change",
    23: "the change adds material",
    24: "the two stocks are not of one bar",
    25: "there are over 128 cuts, an inside cut is among them, or the targets are outside the domain",
}

# What the place of a number counts.
_COUNTED = {7: "change", 8: "change", 10: "ring", 16: "line", 21: "change", 22: "change", 23: "change"}


class Refused(Exception):
    """A call was refused, and changed nothing.

    `number` is that of docs/RULES.md. `place` is the change or the ring of a list, from 0, or the line of a file or of a job, from 1;
    None where the number has none. The text is a sentence.
    """

    number: int
    place: Optional[int]

    def __init__(self, number: int, place: Optional[int] = None, *, job: bool = False):
        super().__init__(number, place)
        self.number = number
        self.place = place
        self.job = job

    def __str__(self) -> str:
        said = f"refused with {self.number}"
        if self.place is not None:
            counted = "line" if self.job else _COUNTED.get(self.number, "place")
            said += f" at {counted} {self.place}"
            if self.job:
                said += " of the job"
        words = _WORDS.get(self.number, "the library gave a number that this package does not know")
        return f"{said}: {words}"

    def __repr__(self) -> str:
        return f"Refused({self.number!r}, {self.place!r})"

    def __reduce__(self):
        return _made, (self.number, self.place, self.job)


def _made(number, place, job):
    return Refused(number, place, job=job)


def ask(number: int) -> None:
    """Raises the refusal of a call that tells no place."""
    if number:
        raise Refused(number)


def ask_at(number: int, place: int) -> None:
    """Raises the refusal of a call that tells the place of some numbers."""
    if number:
        raise Refused(number, place if number in _COUNTED else None)
