"""What a call says where it says no: the table, and the exception."""

from __future__ import annotations

from typing import Any, Dict, Optional, Tuple

# The rows in the order in which they are judged.
REFUSALS: Dict[int, str] = {
    1: "side over 1,024, or over 4,096 samples",
    18: "motion of a practice belt beyond 24 pels",
    2: "plane, half plane handed in, class, type, model or prior list of wrong length",
    4: "type, class, flag, form, trim, elect or switch code out of range; class over 4 in a set; type 0 to fit",
    19: "empty set of classes",
    5: "slot over 5, or to price one that the type doesn't carry; reference outside 1 to 7; band that ends before it begins or behind the last block row",
    14: "start of a header to write over 7",
    7: "model off the grid, uncarried slot or pair wrong",
    8: "prior out of range",
    12: "words to store out of range or not rising",
    13: "class 4 to be stored in form 1",
    3: "output or working buffer too short",
    15: "fewer samples, or fewer of the classes named, than a trimmed fit needs",
    17: "frame number 0: the shutter was closed",
    6: "elimination refuses",
    16: "residual of a trimmed fit not finite",
    9: "bytes end before the last bit or block",
    10: "block check wrong",
    11: "block field, filler or sequence wrong",
}


class Refusal(Exception):
    """A call said no: the row's number and text ('When a call says no'). Where a list or a lent buffer has the wrong length
    (rows 2 and 3), its name, the elements that it has (given) and those that are wanted: of a buffer, at least so many.

    >>> import belt
    >>> try:
    ...     belt.write_frame(5, [0x0006FB7C], [belt.FILM], bytearray(511))
    ... except belt.Refusal as refusal:
    ...     print(refusal)
    ...     print(refusal.number, refusal.name, refusal.given, refusal.wanted)
    3: output or working buffer too short: blocks has 511 elements, 512 are wanted
    3 blocks 511 512
    """

    number: int
    text: str
    name: Optional[str]
    given: Optional[int]
    wanted: Optional[int]

    def __init__(
        self, number: int, name: Optional[str] = None, given: Optional[int] = None, wanted: Optional[int] = None
    ) -> None:
        self.number, self.text = number, REFUSALS[number]
        self.name, self.given, self.wanted = name, given, wanted
        length = "" if name is None else f": {name} has {given} elements, {wanted} are wanted"
        super().__init__(f"{number}: {self.text}{length}")

    def __reduce__(self) -> Tuple[Any, ...]:
        # an exception is made again of its message, if nothing else is said
        return type(self), (self.number, self.name, self.given, self.wanted)
