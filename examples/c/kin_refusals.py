"""Why a call isn't carried out: a class for each status of kin.h but KIN_OK, in their order. kin.py has all but the last name."""

from __future__ import annotations


class Refusal(Exception):
    """A call isn't carried out."""

    def __str__(self) -> str:
        return str(type(self).__doc__)


class NoWorld(Refusal):
    """there is no world: it was closed"""


class Lost(Refusal):
    """memory was wanting in an earlier change: the world can only be closed"""


class BadNumber(Refusal):
    """a number is outside its range"""


class BadKeep(Refusal):
    """a structure can't be kept with those before it: the one at the place `args[0]`"""

    def __str__(self) -> str:
        return f"structure {self.args[0]} can't be kept with those before it"


class NotKept(Refusal):
    """no such structure is kept"""


class Taken(Refusal):
    """a point of this number is there already"""


class Absent(Refusal):
    """no point of this number is there"""


class NoRoot(Refusal):
    """the polynomial has no root, or every instant is one"""


class Past(Refusal):
    """the moment is before now, or the leg would begin now or before"""


class Planned(Refusal):
    """the point has a leg already that begins at that instant or later"""


class NotWhole(Refusal):
    """no motion with whole numbers and that velocity is at the point's place, or now is just after an instant"""


class OutOfBounds(Refusal):
    """there is such a motion, but one of its numbers isn't in -8192..8192"""


class NoMemory(Refusal):
    """memory is wanting; a world that was to change is lost"""


class TooSmall(Refusal):
    """there is too little room for the answer, which no call from here causes"""


BY_STATUS = (None, *Refusal.__subclasses__())
