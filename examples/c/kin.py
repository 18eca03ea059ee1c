"""Moving points, and structures that are kept over them, exactly: the calls of kin.h for Python.

    with kin.World(2, [kin.CLOSEST, kin.RANGE]) as world:
        world.insert(0, -300, 0, 12, 0)
        world.insert(1, 0, -260, 0, 11)
        world.go_to(Fraction(49, 2))
        print(world.now(), world.closest())

Nothing is rounded. A time is an `int` or a `Fraction`, a `Root` where it is irrational, or a `Moment`: one of these, or just
after it. All of them can be compared with each other. A call that isn't carried out raises a `Refusal`. kin.h has the ranges
of numbers, and for each call its refusals in their order.

The shared object is the file that KIN_LIBRARY names, or libkin.so where the loader looks for such files.
"""

from __future__ import annotations

import ctypes
import os
from contextlib import AbstractContextManager, suppress
from ctypes import Structure, byref, c_bool, c_int32, c_int64, c_size_t, c_uint32, c_uint64, c_void_p
from fractions import Fraction
from threading import current_thread
from typing import Iterable, NamedTuple, Optional

from kin_refusals import BY_STATUS, Absent, BadKeep, BadNumber, Lost, NoMemory, NoRoot, NotKept, NotWhole, NoWorld
from kin_refusals import OutOfBounds, Past, Planned, Refusal, Taken, TooSmall
from kin_times import Moment, Root, Time, moment, root

try:
    _library = ctypes.CDLL(os.environ.get("KIN_LIBRARY", "libkin.so"))
except OSError as error:
    raise ImportError(f"{error}; KIN_LIBRARY has to name the file, PREFIX/lib/libkin.so after ./kin install PREFIX") from None

# ---- what goes to C and comes back


class _World(Structure):
    _fields_ = [("made", c_bool), ("at", c_void_p)]


class _Keep(Structure):
    _fields_ = [("kind", c_uint32), ("dx", c_int32), ("dy", c_int32)]


class _Motion(Structure):
    _fields_ = [(name, c_int32) for name in "xyuv"]


class _Moment(Structure):
    _fields_ = [("kind", c_uint64), ("a", c_int64), ("b", c_int64), ("c", c_int64), ("after", c_uint64)]


class _Failure(Structure):
    _fields_ = [(name, c_uint32) for name in ("structure", "part", "kind", "i", "j", "k", "l")]
    _fields_ += [(name, c_int32) for name in ("dx", "dy", "off", "before", "after")]


def _checked(kind: type, least: int, most: int):
    """The numbers of a kind of C. Without the test ctypes would drop what doesn't fit."""

    def convert(number: int):
        if not least <= number <= most:
            raise BadNumber
        return kind(number)

    return convert


_u32 = _checked(c_uint32, 0, 2**32 - 1)
_i32 = _checked(c_int32, -(2**31), 2**31 - 1)
_i64 = _checked(c_int64, -(2**63), 2**63 - 1)


# ---- times


def _to_c(time: Time) -> _Moment:
    at, after = moment(time).instant, moment(time).after
    if isinstance(at, Root):
        return _Moment(2 if at.upper else 1, _i64(at.a), _i64(at.b), _i64(at.c), after)
    return _Moment(0, _i64(at.numerator), _i64(at.denominator), 0, after)


def _from_c(it: _Moment) -> Moment:
    if it.kind == 0:
        return Moment(Fraction(it.a, it.b), it.after == 1)
    return Moment(Root(it.a, it.b, it.c, it.kind == 2), it.after == 1)


# ---- what is kept, what moves and what fails


class Keep(NamedTuple):
    """A structure that is to be kept: its kind, as kin.h numbers them, and the direction of an order or an extreme point, or the size of boxes."""

    kind: int
    dx: int = 0
    dy: int = 0


HULL, CLOSEST, RANGE, NEAREST, DIAMETER = map(Keep, range(2, 7))


def order(dx: int, dy: int) -> Keep:
    """The points in order along a direction."""
    return Keep(0, dx, dy)


def extreme(dx: int, dy: int) -> Keep:
    """The point that lies farthest along a direction."""
    return Keep(1, dx, dy)


def boxes(width: int, height: int) -> Keep:
    """Boxes of this size, whose lower left corners the points are."""
    return Keep(7, width, height)


class Motion(NamedTuple):
    """The motion of a point that is at (x + u*t, y + v*t) at the time t."""

    x: int
    y: int
    u: int
    v: int


class Failure(NamedTuple):
    """A failure. `form` is line(DX,DY), turn, slope or dist, and its sign, -1, 0 or 1, was `before` and is `after`."""

    structure: int
    part: int
    form: str
    points: tuple[int, ...]
    before: int
    after: int

    def __str__(self) -> str:
        points = " ".join(map(str, self.points))
        return f"{self.structure}/{self.part} {self.form} {points} {'0+-'[self.before]} {'0+-'[self.after]}"


def _failure(it: _Failure) -> Failure:
    numbers = (it.dx, it.dy, it.off) if it.off else (it.dx, it.dy)
    form = (f"line({','.join(map(str, numbers))})", "turn", "slope", "dist")[it.kind]
    points = (it.i, it.j, it.k, it.l)[: (2, 3, 4, 4)[it.kind]]
    return Failure(it.structure, it.part, form, points, it.before, it.after)


class Event(NamedTuple):
    """What has come: failures, or none where a leg begins."""

    moment: Moment
    failures: list[Failure]


# ---- a world


class World(AbstractContextManager["World"]):
    """Points and what is kept over them, at one moment. It stays on the thread that made it. Close it, or use it in a `with`:
    its memory isn't Python's. Points have numbers below 2^size, and structures the places that they have in the list."""

    def __init__(self, size: int, keeps: Iterable[Keep]) -> None:
        self._thread = current_thread()
        self._world = _World()
        self._failures = (_Failure * 1)()
        listed = [_Keep(_u32(keep.kind), _i32(keep.dx), _i32(keep.dy)) for keep in keeps]
        # (no pointer of C is null, so there is room for one where there is nothing to keep)
        array, place = (_Keep * max(1, len(listed)))(*listed), c_size_t()
        try:
            self._call("kin_new", _u32(size), array, c_size_t(len(listed)), byref(place))
        except BadKeep:
            raise BadKeep(place.value) from None
        self._numbers = (c_uint32 * (1 << size))()

    def __exit__(self, *_: object) -> None:
        self.close()

    def close(self) -> None:
        """Frees its memory. Each later call raises `NoWorld`, but for another `close`."""
        with suppress(NoWorld):
            self._call("kin_free")

    def is_lost(self) -> bool:
        """Whether memory was wanting in a change."""
        with suppress(Lost):
            self._call("kin_is_lost")
            return False
        return True

    # ---- changes

    def insert(self, point: int, x: int, y: int, u: int, v: int) -> None:
        """A point of this number starts with the motion (x + u*t, y + v*t)."""
        self._call("kin_insert", _u32(point), _i32(x), _i32(y), _i32(u), _i32(v))

    def remove(self, point: int) -> None:
        """The point leaves, and its legs are dropped."""
        self._call("kin_remove", _u32(point))

    def replace(self, point: int, x: int, y: int, u: int, v: int) -> None:
        """The point starts anew with this motion, without legs."""
        self._call("kin_replace", _u32(point), _i32(x), _i32(y), _i32(u), _i32(v))

    def turn(self, point: int, u: int, v: int) -> None:
        """The point goes on from where it is with this velocity, without legs."""
        self._call("kin_turn", _u32(point), _i32(u), _i32(v))

    def leg(self, point: int, at: int, u: int, v: int) -> None:
        """The point is to have this velocity from the whole time `at` on."""
        self._call("kin_leg", _u32(point), _u32(at), _i32(u), _i32(v))

    # ---- time

    def go_to(self, time: Time) -> None:
        """Goes to a time that isn't before now. Legs on the way begin."""
        self._call("kin_go_to_moment", byref(_to_c(time)))

    def go_to_root(self, a: int, b: int, c: int, upper: bool = True) -> None:
        """Goes to the greater root of a*t^2 + b*t + c, or to the lesser one."""
        self._call("kin_go_to_root", _i64(a), _i64(b), _i64(c), c_bool(upper))

    def step(self, limit: Time) -> Optional[Event]:
        """Goes to the first failures up to the limit, and answers them; or to the limit. Legs on the way begin."""
        return self._event("kin_step", byref(_to_c(limit)))

    def go_on(self) -> Optional[Event]:
        """Goes to what comes next, failures or a leg. `None`: nothing comes any more, and it stays."""
        return self._event("kin_go_on")

    def now(self) -> Moment:
        """The moment now."""
        now = _Moment()
        self._call("kin_now", byref(now))
        return _from_c(now)

    def next(self) -> Optional[Moment]:
        """The moment of what comes next."""
        return self._moment("kin_next")

    # ---- questions

    def live(self) -> int:
        """How many facts are live: on how many signs the structures rest."""
        count = c_size_t()
        self._call("kin_live", byref(count))
        return count.value

    def motion(self, point: int) -> Motion:
        """The motion now of a point."""
        motion = _Motion()
        self._call("kin_motion_of", _u32(point), byref(motion))
        return Motion(motion.x, motion.y, motion.u, motion.v)

    def first_within(self, one: int, other: int, distance: int) -> Optional[Moment]:
        """When two points come within a distance, from now on, if both keep their motions of now."""
        return self._moment("kin_first_within", _u32(one), _u32(other), _u32(distance))

    def order(self, structure: int) -> list[int]:
        """All points in the order that is kept as this structure."""
        return self._list("kin_order", _u32(structure))

    def extreme(self, structure: int) -> Optional[int]:
        """The extreme point that is kept as this structure."""
        return self._one("kin_extreme", _u32(structure))

    def hull(self) -> list[int]:
        """The corners of the hull, counterclockwise, the leftmost point first."""
        return self._list("kin_hull")

    def closest(self) -> Optional[tuple[int, int]]:
        """The closest pair, the lesser number first."""
        return self._pair("kin_closest")

    def farthest(self) -> Optional[tuple[int, int]]:
        """The farthest pair, the lesser number first."""
        return self._pair("kin_farthest")

    def overlaps(self) -> list[tuple[int, int]]:
        """The pairs of points whose boxes overlap, the lesser number of each first, rising."""
        found = self._long_list("kin_overlaps")
        return list(zip(found[::2], found[1::2]))

    def inside(self, x1: int, x2: int, y1: int, y2: int) -> list[int]:
        """The points in a rectangle, its border included, rising."""
        return self._list("kin_inside", _i32(x1), _i32(x2), _i32(y1), _i32(y2))

    def nearest(self, point: int) -> Optional[int]:
        """The nearest other point of a point."""
        return self._one("kin_nearest", _u32(point))

    # ---- calls of C

    def _call(self, name: str, *arguments: object) -> None:
        if current_thread() is not self._thread:
            raise RuntimeError("a world stays on the thread that made it")
        status = getattr(_library, name)(byref(self._world), *arguments)
        if status:
            raise BY_STATUS[status]

    def _list(self, name: str, *arguments: object) -> list[int]:
        length = c_size_t()
        self._call(name, *arguments, self._numbers, c_size_t(len(self._numbers)), byref(length))
        return self._numbers[: length.value]

    def _long_list(self, name: str) -> list[int]:
        # The list may have more numbers than there are points. Where there is no room for it, its length is said.
        length = c_size_t()
        try:
            self._call(name, self._numbers, c_size_t(len(self._numbers)), byref(length))
        except TooSmall:
            self._numbers = (c_uint32 * length.value)()
            self._call(name, self._numbers, c_size_t(length.value), byref(length))
        return self._numbers[: length.value]

    def _one(self, name: str, *arguments: object) -> Optional[int]:
        return next(iter(self._list(name, *arguments)), None)

    def _pair(self, name: str) -> Optional[tuple[int, int]]:
        found = self._list(name)
        return (found[0], found[1]) if found else None

    def _moment(self, name: str, *arguments: object) -> Optional[Moment]:
        found, length = _Moment(), c_size_t()
        self._call(name, *arguments, byref(found), byref(length))
        return _from_c(found) if length.value else None

    def _event(self, name: str, *arguments: object) -> Optional[Event]:
        # Each failure is of another live fact, so the list has room.
        live = self.live()
        if len(self._failures) < live:
            self._failures = (_Failure * (2 * live))()
        event, found, length = c_uint32(), _Moment(), c_size_t()
        room = c_size_t(len(self._failures))
        self._call(name, *arguments, byref(event), byref(found), self._failures, room, byref(length))
        if event.value == 0:
            return None
        return Event(_from_c(found), [_failure(it) for it in self._failures[: length.value]])
