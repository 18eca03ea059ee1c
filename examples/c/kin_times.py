"""Exact times: `Root`, a time that is irrational, and `Moment`, a time or just after it. kin.py has both as its own names."""

from __future__ import annotations

from dataclasses import dataclass
from fractions import Fraction
from functools import total_ordering
from math import gcd, isqrt
from typing import Union

from kin_refusals import NoRoot


@total_ordering
@dataclass(frozen=True)
class Root:
    """The greater root of a*t^2 + b*t + c or the lesser one, irrational and in its one canonical form: a is above 0, and no
    number divides all three. The function `root` makes it of any three."""

    a: int
    b: int
    c: int
    upper: bool

    def __str__(self) -> str:
        return f"r({self.a},{self.b},{self.c},{'hi' if self.upper else 'lo'})"

    def __float__(self) -> float:
        return _floor(self, 64) / 2**64

    def __lt__(self, other: object) -> bool:
        if not isinstance(other, (int, Fraction, Root)):
            return NotImplemented
        return self != other and _is_less(self, other)


Instant = Union[int, Fraction, Root]


def root(a: int, b: int, c: int, upper: bool = True) -> Union[Fraction, Root]:
    """The greater root of a*t^2 + b*t + c, or the lesser one. With one root both are that one."""
    square = b * b - 4 * a * c
    if square < 0 or a == b == 0:
        raise NoRoot
    if a == 0:
        return Fraction(-c, b)
    side = isqrt(square)
    if side * side == square:
        both = Fraction(-b - side, 2 * a), Fraction(-b + side, 2 * a)
        return max(both) if upper else min(both)
    common = gcd(a, b, c) if a > 0 else -gcd(a, b, c)
    return Root(a // common, b // common, c // common, upper)


def _floor(instant: Instant, bits: int) -> int:
    """The whole part of 2^bits times the instant."""
    if not isinstance(instant, Root):
        return (instant.numerator << bits) // instant.denominator
    a, b, c = instant.a, instant.b, instant.c
    side = isqrt((b * b - 4 * a * c) << 2 * bits)
    return ((side if instant.upper else -side - 1) - (b << bits)) // (2 * a)


def _is_less(one: Instant, other: Instant) -> bool:
    """Whether one instant comes before another, which isn't the same: more and more bits of both tell."""
    bits = 64
    while _floor(one, bits) == _floor(other, bits):
        bits *= 2
    return _floor(one, bits) < _floor(other, bits)


@total_ordering
@dataclass(frozen=True, eq=False)
class Moment:
    """An instant, or just after it."""

    instant: Instant
    after: bool = False

    def __str__(self) -> str:
        return f"{self.instant}{'+' if self.after else ''}"

    def __eq__(self, other: object) -> bool:
        if not isinstance(other, (int, Fraction, Root, Moment)):
            return NotImplemented
        other = moment(other)
        return (self.instant, self.after) == (other.instant, other.after)

    def __lt__(self, other: object) -> bool:
        if not isinstance(other, (int, Fraction, Root, Moment)):
            return NotImplemented
        other = moment(other)
        return (self.instant, self.after) < (other.instant, other.after)

    def __hash__(self) -> int:
        return hash((self.instant, True)) if self.after else hash(self.instant)


Time = Union[Instant, Moment]


def moment(time: Time) -> Moment:
    """The time as a moment."""
    return time if isinstance(time, Moment) else Moment(time)
