"""Compares the times that the `at` lines on standard input name. They are in rising order; it prints which of them aren't."""

from __future__ import annotations

import sys

import grammar
import kin


def time_of(line: bytes) -> kin.Time:
    """The time that a line names."""
    command = grammar.read(b"size 1\n" + line).commands[0]
    return kin.root(*command.values) if command.name == "at root" else command.values[0]


def are_rising(one: kin.Time, other: kin.Time) -> bool:
    """Whether one time is less than the other, and just after it is between them."""
    after = kin.Moment(one, after=True)
    between = one < after < other and other > after > one
    return between and one < other and not other <= one and one != other and not one != kin.moment(one)


def main() -> None:
    lines = [line for line in sys.stdin.buffer.read().splitlines() if line.startswith(b"at ")]
    for one, other in zip(lines, lines[1:]):
        if not are_rising(time_of(one), time_of(other)):
            print(f"{one.decode()} isn't before {other.decode()}")


if __name__ == "__main__":
    main()
