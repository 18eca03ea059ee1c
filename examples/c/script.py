"""Plays a motion script through kin.py: the same text and the same exit status as those of `kin run`.

    python3 script.py < FILE

docs/SCRIPT.md says what a script may say and what is printed.
"""

from __future__ import annotations

import sys
from typing import Iterable, Iterator, Union

import grammar
import kin

MOST_BYTES = 2**20
DONE, FAULT, OUTSIDE, REFUSED, NO_MEMORY = range(5)
CHANGES = ("insert", "remove", "replace", "turn", "leg")


class Player:
    """A world, and whether failures are printed."""

    def __init__(self, world: kin.World, journal: bool) -> None:
        self.world = world
        self.journal = journal

    def lines(self, command: grammar.Command) -> Iterator[str]:
        """Carries a command out, and gives the lines that it prints."""
        name, values = command.name, command.values
        if name in CHANGES:
            getattr(self.world, name)(*values)
        elif name == "at":
            yield from self.go_to(*values)
        elif name == "at root":
            yield from self.go_to_root(*values)
        elif name == "next":
            yield from self.go_on()
        elif name == "box":
            yield text_of(self.world.inside(*values))
        elif name == "overlaps":
            yield from map(text_of, self.world.overlaps() or [()])
        else:
            yield text_of(getattr(self.world, name)(*values))

    def go_to(self, time: kin.Time) -> Iterator[str]:
        """Goes to a time, step by step where the failures on the way are wanted."""
        if not self.journal:
            self.world.go_to(time)
            return
        while (event := self.world.step(time)) is not None:
            yield from failure_lines(event)

    def go_to_root(self, a: int, b: int, c: int, upper: bool) -> Iterator[str]:
        """Goes to a root."""
        if self.journal:
            yield from self.go_to(kin.root(a, b, c, upper))
        else:
            self.world.go_to_root(a, b, c, upper)

    def go_on(self) -> Iterator[str]:
        """Goes to what comes next."""
        event = self.world.go_on()
        if event is None:
            yield "none"
            return
        if self.journal:
            yield from failure_lines(event)
        yield f"now {event.moment}"


def failure_lines(event: kin.Event) -> Iterator[str]:
    """The lines of the journal."""
    return (f"! {event.moment} {failure}" for failure in event.failures)


def text_of(answer: Union[None, int, Iterable[int]]) -> str:
    """The line of an answer."""
    if isinstance(answer, int):
        return str(answer)
    return " ".join(map(str, answer or ())) or "none"


def play(script: grammar.Script) -> int:
    """Prints the text of a script, and answers its exit status."""
    line = 0
    try:
        with kin.World(script.size, script.keeps) as world:
            player = Player(world, bool(script.journal))
            for command in script.commands:
                line = command.line
                for text in player.lines(command):
                    print(text)
    except kin.NoMemory:
        return NO_MEMORY
    except kin.Refusal as refusal:
        print(f"refused {line} {type(refusal).__name__}")
        return REFUSED
    return DONE


def run(data: bytes) -> int:
    """Prints the text of these bytes, and answers their exit status."""
    if len(data) > MOST_BYTES:
        return OUTSIDE
    try:
        script = grammar.read(data)
    except grammar.Outside as outside:
        print(f"bad {outside.args[0]}")
        return OUTSIDE
    return play(script)


def main() -> int:
    """Reads standard input, and answers the exit status."""
    try:
        status = run(sys.stdin.buffer.read(MOST_BYTES + 1))
        sys.stdout.flush()
    except OSError:
        return FAULT
    return status


if __name__ == "__main__":
    sys.exit(main())
