"""The grammar of motion scripts, as docs/SCRIPT.md has it: `read` makes a `Script` of bytes."""

from __future__ import annotations

import re
from dataclasses import dataclass, field
from fractions import Fraction
from typing import Callable, NamedTuple, Optional

import kin

LATEST = 2**31 - 1
NUMERAL = re.compile(rb"(-?)0*([0-9]+)")

Words = list[bytes]


class Outside(Exception):
    """Words that are outside the grammar; of a whole script, `args[0]` is the number of the first such line."""


class Command(NamedTuple):
    """A command: its line, its name, and what the words after the name say."""

    line: int
    name: str
    values: tuple


# ---- words


def integer(least: int, most: int) -> Callable[[bytes], int]:
    """The reader of a number in this range, with leading zeros as wished."""

    def read_word(word: bytes) -> int:
        found = NUMERAL.fullmatch(word)
        # (a number of more digits is outside every range)
        if not found or len(found[2]) > 10:
            raise Outside
        number = int(found[1] + found[2])
        if not least <= number <= most:
            raise Outside
        return number

    return read_word


def one_of(values: dict[bytes, object]) -> Callable[[bytes], object]:
    """The reader of one of these words."""

    def read_word(word: bytes) -> object:
        if word not in values:
            raise Outside
        return values[word]

    return read_word


def fraction(word: bytes) -> Fraction:
    """N/D, or N for N/1."""
    over, slash, under = word.partition(b"/")
    return Fraction(integer(0, LATEST)(over), integer(1, LATEST)(under) if slash else 1)


def read_words(readers: tuple, words: Words) -> tuple:
    """What the words say, each read by its reader."""
    if len(words) != len(readers):
        raise Outside
    return tuple(reader(word) for reader, word in zip(readers, words))


# ---- lines

place = integer(-8192, 8192)
part = integer(-16, 16)
border = integer(-(2**24), 2**24)
structure = integer(0, 31)
width = integer(0, 4096)
outer, inner = integer(-(2**29), 2**29), integer(-(2**31), 2**31)
side = one_of({b"lo": False, b"hi": True})
ALONG = (kin.order(1, 0).kind, kin.extreme(1, 0).kind)
SINGLE_KEEPS = {
    b"hull": kin.HULL,
    b"closest": kin.CLOSEST,
    b"range": kin.RANGE,
    b"nearest": kin.NEAREST,
    b"diameter": kin.DIAMETER,
}


def readers_of_commands(size: int) -> dict[bytes, tuple]:
    """For each command the readers of the words after its name."""
    point = integer(0, 2**size - 1)
    return {
        b"insert": (point, place, place, place, place),
        b"remove": (point,),
        b"replace": (point, place, place, place, place),
        b"turn": (point, place, place),
        b"leg": (point, integer(0, LATEST), place, place),
        b"at": (fraction,),
        b"at root": (outer, inner, outer, side),
        b"next": (),
        b"order": (structure,),
        b"extreme": (structure,),
        b"live": (),
        b"hull": (),
        b"closest": (),
        b"box": (border, border, border, border),
        b"nearest": (point,),
        b"farthest": (),
        b"overlaps": (),
    }


def read_command(readers: dict[bytes, tuple], line: int, words: Words) -> Command:
    """A line that isn't of the header."""
    name, rest = words[0], words[1:]
    if words[:2] == [b"at", b"root"]:
        name, rest = b"at root", words[2:]
    if name not in readers:
        raise Outside
    values = read_words(readers[name], rest)
    if name == b"at root" and values[0] == 0:
        raise Outside
    return Command(line, name.decode(), values)


def read_keep(words: Words, before: list[kin.Keep]) -> kin.Keep:
    """What a line `keep` keeps, if it may be kept with those before it."""
    if words[:1] in ([b"order"], [b"extreme"]):
        dx, dy = read_words((part, part), words[1:])
        if (dx, dy) == (0, 0) or sum(keep.kind in ALONG for keep in before) == 16:
            raise Outside
        return kin.order(dx, dy) if words[0] == b"order" else kin.extreme(dx, dy)
    if words[:1] == [b"boxes"]:
        keep = kin.boxes(*read_words((width, width), words[1:]))
        if any(other.kind == keep.kind for other in before):
            raise Outside
        return keep
    (keep,) = read_words((one_of(SINGLE_KEEPS),), words)
    if keep in before or keep == kin.DIAMETER and kin.HULL not in before:
        raise Outside
    return keep


# ---- a script


@dataclass
class Script:
    """A script, as far as it is read. `journal` is None until a line says whether it is on."""

    size: int
    keeps: list[kin.Keep] = field(default_factory=list)
    journal: Optional[bool] = None
    commands: list[Command] = field(default_factory=list)

    def __post_init__(self) -> None:
        self.readers = readers_of_commands(self.size)

    def take(self, line: int, words: Words) -> None:
        """Takes in the next line: as long as there is no command, it may be one of the header."""
        if words[0] == b"keep" and not self.commands:
            self.keeps.append(read_keep(words[1:], self.keeps))
        elif words[0] == b"journal" and not self.commands and self.journal is None:
            (self.journal,) = read_words((one_of({b"on": True, b"off": False}),), words[1:])
        else:
            self.commands.append(read_command(self.readers, line, words))


def read_size(words: Words) -> int:
    """What the size line says."""
    if words[0] != b"size":
        raise Outside
    return read_words((integer(1, 12),), words[1:])[0]


def words_of(line: bytes) -> Words:
    """The words of a line, without its comment."""
    return re.findall(rb"[^ \t]+", line.removesuffix(b"\r").partition(b"#")[0])


def read(data: bytes) -> Script:
    """The script of these bytes."""
    lines = data.removesuffix(b"\n").split(b"\n") if data else []
    script = None
    for number, line in enumerate(lines, 1):
        words = words_of(line)
        try:
            if words and script:
                script.take(number, words)
            elif words:
                script = Script(read_size(words))
        except Outside:
            raise Outside(number) from None
    if not script:
        raise Outside(len(lines) + 1)
    return script
