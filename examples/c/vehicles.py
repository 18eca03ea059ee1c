"""Vehicles on two roads that cross: vehicles.c in Python. It goes from event to event, and prints when another pair becomes the
closest one and when the closest two come within 20. Each time is exact."""

from __future__ import annotations

from typing import Iterable, Optional

import kin


def main() -> None:
    # Vehicles have numbers below 2^2, and two structures are kept.
    with kin.World(2, [kin.CLOSEST, kin.RANGE]) as world:
        play(world)


def play(world: kin.World) -> None:
    """Two vehicles go east, one far behind the other, one north, and one against them; 50 seconds go by."""
    world.insert(0, -300, 0, 12, 0)
    world.insert(1, 0, -260, 0, 11)
    world.insert(2, -520, 0, 17, 0)
    world.insert(3, 350, 4, -10, 0)
    tell_closest(world)
    watch(world, 24)
    tell_crossing(world)
    watch(world, 30)
    tell_crossing(world)
    world.turn(2, 0, 12)
    watch(world, 36)
    world.remove(1)
    tell_closest(world)
    watch(world, 50)


def watch(world: kin.World, until: int) -> None:
    """Goes from event to event until this second, and prints what happens on the way."""
    while True:
        pair, near = world.closest(), approach(world)
        event = world.step(until)
        if near is not None and near <= world.now():
            print(f"{near}: near {text_of(pair)}")
        if world.closest() != pair:
            tell_closest(world)
        if event is None:
            return


def approach(world: kin.World) -> Optional[kin.Moment]:
    """When the closest two come within 20 if they go on as they do, unless they are so near already."""
    pair = world.closest()
    near = world.first_within(*pair, 20) if pair else None
    return None if near == world.now() else near


def tell_closest(world: kin.World) -> None:
    """Prints which vehicles are the closest now."""
    print(f"{world.now()}: closest {text_of(world.closest())}")


def tell_crossing(world: kin.World) -> None:
    """Prints which vehicles are on the crossing now."""
    print(f"{world.now()}: on the crossing {text_of(world.inside(-20, 20, -20, 20))}")


def text_of(vehicles: Optional[Iterable[int]]) -> str:
    """Their numbers, or `none`."""
    return " ".join(map(str, vehicles or ())) or "none"


if __name__ == "__main__":
    main()
