"""Two points meet at time 5 and pass each other. Prints their order from left to right at 4, at 5 and at 6."""

import kin

with kin.World(1, [kin.order(1, 0)]) as world:
    world.insert(0, 0, 0, 1, 0)
    world.insert(1, 10, 0, -1, 0)
    for time in (4, 5, 6):
        world.go_to(time)
        print(*world.order(0))
