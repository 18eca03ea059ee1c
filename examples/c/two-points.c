/* Two points meet at time 5 and pass each other. Prints their order from left to right at 4, at 5 and at 6. */
#include <kin.h>
#include <stdio.h>
#include <stdlib.h>

/* Goes to a time, and prints the order that is kept as the structure 0. */
static kin_status tell_order(kin_world *world, int64_t time) {
    uint32_t points[2];
    size_t len;
    kin_status status = kin_go_to_fraction(world, time, 1);
    if (status == KIN_OK)
        status = kin_order(world, 0, points, 2, &len);
    if (status == KIN_OK && len == 2)
        printf("%u %u\n", points[0], points[1]);
    return status;
}

static kin_status play(kin_world *world) {
    const kin_keep keeps[] = {{KIN_ORDER, 1, 0}};
    size_t place;
    kin_status status = kin_new(world, 1, keeps, 1, &place);
    if (status == KIN_OK)
        status = kin_insert(world, 0, 0, 0, 1, 0);
    if (status == KIN_OK)
        status = kin_insert(world, 1, 10, 0, -1, 0);
    for (int64_t time = 4; time <= 6 && status == KIN_OK; time++)
        status = tell_order(world, time);
    return status;
}

int main(void) {
    kin_world world = {0};
    kin_status status = play(&world);
    kin_free(&world);
    if (status != KIN_OK)
        fprintf(stderr, "status %u\n", status);
    return status == KIN_OK ? EXIT_SUCCESS : EXIT_FAILURE;
}
