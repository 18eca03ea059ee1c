/*
 * Vehicles on two roads that cross: how a C program uses kin.h. It goes from event to event, and prints when another pair
 * becomes the closest one and when the closest two come within 20. Each time is exact.
 */
#include <kin.h>
#include <stdbool.h>
#include <stdio.h>
#include <stdlib.h>
#include <string.h>

/* Vehicles have numbers below 2^2. */
enum { SIZE = 2, MOST = 4 };

/* The closest pair, or no vehicles. */
typedef struct {
    uint32_t vehicles[2];
    size_t len;
} pair;

/* A moment, or none. */
typedef struct {
    kin_moment moment;
    size_t len;
} maybe_moment;

/* Ends the program where a call isn't carried out. */
static void need(kin_status status, const char *call) {
    if (status == KIN_OK)
        return;
    fprintf(stderr, "vehicles: %s answers %u\n", call, status);
    exit(EXIT_FAILURE);
}

#define NEED(call) need(call, #call)

static kin_moment now_of(kin_world *world) {
    kin_moment now;
    NEED(kin_now(world, &now));
    return now;
}

static pair closest_of(kin_world *world) {
    pair found = {{0, 0}, 0};
    NEED(kin_closest(world, found.vehicles, 2, &found.len));
    return found;
}

static bool are_same(pair one, pair other) {
    return one.len == other.len && memcmp(one.vehicles, other.vehicles, sizeof one.vehicles) == 0;
}

/* Prints what happens to some vehicles, and when. */
static void tell(const kin_moment *moment, const char *event, const uint32_t *vehicles, size_t len) {
    char text[64];
    size_t text_len;
    NEED(kin_print_moment(moment, text, sizeof text, &text_len));
    printf("%s: %s", text, event);
    for (size_t i = 0; i < len; i++)
        printf(" %u", vehicles[i]);
    puts(len > 0 ? "" : " none");
}

/* Prints which vehicles are the closest now. */
static void tell_closest(kin_world *world) {
    kin_moment now = now_of(world);
    pair closest = closest_of(world);
    tell(&now, "closest", closest.vehicles, closest.len);
}

/* Prints which vehicles are on the crossing now. */
static void tell_crossing(kin_world *world) {
    kin_moment now = now_of(world);
    uint32_t vehicles[MOST];
    size_t len;
    NEED(kin_inside(world, -20, 20, -20, 20, vehicles, MOST, &len));
    tell(&now, "on the crossing", vehicles, len);
}

static bool is_earlier(const kin_moment *one, const kin_moment *other) {
    uint32_t earlier;
    NEED(kin_is_earlier(one, other, &earlier));
    return earlier == 1;
}

/* When the closest two come within 20 if they go on as they do, unless they are so near already. */
static maybe_moment approach(kin_world *world, pair closest) {
    kin_moment now = now_of(world);
    maybe_moment near = {{0, 0, 0, 0, 0}, 0};
    if (closest.len > 0)
        NEED(kin_first_within(world, closest.vehicles[0], closest.vehicles[1], 20, &near.moment, &near.len));
    if (near.len > 0 && !is_earlier(&now, &near.moment))
        near.len = 0;
    return near;
}

/* Goes to the next failures, or to the limit, and answers which. Which failures they are isn't wanted, so there is no room. */
static uint32_t step(kin_world *world, const kin_moment *limit) {
    uint32_t event;
    kin_moment moment;
    kin_failure failures[1];
    size_t len;
    kin_status status = kin_step(world, limit, &event, &moment, failures, 0, &len);
    if (status != KIN_TOO_SMALL)
        need(status, "kin_step");
    return event;
}

/* Goes from event to event until this second, and prints what happens on the way. */
static void watch(kin_world *world, int64_t until) {
    const kin_moment limit = {KIN_FRACTION, until, 1, 0, 0};
    uint32_t event;
    do {
        pair closest = closest_of(world);
        maybe_moment near = approach(world, closest);
        event = step(world, &limit);
        kin_moment now = now_of(world);
        if (near.len > 0 && !is_earlier(&now, &near.moment))
            tell(&near.moment, "near", closest.vehicles, closest.len);
        if (!are_same(closest_of(world), closest))
            tell_closest(world);
    } while (event != KIN_NOTHING);
}

/* Two vehicles go east, one far behind the other, one north, and one against them; 50 seconds go by. */
static void play(kin_world *world) {
    NEED(kin_insert(world, 0, -300, 0, 12, 0));
    NEED(kin_insert(world, 1, 0, -260, 0, 11));
    NEED(kin_insert(world, 2, -520, 0, 17, 0));
    NEED(kin_insert(world, 3, 350, 4, -10, 0));
    tell_closest(world);
    watch(world, 24);
    tell_crossing(world);
    watch(world, 30);
    tell_crossing(world);
    NEED(kin_turn(world, 2, 0, 12));
    watch(world, 36);
    NEED(kin_remove(world, 1));
    tell_closest(world);
    watch(world, 50);
}

int main(void) {
    /* A world is zeros before its first call. Two structures are kept. */
    kin_world world = {0};
    const kin_keep keeps[2] = {{KIN_CLOSEST, 0, 0}, {KIN_RANGE, 0, 0}};
    size_t place;
    NEED(kin_new(&world, SIZE, keeps, 2, &place));
    play(&world);
    NEED(kin_free(&world));
    return EXIT_SUCCESS;
}
