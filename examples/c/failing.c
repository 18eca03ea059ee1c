/*
 * What a program sees where memory is wanting. Run after run one request of memory is refused, the first, the second and so
 * on. The call that made it does without, or answers KIN_NO_MEMORY. This program prints how the world is then: after kin_new
 * there is none, after a change it is lost, and after a question it is as it was. A lost world can be freed, or made anew.
 *
 * Linked with -Wl,--wrap=malloc,--wrap=realloc,--wrap=free, so that the requests of the library come here.
 */
#include <kin.h>
#include <stdbool.h>
#include <stdio.h>
#include <stdlib.h>
#include <string.h>

/* ---- memory */

void *__real_malloc(size_t size);
void *__real_realloc(void *block, size_t size);
void __real_free(void *block);
void *__wrap_malloc(size_t size);
void *__wrap_realloc(void *block, size_t size);
void __wrap_free(void *block);

/* In this run: how many requests were made, which one is refused, and how many blocks there are. */
static unsigned long requests, refused;
static long blocks;

void *__wrap_malloc(size_t size) {
    void *block = ++requests == refused ? NULL : __real_malloc(size);
    blocks += block != NULL;
    return block;
}

void *__wrap_realloc(void *block, size_t size) {
    void *moved = ++requests == refused ? NULL : __real_realloc(block, size);
    blocks += block == NULL && moved != NULL;
    return moved;
}

void __wrap_free(void *block) {
    blocks -= block != NULL;
    __real_free(block);
}

/* ---- statuses */

/* In this run: what each call answers, but for the one whose request is refused; and whether there was that one. */
static kin_status usual;
static bool was_refused;

/* Ends the program where something isn't as it has to be. */
static void expect(bool is_so, const char *what) {
    if (is_so)
        return;
    fprintf(stderr, "failing: %s, where request %lu is refused\n", what, refused);
    exit(EXIT_FAILURE);
}

/* Prints what comes of want of memory in a call, unless the line before says so. */
static void tell(const char *call, kin_status after) {
    static const char *last = "";
    if (strcmp(last, call) == 0)
        return;
    last = call;
    printf("%s: %s\n", call, after == KIN_OK ? "as it was" : after == KIN_LOST ? "lost" : "no world");
}

/* Takes in the status of a call. If its request was the refused one, and it can't do without, each later call answers so. */
static void take(kin_status status, const char *call, kin_status after) {
    bool is_refused = !was_refused && requests >= refused;
    was_refused = was_refused || is_refused;
    if (is_refused && status == KIN_NO_MEMORY) {
        tell(call, after);
        usual = after;
    } else {
        expect(status == usual, call);
    }
}

#define CHANGE(call, ...) take(call(__VA_ARGS__), #call, KIN_LOST)
#define QUESTION(call, ...) take(call(__VA_ARGS__), #call, KIN_OK)

/* ---- a run */

enum { SIZE = 3, LIVE = 5, ROOM = 64 };

static kin_status new_world(kin_world *world) {
    static const kin_keep keeps[] = {{KIN_ORDER, 1, 0}, {KIN_EXTREME, 0, 1}, {KIN_HULL, 0, 0},    {KIN_CLOSEST, 0, 0},
                                     {KIN_RANGE, 0, 0}, {KIN_NEAREST, 0, 0}, {KIN_DIAMETER, 0, 0}};
    size_t place;
    return kin_new(world, SIZE, keeps, sizeof keeps / sizeof keeps[0], &place);
}

/* Takes memory, too, but no world. */
static void print(void) {
    const kin_moment moment = {KIN_FRACTION, 7, 3, 0, 0};
    char text[ROOM];
    size_t len;
    QUESTION(kin_print_moment, &moment, text, ROOM, &len);
}

/* The calls that change a world. */
static void change(kin_world *world) {
    const kin_moment moment = {KIN_UPPER_ROOT, 1, 0, -2, 1}, limit = {KIN_FRACTION, 100, 1, 0, 0};
    kin_moment found;
    kin_failure failures[ROOM];
    uint32_t event;
    size_t len;
    CHANGE(kin_insert, world, 0, 0, 0, 1, 1);
    CHANGE(kin_insert, world, 1, 9, 0, -1, 1);
    CHANGE(kin_insert, world, 2, 9, 9, -1, -1);
    CHANGE(kin_insert, world, 3, 0, 9, 1, -1);
    CHANGE(kin_insert, world, 4, 4, 4, 0, 3);
    CHANGE(kin_insert, world, 5, 3, 5, 2, 0);
    CHANGE(kin_remove, world, 2);
    CHANGE(kin_turn, world, 4, 1, -1);
    CHANGE(kin_leg, world, 5, 3, -2, 1);
    CHANGE(kin_go_to_moment, world, &moment);
    CHANGE(kin_go_to_fraction, world, 5, 2);
    CHANGE(kin_go_to_root, world, 1, 0, -10, true);
    CHANGE(kin_replace, world, 1, 8, -2, -1, 2);
    CHANGE(kin_step, world, &limit, &event, &found, failures, ROOM, &len);
    CHANGE(kin_go_on, world, &event, &found, failures, ROOM, &len);
}

/* The questions that take memory. */
static void ask(kin_world *world) {
    uint32_t points[LIVE];
    size_t len;
    QUESTION(kin_order, world, 0, points, LIVE, &len);
    QUESTION(kin_hull, world, points, LIVE, &len);
    QUESTION(kin_inside, world, -100, 100, -100, 100, points, LIVE, &len);
}

/* Where the world can be used, its order is what it is without want of memory. */
static void look(kin_world *world) {
    static const uint32_t order[LIVE] = {0, 3, 1, 4, 5};
    uint32_t points[LIVE];
    size_t len;
    expect(kin_is_lost(world) == usual, "kin_is_lost");
    if (usual != KIN_OK)
        return;
    expect(kin_order(world, 0, points, LIVE, &len) == KIN_OK, "an order asked again");
    expect(len == LIVE && memcmp(points, order, sizeof order) == 0, "the order");
}

/* Goes from nothing to nothing. Whether the request was made that was to be refused. */
static bool run(void) {
    kin_world world = {0};
    requests = 0;
    usual = KIN_OK;
    was_refused = false;
    print();
    take(new_world(&world), "kin_new", KIN_NO_WORLD);
    change(&world);
    ask(&world);
    /* From here on there is memory. */
    requests = refused;
    look(&world);
    if (usual == KIN_LOST)
        expect(new_world(&world) == KIN_OK, "a world made anew");
    expect(kin_free(&world) == (usual == KIN_NO_WORLD ? KIN_NO_WORLD : KIN_OK), "kin_free");
    expect(blocks == 0, "a block is left");
    return was_refused;
}

int main(void) {
    for (refused = 1; run(); refused++)
        ;
    return EXIT_SUCCESS;
}
