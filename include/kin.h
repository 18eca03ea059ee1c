/*
 * kin.h: moving points, and structures that are kept over them, exactly.
 *
 * A world has points that move, each with a constant velocity, and keeps structures over them: orders along directions,
 * extreme points, the convex hull, the closest pair, nearest neighbours, the farthest pair, overlaps of boxes. It goes on in
 * time from one change of these to the next. Nothing is rounded anywhere.
 *
 *     kin_world world = {0};
 *     kin_keep keeps[1] = {{KIN_CLOSEST, 0, 0}};
 *     size_t place, len;
 *     uint32_t pair[2];
 *
 *     if (kin_new(&world, 2, keeps, 1, &place) != KIN_OK) ...
 *     if (kin_insert(&world, 0, -300, 0, 12, 0) != KIN_OK) ...
 *     if (kin_insert(&world, 1, 0, -260, 0, 11) != KIN_OK) ...
 *     if (kin_go_to_fraction(&world, 49, 2) != KIN_OK) ...
 *     if (kin_closest(&world, pair, 2, &len) != KIN_OK) ...
 *     kin_free(&world);
 *
 * What C has to keep to. Nothing checks it.
 *
 * - A kin_world is all zeros before its first call: `kin_world world = {0};`. After that it goes through these calls
 *   alone: its fields are never read or written. It may be moved in memory, but of two copies only one is used from then
 *   on. One that isn't freed by kin_free leaks. After kin_free it may be made anew.
 * - One thread: a world stays on the thread that made it. No call is made in a signal handler, or in a forked child of a
 *   process with threads.
 * - No pointer is null, not even that of a list of length 0. A pointer leads to memory for all that is read and written
 *   there, aligned for its type, and the memory of one pointer doesn't overlap that of another one in the same call.
 *   What is only written needs no value before.
 * - One allocator: memory comes from the program's malloc, realloc and free, which belong together. A block is aligned to
 *   each power of two up to 16 that divides its size.
 *
 * Link with the static library of kin_c, and after it with the C library of the proof kit, by which it calls malloc.
 *
 * Each call answers a status:
 *
 * - Of the causes that speak against a call the first one in its list, below, is answered. Where none does, the call is
 *   carried out, or memory is wanting.
 * - A call that isn't carried out changes nothing, neither the world nor what the pointers lead to, unless it says so. But
 *   after KIN_NO_MEMORY of a change, or of a call that goes on in time, the world is lost.
 * - A list goes to a buffer of the caller's: `out`, with room for `room` items. Then `*len` says how many items there are.
 *   Where `room` is less than that the answer is KIN_TOO_SMALL, `*len` says how much room is needed, and `out` isn't
 *   changed. Items of `out` after the list aren't changed either.
 * - KIN_NO_MEMORY may come wherever the call takes memory, which each call says.
 */
#ifndef KIN_H
#define KIN_H

#include <stdbool.h>
#include <stddef.h>
#include <stdint.h>

#ifdef __cplusplus
extern "C" {
#endif

/* ---- statuses */

typedef uint32_t kin_status;

enum {
    KIN_OK = 0,             /* done */
    KIN_NO_WORLD = 1,       /* there is no world: kin_new didn't make one, or kin_free freed it */
    KIN_LOST = 2,           /* memory was wanting in an earlier change: the world can only be freed */
    KIN_BAD_NUMBER = 3,     /* a number is outside its range */
    KIN_BAD_KEEP = 4,       /* a structure can't be kept with those before it in the list */
    KIN_NOT_KEPT = 5,       /* no such structure is kept */
    KIN_TAKEN = 6,          /* a point of this number is there already */
    KIN_ABSENT = 7,         /* no point of this number is there */
    KIN_NO_ROOT = 8,        /* the polynomial has no root, or every instant is one */
    KIN_PAST = 9,           /* the moment is before now, or the leg would begin now or before */
    KIN_PLANNED = 10,       /* the point has a leg already that begins at that instant or later */
    KIN_NOT_WHOLE = 11,     /* no motion with whole numbers and that velocity is at the point's place, or now is just after an
                               instant */
    KIN_OUT_OF_BOUNDS = 12, /* there is such a motion, but one of its numbers isn't in -8192..8192 */
    KIN_NO_MEMORY = 13,     /* memory is wanting */
    KIN_TOO_SMALL = 14      /* there is too little room in the buffer: *len says how much is needed */
};

/* ---- types */

/* A world, or none. Zeros before its first call, and never read or written by C. */
typedef struct kin_world {
    bool made;
    void *at;
} kin_world;

/* The kinds of structures. */
enum {
    KIN_ORDER = 0,    /* the points in order along the direction (dx, dy) */
    KIN_EXTREME = 1,  /* the point that lies farthest along the direction (dx, dy) */
    KIN_HULL = 2,     /* the convex hull */
    KIN_CLOSEST = 3,  /* the closest pair */
    KIN_RANGE = 4,    /* the points in any rectangle */
    KIN_NEAREST = 5,  /* the nearest other point of any point */
    KIN_DIAMETER = 6, /* the farthest pair */
    KIN_BOXES = 7     /* boxes of the width dx and the height dy, whose lower left corners the points are */
};

/*
 * A structure that is to be kept: its kind, and its direction or the size of its boxes. The other kinds have neither, and
 * what is there isn't read.
 */
typedef struct kin_keep {
    uint32_t kind;
    int32_t dx;
    int32_t dy;
} kin_keep;

/* The motion of a point that is at (x + u*t, y + v*t) at the time t. */
typedef struct kin_motion {
    int32_t x;
    int32_t y;
    int32_t u;
    int32_t v;
} kin_motion;

/* The kinds of instants. */
enum {
    KIN_FRACTION = 0,   /* a/b */
    KIN_LOWER_ROOT = 1, /* the lesser root of a*t^2 + b*t + c */
    KIN_UPPER_ROOT = 2  /* the greater root of a*t^2 + b*t + c */
};

/*
 * A moment: an instant, or just after it.
 *
 * A moment that a call answers is in its one canonical form. A fraction is in lowest terms with b >= 1 and c = 0. A root is
 * irrational, a, b and c have no common divisor, and a >= 1. So two moments are the same exactly where all fields are.
 *
 * A moment that is given to a call may be any that its numbers name. Of a fraction a is less than 2^31 in size and b is in
 * 1..2^31 - 1; in lowest terms both may also be 2^31 in size. c isn't read. Of a root a and c are in -2^29..2^29, and b is
 * in -2^31..2^31; with one root both kinds name it, and it may be a fraction. `after` is 0 or 1. Otherwise the call answers
 * KIN_BAD_NUMBER, or KIN_NO_ROOT where there is no root.
 * `{KIN_FRACTION, 5, 1, 0, 0}` is the instant 5.
 */
typedef struct kin_moment {
    uint64_t kind;
    int64_t a;
    int64_t b;
    int64_t c;
    uint64_t after; /* 0: at the instant; 1: just after it */
} kin_moment;

/* The kinds of forms. Point i is at (xi, yi). */
enum {
    KIN_LINE = 0,  /* dx*(xj - xi) + dy*(yj - yi) + off: how far j lies beyond i along a direction */
    KIN_TURN = 1,  /* (xj - xi)*(yk - yi) - (yj - yi)*(xk - xi): positive where k is left of the line from i to j */
    KIN_SLOPE = 2, /* (yj - yi)*(xl - xk) - (yl - yk)*(xj - xi): which of two segments is steeper */
    KIN_DIST = 3   /* (xl - xk)^2 + (yl - yk)^2 - (xj - xi)^2 - (yj - yi)^2: which of two pairs is closer */
};

/* A form over points. The points that it doesn't name are 0, and so are dx, dy and off of all forms but lines. */
typedef struct kin_form {
    uint32_t kind; /* KIN_LINE, KIN_TURN, KIN_SLOPE or KIN_DIST */
    uint32_t i;
    uint32_t j;
    uint32_t k;
    uint32_t l;
    int32_t dx;
    int32_t dy;
    int32_t off;
} kin_form;

/* A failure: a structure rested on the sign of a form, and that is another one now. */
typedef struct kin_failure {
    uint32_t structure; /* the place of the structure in the list that kin_new got */
    uint32_t part;      /* the part of the structure, such as a node of its tree */
    kin_form form;
    int32_t before;     /* the sign before: -1, 0 or 1 */
    int32_t after;      /* the sign now: -1, 0 or 1 */
} kin_failure;

/* What comes next. */
enum {
    KIN_NOTHING = 0,  /* nothing */
    KIN_FAILURES = 1, /* signs on which structures rested aren't the same any more */
    KIN_LEG = 2       /* a leg begins, and nothing fails up to that moment */
};

/* ---- a world */

/*
 * Makes a world with no points, at the instant 0. A world that was there is freed. The size is in 1..12, and points have
 * numbers below 2^size. Of the `len` structures at `keeps` at most 16 are orders or extreme points, and at most one is of
 * each other kind. A farthest pair comes after a hull. dx and dy of orders and extreme points are in -16..16, the width and
 * the height of boxes in 0..4096.
 * A structure is named by its place in this list, from 0 on.
 *
 * KIN_BAD_KEEP: a kind isn't in 0..7; `*place` is the place of the first such structure
 * KIN_BAD_NUMBER: the size
 * KIN_BAD_KEEP: `*place` is the place of the first structure that can't be kept with those before it
 * KIN_NO_MEMORY: maybe also where the size or a structure can't be, since the list is copied first. The world that was
 *     there is as it was.
 */
kin_status kin_new(kin_world *world, uint32_t size, const kin_keep *keeps, size_t len, size_t *place);

/* Frees a world, also a lost one. KIN_NO_WORLD: there is none. Takes no memory. */
kin_status kin_free(kin_world *world);

/* KIN_OK: the world is there and can be used. Otherwise KIN_NO_WORLD, or KIN_LOST. Takes no memory. */
kin_status kin_is_lost(kin_world *world);

/* ---- changes of points. They take memory; a world that was to change is lost where it is wanting. */

/*
 * A point of this number, which is below 2^size, starts with the motion (x + u*t, y + v*t). So x and y are its place at
 * time 0, also where it is inserted later. The four numbers are in -8192..8192.
 * KIN_NO_WORLD, KIN_BAD_NUMBER (x, y, u or v), KIN_LOST, KIN_TAKEN, KIN_BAD_NUMBER (the point's), KIN_NO_MEMORY
 */
kin_status kin_insert(kin_world *world, uint32_t point, int32_t x, int32_t y, int32_t u, int32_t v);

/* The point of this number leaves, and its legs are dropped. KIN_NO_WORLD, KIN_LOST, KIN_ABSENT, KIN_NO_MEMORY */
kin_status kin_remove(kin_world *world, uint32_t point);

/*
 * The point of this number starts anew with this motion, without legs.
 * KIN_NO_WORLD, KIN_BAD_NUMBER (x, y, u or v), KIN_LOST, KIN_ABSENT, KIN_NO_MEMORY
 */
kin_status kin_replace(kin_world *world, uint32_t point, int32_t x, int32_t y, int32_t u, int32_t v);

/*
 * The point of this number goes on from where it is, with the velocity (u, v) and without legs. u and v are in
 * -8192..8192.
 * KIN_NO_WORLD, KIN_LOST, KIN_BAD_NUMBER (u or v), KIN_ABSENT, KIN_NOT_WHOLE, KIN_OUT_OF_BOUNDS, KIN_NO_MEMORY
 */
kin_status kin_turn(kin_world *world, uint32_t point, int32_t u, int32_t v);

/*
 * A leg: the point of this number is to have the velocity (u, v) from the whole instant `at` on, which is below 2^31. u and
 * v are in -8192..8192. The legs of a point are planned in the order in which they begin.
 * KIN_NO_WORLD, KIN_LOST, KIN_BAD_NUMBER (at, u or v), KIN_ABSENT, KIN_PAST, KIN_PLANNED, KIN_OUT_OF_BOUNDS, KIN_NO_MEMORY
 */
kin_status kin_leg(kin_world *world, uint32_t point, uint32_t at, int32_t u, int32_t v);

/* ---- time. These calls take memory; the world is lost where it is wanting. */

/*
 * Goes to the instant n/d, in lowest terms or not, which isn't before now. n is less than 2^31 in size, and d is in
 * 1..2^31 - 1. Legs on the way begin.
 * KIN_NO_WORLD, KIN_BAD_NUMBER (n or d), KIN_LOST, KIN_PAST, KIN_NO_MEMORY
 */
kin_status kin_go_to_fraction(kin_world *world, int64_t n, int64_t d);

/*
 * Goes to the greater root of a*t^2 + b*t + c, or to the lesser one where `upper` is false. With one root both are that
 * one. a and c are in -2^29..2^29, and b is in -2^31..2^31.
 * KIN_NO_WORLD, KIN_BAD_NUMBER (a, b or c), KIN_NO_ROOT, KIN_LOST, KIN_PAST, KIN_NO_MEMORY
 */
kin_status kin_go_to_root(kin_world *world, int64_t a, int64_t b, int64_t c, bool upper);

/*
 * Goes to a moment that isn't before now.
 * KIN_NO_WORLD, KIN_BAD_NUMBER or KIN_NO_ROOT (the moment), KIN_LOST, KIN_PAST, KIN_NO_MEMORY
 */
kin_status kin_go_to_moment(kin_world *world, const kin_moment *moment);

/*
 * Goes to what comes next: `*event` is KIN_FAILURES, KIN_LEG or KIN_NOTHING. Where it isn't KIN_NOTHING `*moment` is its
 * moment, at which the world is then; where it is, the world stays where it is, and `*moment` isn't written. The failures
 * are listed, and `*len` is how many they are, 0 unless `*event` is KIN_FAILURES.
 *
 * KIN_NO_WORLD, KIN_LOST, KIN_NO_MEMORY
 * KIN_TOO_SMALL: the world has gone on all the same, and `*event`, `*moment` and `*len` are written, only the list isn't.
 *     Each failure is of another live fact, so room for as many as kin_live answers before the call is enough.
 */
kin_status kin_go_on(
    kin_world *world, uint32_t *event, kin_moment *moment, kin_failure *out, size_t room, size_t *len);

/*
 * Goes to the first moment, not after the limit, at which something fails, as kin_go_on: `*event` is KIN_FAILURES, and
 * `*moment` that moment. Where nothing fails up to the limit it goes to the limit: `*event` is KIN_NOTHING, and `*moment`
 * isn't written. Legs on the way begin.
 *
 * KIN_NO_WORLD, KIN_BAD_NUMBER or KIN_NO_ROOT (the limit), KIN_LOST, KIN_PAST, KIN_NO_MEMORY
 * KIN_TOO_SMALL: as at kin_go_on
 */
kin_status kin_step(
    kin_world *world, const kin_moment *limit, uint32_t *event, kin_moment *moment, kin_failure *out, size_t room,
    size_t *len);

/* ---- questions of time and points. They take no memory. */

/* The moment now. KIN_NO_WORLD, KIN_LOST */
kin_status kin_now(kin_world *world, kin_moment *moment);

/*
 * The moment of what comes next, failures or a leg: `*len` is 1, and it is written to `*moment`. Or `*len` is 0: nothing
 * comes any more.
 * KIN_NO_WORLD, KIN_LOST
 */
kin_status kin_next(kin_world *world, kin_moment *moment, size_t *len);

/* How many facts are live, that is, on how many signs the structures rest. KIN_NO_WORLD, KIN_LOST */
kin_status kin_live(kin_world *world, size_t *count);

/* The motion now of the point of this number. KIN_NO_WORLD, KIN_LOST, KIN_ABSENT */
kin_status kin_motion_of(kin_world *world, uint32_t point, kin_motion *motion);

/*
 * When two points come within a distance of at most 16384, from now on, if both keep their motions of now: `*len` is 1, and
 * the moment is written to `*moment`. Or `*len` is 0: they never do.
 * KIN_NO_WORLD, KIN_LOST, KIN_BAD_NUMBER (the distance), KIN_ABSENT (one or both)
 */
kin_status kin_first_within(
    kin_world *world, uint32_t one, uint32_t other, uint32_t distance, kin_moment *moment, size_t *len);

/*
 * ---- questions of structures. The answers are lists of numbers of points.
 *
 * Of points equally far along a direction the lesser number comes first. Of points equally far along, or equally near, the one
 * of least number is the extreme or the nearest one. Of equally close or equally far pairs the one with the least first number
 * is the closest or the farthest pair, and then the one with the least second number. Of points at one place a hull has the one
 * of least number, and it has no point inside an edge.
 */

/*
 * All points in the order that is kept as this structure. Takes memory.
 * KIN_NO_WORLD, KIN_LOST, KIN_NOT_KEPT, KIN_NO_MEMORY, KIN_TOO_SMALL
 */
kin_status kin_order(kin_world *world, uint32_t structure, uint32_t *out, size_t room, size_t *len);

/*
 * The extreme point that is kept as this structure; no number where there are no points.
 * KIN_NO_WORLD, KIN_LOST, KIN_NOT_KEPT, KIN_TOO_SMALL
 */
kin_status kin_extreme(kin_world *world, uint32_t structure, uint32_t *out, size_t room, size_t *len);

/*
 * The corners of the hull, counterclockwise, the leftmost point first. Takes memory.
 * KIN_NO_WORLD, KIN_LOST, KIN_NOT_KEPT, KIN_NO_MEMORY, KIN_TOO_SMALL
 */
kin_status kin_hull(kin_world *world, uint32_t *out, size_t room, size_t *len);

/*
 * The closest pair, the lesser number first; no numbers where there are fewer than two points.
 * KIN_NO_WORLD, KIN_LOST, KIN_NOT_KEPT, KIN_TOO_SMALL
 */
kin_status kin_closest(kin_world *world, uint32_t *out, size_t room, size_t *len);

/*
 * The points in the rectangle from x1 to x2 and from y1 to y2, its border included, rising. The four numbers are in
 * -2^24..2^24. Takes memory.
 * KIN_NO_WORLD, KIN_LOST, KIN_BAD_NUMBER, KIN_NOT_KEPT, KIN_NO_MEMORY, KIN_TOO_SMALL
 */
kin_status kin_inside(
    kin_world *world, int32_t x1, int32_t x2, int32_t y1, int32_t y2, uint32_t *out, size_t room, size_t *len);

/*
 * The nearest other point of the point of this number; no number where there is no other point.
 * KIN_NO_WORLD, KIN_LOST, KIN_NOT_KEPT, KIN_ABSENT, KIN_TOO_SMALL
 */
kin_status kin_nearest(kin_world *world, uint32_t point, uint32_t *out, size_t room, size_t *len);

/*
 * The farthest pair, the lesser number first; no numbers where no two points are at different places.
 * KIN_NO_WORLD, KIN_LOST, KIN_NOT_KEPT, KIN_TOO_SMALL
 */
kin_status kin_farthest(kin_world *world, uint32_t *out, size_t room, size_t *len);

/*
 * The pairs of points whose boxes overlap, rising: the two numbers of each pair, the lesser first, pair after pair. Boxes that
 * touch overlap. `*len` is twice the number of pairs, at most n*(n - 1) for n points.
 * KIN_NO_WORLD, KIN_LOST, KIN_NOT_KEPT, KIN_NO_MEMORY, KIN_TOO_SMALL
 */
kin_status kin_overlaps(kin_world *world, uint32_t *out, size_t room, size_t *len);

/* ---- moments */

/*
 * Whether the first moment comes before the second: `*earlier` is 1 or 0. Two instants may be as close as they like. Takes no
 * memory.
 * KIN_BAD_NUMBER or KIN_NO_ROOT (the first moment, or else the second)
 */
kin_status kin_is_earlier(const kin_moment *one, const kin_moment *other, uint32_t *earlier);

/*
 * Prints a moment as a script does, and a zero after it, which `*len` counts: 5, 7/3, r(1,0,-2,hi), and 5+ for just after.
 * Takes memory.
 * KIN_BAD_NUMBER or KIN_NO_ROOT (the moment), KIN_NO_MEMORY, KIN_TOO_SMALL
 */
kin_status kin_print_moment(const kin_moment *moment, char *out, size_t room, size_t *len);

#ifdef __cplusplus
}
#endif

#endif
