/* Checks of the library from C, for the gate: the layout of the structs, every field read from C, refusals that leave
   everything as it was, and guard bytes around all that is lent. Prints what fails, and how many checks passed. */
#include <stdio.h>
#include <string.h>
#include "ladrukhi.h"

_Static_assert(sizeof(size_t) == 8, "size_t");
_Static_assert(sizeof(struct ladrukhi_place) == 4432, "place");
_Static_assert(offsetof(struct ladrukhi_place, direction) == 0, "direction");
_Static_assert(offsetof(struct ladrukhi_place, a) == 2, "a");
_Static_assert(offsetof(struct ladrukhi_place, b) == 4, "b");
_Static_assert(offsetof(struct ladrukhi_place, count) == 8, "frames");
_Static_assert(offsetof(struct ladrukhi_place, kinds) == 16, "kinds");
_Static_assert(offsetof(struct ladrukhi_place, labels) == 2224, "labels");
_Static_assert(sizeof(struct ladrukhi_session) == 12632, "session");
_Static_assert(offsetof(struct ladrukhi_session, place) == 0, "place in session");
_Static_assert(offsetof(struct ladrukhi_session, count) == 4432, "count");
_Static_assert(offsetof(struct ladrukhi_session, cells) == 4440, "cells");
_Static_assert(sizeof(struct ladrukhi_answer) == 24, "answer");
_Static_assert(offsetof(struct ladrukhi_answer, record) == 8, "record");
_Static_assert(offsetof(struct ladrukhi_answer, count) == 16, "told count");
_Static_assert(sizeof(struct ladrukhi_counts) == 40, "counts");
_Static_assert(LADRUKHI_FILE_TOO_LONG == 1 && LADRUKHI_OWN_NAME == 8 && LADRUKHI_WRONG_CELL_COUNT == 20 && LADRUKHI_BUFFER_TOO_SHORT == 23, "numbers");
_Static_assert(LADRUKHI_SAVED_BYTES == 4 + 8 + 4 * LADRUKHI_FRAMES + 4 + 4 * LADRUKHI_CELLS, "a PLACE record and a STORE record");

#define GUARD 64
#define FILL 0xA5

static unsigned long passed, failed;

static void check(int good, const char *what, int line) {
    if (good)
        passed++;
    else {
        failed++;
        printf("desk: FAILED at line %d: %s\n", line, what);
    }
}
#define CHECK(good) check(good, #good, __LINE__)

/* A procedure that main calls from label 10; in it an IF (13), in that a FROM (14) with two SKIPs (15, 16) in s1. */
static const uint8_t kinds[24] = {1, 2, 13, 13, 13, 13, 13, 13, 13, 13, 11, 3, 2, 5, 8, 13, 13, 9, 13, 10, 6, 13, 7, 3};
static uint8_t program[512];
static size_t length;

static void put16(uint8_t *s, size_t at, unsigned v) {
    s[at] = (uint8_t)v;
    s[at + 1] = (uint8_t)(v >> 8);
}

/* NAMES has 3 scalars and an array of 2; every expression is scalar 0; CALL is of procedure 1. */
static void build(void) {
    size_t at = GUARD;
    memset(program, FILL, sizeof program);
    for (int i = 0; i < 24; i++) {
        unsigned k = kinds[i], body = k == 1 ? 6 : k == 11 ? 2 : (k == 5 || k == 7 || k == 8 || k == 10) ? 3 : 0;
        put16(program, at, 4 + body);
        put16(program, at + 2, k);
        if (k == 1) {
            put16(program, at + 4, 3);
            put16(program, at + 6, 1);
            put16(program, at + 8, 2);
        } else if (k == 11)
            put16(program, at + 4, 1);
        else if (body == 3) {
            program[at + 4] = 1;
            put16(program, at + 5, 0);
        }
        at += 4 + body;
    }
    length = at - GUARD;
}

/* The file of a session in it: up, from 16 to 15, in s1 of 14, in the true branch of 13, called from 10; cells that all differ. */
static const int32_t cells[5] = {-1, 70000, 77, -2147483647 - 1, 2147483647};
static uint8_t saved[GUARD + 48 + GUARD];
#define SAVED (saved + GUARD)
#define SIZE 48

static void build_saved(void) {
    static const unsigned words[12] = {24, 32, 1, 16, 15, 3, 2, 14, 0, 13, 4, 10};
    memset(saved, FILL, sizeof saved);
    for (int i = 0; i < 12; i++)
        put16(SAVED, 2 * i, words[i]);
    put16(SAVED, 24, 24);
    put16(SAVED, 26, 33);
    for (int i = 0; i < 5; i++) {
        put16(SAVED, 28 + 4 * i, (uint32_t)cells[i] & 0xffff);
        put16(SAVED, 30 + 4 * i, (uint32_t)cells[i] >> 16);
    }
}

struct lent {
    uint8_t before[GUARD];
    struct ladrukhi_session s;
    uint8_t after[GUARD];
};

static struct lent now, was;
static uint8_t buffer[GUARD + LADRUKHI_SAVED_BYTES + GUARD], old_buffer[sizeof buffer];
static uint8_t old_program[sizeof program], old_saved[sizeof saved];

#define P program + GUARD, length

static void keep(void) {
    memcpy(&was, &now, sizeof now);
    memcpy(old_buffer, buffer, sizeof buffer);
    memcpy(old_program, program, sizeof program);
    memcpy(old_saved, saved, sizeof saved);
}

/* What is only lent to be read is as it was, and so is every byte around what is written. */
static int guarded(void) {
    return memcmp(now.before, was.before, GUARD) == 0 && memcmp(now.after, was.after, GUARD) == 0 && memcmp(program, old_program, sizeof program) == 0 &&
           memcmp(saved, old_saved, sizeof saved) == 0 && memcmp(buffer, old_buffer, GUARD) == 0 && memcmp(buffer + sizeof buffer - GUARD, old_buffer, GUARD) == 0;
}

/* Every field is the same; the bytes between fields mean nothing, and a call that stores the session may change them. */
static int same_session(const struct ladrukhi_session *x, const struct ladrukhi_session *y) {
    const struct ladrukhi_place *p = &x->place, *q = &y->place;
    return p->direction == q->direction && p->a == q->a && p->b == q->b && p->count == q->count && memcmp(p->kinds, q->kinds, sizeof p->kinds) == 0 &&
           memcmp(p->labels, q->labels, sizeof p->labels) == 0 && x->count == y->count && memcmp(x->cells, y->cells, sizeof x->cells) == 0;
}

/* Nothing at all has changed. */
static int same(void) {
    return guarded() && same_session(&now.s, &was.s) && memcmp(buffer, old_buffer, sizeof buffer) == 0;
}

static int is(struct ladrukhi_answer a, unsigned reason, size_t record, size_t count) {
    return a.reason == reason && a.record == record && a.count == count;
}

/* Every call that takes the session refuses it so, and touches nothing. */
static void refuses(const uint8_t *p, size_t n, unsigned reason, size_t record, int line) {
    keep();
    check(is(ladrukhi_step(p, n, &now.s), reason, record, 0) && same(), "step", line);
    check(is(ladrukhi_back(p, n, &now.s), reason, record, 0) && same(), "back", line);
    check(is(ladrukhi_run(p, n, &now.s, 0), reason, record, 0) && same(), "run of 0", line);
    check(is(ladrukhi_run(p, n, &now.s, 4294967295u), reason, record, 0) && same(), "run", line);
    check(is(ladrukhi_run_back(p, n, &now.s, 7), reason, record, 0) && same(), "run_back", line);
    check(is(ladrukhi_save(p, n, &now.s, buffer + GUARD, LADRUKHI_SAVED_BYTES), reason, record, 0) && same(), "save", line);
}
#define REFUSES(reason) refuses(P, reason, 0, __LINE__)

static void fresh(void) {
    memset(&now, FILL, sizeof now);
    memset(buffer, FILL, sizeof buffer);
    keep();
    CHECK(is(ladrukhi_open(P, SAVED, SIZE, &now.s), 0, 0, 0) && guarded());
}

static void refuses_open(unsigned reason, size_t size, int line) {
    keep();
    check(is(ladrukhi_open(P, SAVED, size, &now.s), reason, 0, 0) && same(), "open", line);
}

static int rest_filled(void) {
    const uint8_t *s = (const uint8_t *)(now.s.cells + 5);
    for (size_t i = 0; i < sizeof now.s.cells - 20; i++)
        if (s[i] != FILL)
            return 0;
    return 1;
}

static void fields(void) {
    fresh();
    CHECK(now.s.place.direction == LADRUKHI_UP && now.s.place.a == 16 && now.s.place.b == 15 && now.s.place.count == 3 && now.s.count == 5);
    CHECK(now.s.place.kinds[0] == LADRUKHI_IN_CALL && now.s.place.kinds[1] == LADRUKHI_TRUE_BRANCH && now.s.place.kinds[2] == LADRUKHI_IN_S1);
    CHECK(now.s.place.labels[0] == 10 && now.s.place.labels[1] == 13 && now.s.place.labels[2] == 14);
    int zero = 1;
    for (size_t i = 3; i < LADRUKHI_FRAMES; i++)
        zero = zero && now.s.place.kinds[i] == 0 && now.s.place.labels[i] == 0;
    CHECK(zero);
    CHECK(memcmp(now.s.cells, cells, sizeof cells) == 0 && rest_filled());
}

static void moves(void) {
    fresh();
    keep();
    CHECK(is(ladrukhi_step(P, &now.s), 0, 0, 1) && guarded());
    CHECK(now.s.place.a == 15 && now.s.place.b == 14 && now.s.place.direction == LADRUKHI_UP && rest_filled());
    CHECK(is(ladrukhi_back(P, &now.s), 0, 0, 1) && same());
    /* scalar 0 is -1: up through FROM out of the loop, IF closes, and so on to BEGIN of main, which is the end */
    struct ladrukhi_answer a = ladrukhi_run(P, &now.s, 1000);
    CHECK(a.reason == 30 && a.record == 0 && a.count == 12 && guarded() && rest_filled());
    CHECK(now.s.place.a == 2 && now.s.place.b == 1 && now.s.place.count == 0 && memcmp(now.s.cells, cells, sizeof cells) == 0);
    CHECK(is(ladrukhi_run_back(P, &now.s, 12), 0, 0, 12) && same());
    CHECK(is(ladrukhi_run(P, &now.s, 0), 0, 0, 0) && same());
}

static void saves(void) {
    fresh();
    keep();
    struct ladrukhi_answer a = ladrukhi_save(P, &now.s, buffer + GUARD, LADRUKHI_SAVED_BYTES);
    CHECK(is(a, 0, 0, SIZE) && guarded() && memcmp(buffer + GUARD, SAVED, SIZE) == 0);
    CHECK(memcmp(buffer + GUARD + SIZE, old_buffer + GUARD + SIZE, LADRUKHI_SAVED_BYTES - SIZE) == 0 && memcmp(&now, &was, sizeof now) == 0);
    memset(buffer, FILL, sizeof buffer);
    keep();
    CHECK(is(ladrukhi_save(P, &now.s, buffer + GUARD, SIZE - 1), 23, 0, 0) && same());
    CHECK(is(ladrukhi_save(P, &now.s, buffer + GUARD, 0), 23, 0, 0) && same());
    CHECK(is(ladrukhi_save(P, &now.s, buffer + GUARD, SIZE), 0, 0, SIZE) && guarded() && memcmp(buffer + GUARD + SIZE, old_buffer, GUARD) == 0);
}

static void unfit(void) {
    static const size_t counts[6] = {0, 4, 6, 2048, 2049, (size_t)-1};
    for (int i = 0; i < 6; i++) {
        fresh();
        now.s.count = counts[i];
        REFUSES(20);
    }
    fresh(), now.s.place.direction = 2, REFUSES(21);
    fresh(), now.s.place.a = 65535, REFUSES(21);
    fresh(), now.s.place.b = 16, REFUSES(21);
    fresh(), now.s.place.count = 2, REFUSES(21);
    fresh(), now.s.place.count = (size_t)-1, REFUSES(21);
    fresh(), now.s.place.kinds[2] = 3, REFUSES(21);
    fresh(), now.s.place.labels[0] = 9, REFUSES(21);
    fresh(), now.s.place.kinds[LADRUKHI_FRAMES - 1] = 1, REFUSES(21);
    fresh(), now.s.place.labels[3] = 1, REFUSES(21);
    memset(&now, 0, sizeof now), now.s.count = 5, REFUSES(21);
    /* a step that is refused for itself: UNTIL of the loop meets a false value upwards from outside */
    memset(&now, 0, sizeof now);
    CHECK(is(ladrukhi_start(P, &now.s, LADRUKHI_UP), 0, 0, 0));
    keep();
    CHECK(is(ladrukhi_back(P, &now.s), 30, 0, 0) && same());
}

static void opens(void) {
    fresh();
    for (size_t i = 0; i < SIZE; i++)
        refuses_open(22, i, __LINE__);
    SAVED[4] = 2, refuses_open(22, SIZE, __LINE__), build_saved();
    SAVED[12] = 5, refuses_open(22, SIZE, __LINE__), build_saved();
    SAVED[14] = 13, refuses_open(21, SIZE, __LINE__), build_saved();
    put16(SAVED, 24, 20), refuses_open(20, SIZE - 4, __LINE__), build_saved();
}

static void starts(void) {
    memset(&now, FILL, sizeof now);
    keep();
    CHECK(is(ladrukhi_start(P, &now.s, LADRUKHI_DOWN), 0, 0, 0) && guarded() && rest_filled());
    CHECK(now.s.place.a == 1 && now.s.place.b == 2 && now.s.place.direction == LADRUKHI_DOWN && now.s.place.count == 0 && now.s.count == 5);
    CHECK(now.s.cells[0] == 0 && now.s.cells[4] == 0);
    CHECK(is(ladrukhi_start(P, &now.s, LADRUKHI_UP), 0, 0, 0) && guarded() && now.s.place.a == 11 && now.s.place.b == 10 && now.s.place.direction == LADRUKHI_UP);
    keep();
    CHECK(is(ladrukhi_start(P, &now.s, 4294967295u), 0, 0, 0) && same());
}

static void programs(void) {
    struct ladrukhi_counts c = ladrukhi_check(P);
    CHECK(c.reason == 0 && c.record == 0 && c.records == 24 && c.procedures == 2 && c.cells == 5);
    c = ladrukhi_check(program + GUARD, length - 1);
    CHECK(c.reason == 2 && c.record == 23 && c.records == 0 && c.procedures == 0 && c.cells == 0);
    fresh();
    refuses(program + GUARD, length - 1, 2, 23, __LINE__);
    keep();
    CHECK(is(ladrukhi_open(program + GUARD, length - 1, SAVED, SIZE, &now.s), 2, 23, 0) && same());
    CHECK(is(ladrukhi_start(program + GUARD, length - 1, &now.s, 0), 2, 23, 0) && same());
    now.s.count = 5000;
    refuses(program + GUARD, length - 1, 2, 23, __LINE__);
}

/* Where a length is 0 the pointer is not looked at. */
static void nothing(void) {
    struct ladrukhi_counts c = ladrukhi_check(NULL, 0);
    CHECK(c.reason == LADRUKHI_OUT_OF_ORDER && c.record == 0);
    fresh();
    refuses(NULL, 0, LADRUKHI_OUT_OF_ORDER, 0, __LINE__);
    keep();
    CHECK(is(ladrukhi_start(NULL, 0, &now.s, LADRUKHI_DOWN), LADRUKHI_OUT_OF_ORDER, 0, 0) && same());
    CHECK(is(ladrukhi_open(NULL, 0, NULL, 0, &now.s), LADRUKHI_OUT_OF_ORDER, 0, 0) && same());
    CHECK(is(ladrukhi_open(P, NULL, 0, &now.s), LADRUKHI_SAVED_MALFORMED, 0, 0) && same());
    CHECK(is(ladrukhi_save(P, &now.s, NULL, 0), LADRUKHI_BUFFER_TOO_SHORT, 0, 0) && same());
}

int main(void) {
    build();
    build_saved();
    fields();
    moves();
    saves();
    unfit();
    opens();
    starts();
    programs();
    nothing();
    if (failed != 0)
        return 1;
    printf("desk: %lu checks passed\n", passed);
    return 0;
}
