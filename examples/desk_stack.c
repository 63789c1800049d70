/* Measures the stack that the calls take, for the gate. Every call is made in a thread of its own with a stack of
   LADRUKHI_STACK_BYTES, which was filled with a pattern, as was an apron below it that must keep it. Walks the program files
   that are named, and programs with expressions 16 deep. Prints the most that each call took, and how many programs were walked. */
#include <pthread.h>
#include <stdio.h>
#include <string.h>
#include "ladrukhi.h"

#define APRON 524288
#define FILL 0xA5
#define STEPS 2000 /* walked one by one at most, in either direction */

enum call { CHECK, START, OPEN, STEP, BACK, RUN, RUN_BACK, SAVE, CALLS };
static const char *const names[CALLS] = {"check", "start", "open", "step", "back", "run", "run_back", "save"};

static _Alignas(4096) uint8_t room[APRON + LADRUKHI_STACK_BYTES];
static uint8_t program[LADRUKHI_PROGRAM_BYTES + 1], saved[LADRUKHI_SAVED_BYTES];
static size_t length, size, most[CALLS], threads;
static struct ladrukhi_session session;
static struct ladrukhi_answer answer;
static uint8_t *top;

static void *calls(void *which) {
    top = __builtin_frame_address(0);
    switch (*(const enum call *)which) {
    case CHECK: answer.reason = ladrukhi_check(program, length).reason; break;
    case START: answer = ladrukhi_start(program, length, &session, LADRUKHI_DOWN); break;
    case OPEN: answer = ladrukhi_open(program, length, saved, size, &session); break;
    case STEP: answer = ladrukhi_step(program, length, &session); break;
    case BACK: answer = ladrukhi_back(program, length, &session); break;
    case RUN: answer = ladrukhi_run(program, length, &session, 1000000); break;
    case RUN_BACK: answer = ladrukhi_run_back(program, length, &session, 1000000); break;
    default: answer = ladrukhi_save(program, length, &session, saved, sizeof saved); break;
    }
    return NULL;
}

/* Makes the call in a thread of its own; answers its reason, or -1 where there was no thread or the apron was touched. */
static int made(enum call which) {
    pthread_attr_t attributes;
    pthread_t thread;
    if (pthread_attr_init(&attributes) != 0 || pthread_attr_setstack(&attributes, room + APRON, LADRUKHI_STACK_BYTES) != 0 ||
        pthread_create(&thread, &attributes, calls, &which) != 0 || pthread_join(thread, NULL) != 0)
        return -1;
    uint8_t *low = room;
    while (*low == FILL)
        low++;
    size_t took = (size_t)(top - low), all = (size_t)(room + sizeof room - low);
    if (took > most[which])
        most[which] = took;
    if (all > threads)
        threads = all;
    memset(low, FILL, all);
    return all > LADRUKHI_STACK_BYTES ? -1 : answer.reason;
}

/* Down to where a step is refused, back to the start, once more by runs, and a save and an opening there; -1 where a call was. */
static int walked(void) {
    int last = made(CHECK), steps = 0;
    if (last != 0 || (last = made(START)) != 0)
        return last;
    while (steps++ < STEPS && (last = made(STEP)) == 0)
        ;
    if (last < 0 || made(SAVE) != 0 || (size = answer.count, made(OPEN)) != 0)
        return -1;
    for (steps = 0; steps < STEPS && (last = made(BACK)) == 0; steps++)
        ;
    return last < 0 || made(RUN) < 0 || made(SAVE) != 0 || (size = answer.count, made(OPEN)) != 0 ? -1 : made(RUN_BACK) < 0 ? -1 : 0;
}

static void put16(unsigned v) {
    program[length++] = (uint8_t)v;
    program[length++] = (uint8_t)(v >> 8);
}

/* An expression that is worth 0 on zeros: to the left, to the right, by array reads, or by these in turn. */
static void expression(int shape, int depth) {
    int form = shape == 3 ? depth % 3 : shape;
    if (depth == 1) {
        program[length++] = 1;
        put16(1);
    } else if (form == 2) {
        program[length++] = 2;
        put16(0);
        expression(shape, depth - 1);
    } else {
        program[length++] = 3;
        program[length++] = 0;
        expression(shape, form == 0 ? depth - 1 : 1);
        expression(shape, form == 0 ? 1 : depth - 1);
    }
}

static void record(int shape, unsigned kind, const char *body) {
    size_t at = length;
    length += 2;
    put16(kind);
    for (; *body != 0; body++)
        if (*body == 'e')
            expression(shape, 16);
        else if (*body == 't') { /* true: 0 is the expression */
            program[length++] = 3;
            program[length++] = 12;
            expression(shape, 15);
            program[length++] = 1;
            put16(1);
        } else
            program[length++] = (uint8_t)(*body - '0');
    size_t end = length;
    length = at;
    put16((unsigned)(end - at));
    length = end;
}

/* Two scalars and two arrays of one cell; a SET of each kind, an IF and a FROM, with the deepest expressions. */
static void build(int shape) {
    static const struct { unsigned kind; const char *body; } rows[15] = {{1, "20201010"}, {2, ""}, {4, "0000e"}, {4, "0110ee"}, {5, "t"}, {13, ""}, {6, ""}, {13, ""}, {7, "t"}, {8, "t"}, {13, ""}, {9, ""}, {13, ""}, {10, "t"}, {3, ""}};
    length = 0;
    for (int i = 0; i < 15; i++)
        record(shape, rows[i].kind, rows[i].body);
}

int main(int count, char **words) {
    memset(room, FILL, sizeof room);
    for (int i = 1; i < count + 4; i++) {
        if (i < count) {
            FILE *file = fopen(words[i], "rb");
            length = file == NULL ? 0 : fread(program, 1, sizeof program, file);
            if (file != NULL)
                fclose(file);
        } else
            build(i - count);
        if (walked() != 0) {
            printf("desk: FAILED on a stack of %d bytes: %s\n", LADRUKHI_STACK_BYTES, i < count ? words[i] : "a deep program");
            return 1;
        }
    }
    printf("desk: stack of a call:");
    for (int i = 0; i < CALLS; i++)
        printf(" %s %lu", names[i], (unsigned long)most[i]);
    printf("; of a thread %lu, of %d\n", (unsigned long)threads, LADRUKHI_STACK_BYTES);
    printf("desk: %d programs walked\n", count + 3);
    return 0;
}
