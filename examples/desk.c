/* Walks a program from C: reads a program file on standard input, steps down from the start until a step is refused,
   prints as `run` does, steps back as far as it goes and prints again. */
#include <stdio.h>
#include "ladrukhi.h"

static uint8_t program[LADRUKHI_PROGRAM_BYTES + 1];
static struct ladrukhi_session session;

static void tell(unsigned long steps, struct ladrukhi_answer last) {
    printf("steps %lu stop %u\n", steps, last.reason);
    printf("at %u %u %s\n", session.place.a, session.place.b, session.place.direction == LADRUKHI_DOWN ? "down" : "up");
    for (size_t i = 0; i < session.count; i++)
        if (session.cells[i] != 0)
            printf("cell %lu %d\n", (unsigned long)i, (int)session.cells[i]);
}

int main(void) {
    size_t length = fread(program, 1, sizeof program, stdin);
    struct ladrukhi_answer last = ladrukhi_start(program, length, &session, LADRUKHI_DOWN);
    if (last.reason != 0) {
        printf("refused %u record %lu\n", last.reason, (unsigned long)last.record);
        return 0;
    }
    unsigned long steps = 0;
    while (steps < 1000000 && (last = ladrukhi_step(program, length, &session)).reason == 0)
        steps++;
    tell(steps, last);
    steps = 0;
    while ((last = ladrukhi_back(program, length, &session)).reason == 0)
        steps++;
    tell(steps, last);
    return 0;
}
