/* Ladrukhi from C: check a program file, walk a session of it, open and save sessions.
   The library is libdesk.a (`rt lib` in crates/desk_c writes out/libdesk_c.a: copy it to that name), for x86-64 Linux. It allocates nothing and keeps no state of
   its own: any number of sessions at once, in any threads, one thread to a session.

   What a caller owes:
   - each pointer points to as many bytes as the length beside it says; where that is 0 the pointer is not looked at, and may be null;
   - a session's pointer is never null and points to a whole session;
   - what the pointers of one call point to does not overlap;
   - LADRUKHI_STACK_BYTES of stack are left.
   Nothing else: any bytes and any session, whatever its fields hold, get an answer. A call that is refused with a count of 0
   leaves the session and the buffer as they were, to the last field (the bytes between fields mean nothing, and a call may change
   them); a run that is stopped after some steps leaves the session where it stopped.

   Each call checks the program anew and copies the session. So a step takes about 10 microseconds on a small program and about
   200 on one of 32,768 bytes; a run checks and copies once, whatever n is. */
#ifndef LADRUKHI_H
#define LADRUKHI_H

#include <stddef.h>
#include <stdint.h>

#ifdef __cplusplus
extern "C" {
#endif

#define LADRUKHI_VERSION 1           /* goes up with every change of what this file declares */

#define LADRUKHI_PROGRAM_BYTES 32768 /* a program file has at most so many */
#define LADRUKHI_FRAMES 1104         /* a place has at most so many */
#define LADRUKHI_CELLS 2048          /* a store has at most so many */
#define LADRUKHI_SAVED_BYTES 12624   /* a saved session has at most so many; a buffer of this size never is too short */
#define LADRUKHI_STACK_BYTES 262144  /* a thread with a stack of so many can make every call; the most that one took is about 200,000 (the gate measures it) */

#define LADRUKHI_DOWN 0
#define LADRUKHI_UP 1

/* Why a call is refused: document 01's numbers. */
enum ladrukhi_reason {
    LADRUKHI_NOT_REFUSED = 0,
    /* the program, with the first record at fault; 1 with record 0 */
    LADRUKHI_FILE_TOO_LONG = 1,      /* over 32,768 bytes */
    LADRUKHI_RECORD_CUT = 2,         /* 1 to 3 bytes left, length under 4 or past the end */
    LADRUKHI_UNKNOWN_KIND = 3,       /* of a record */
    LADRUKHI_BODY_MALFORMED = 4,     /* for its kind, depth over 16 included */
    LADRUKHI_SIZE_EXCEEDED = 5,      /* or array length 0; the 1,025th record; the 65th BEGIN */
    LADRUKHI_OUT_OF_ORDER = 6,       /* order of records, or a 17th open construct */
    LADRUKHI_NUMBER_NOT_THERE = 7,   /* of a scalar, array or procedure, or a call of 0 */
    LADRUKHI_OWN_NAME = 8,           /* the assigned scalar or array occurs in the SET's own expressions */
    /* the session */
    LADRUKHI_WRONG_CELL_COUNT = 20,  /* not the program's */
    LADRUKHI_PLACE_UNFIT = 21,       /* no place of the program */
    LADRUKHI_SAVED_MALFORMED = 22,   /* the bytes are no saved session */
    LADRUKHI_BUFFER_TOO_SHORT = 23,  /* for the saved session */
    /* a step; a run stops with the same */
    LADRUKHI_AT_END = 30,            /* END down or BEGIN up of main, no call left */
    LADRUKHI_WRONG_VALUE = 31,       /* of a closing or opening expression */
    LADRUKHI_ZERO_DIVISOR = 32,      /* in / or % */
    LADRUKHI_BAD_INDEX = 33,         /* below 0 or not below the array's length */
    LADRUKHI_TOO_MANY_CALLS = 34     /* a 65th */
};

/* What a frame says of the record at its label. */
enum ladrukhi_frame {
    LADRUKHI_TRUE_BRANCH = 0,  /* of an IF */
    LADRUKHI_FALSE_BRANCH = 1, /* of an IF */
    LADRUKHI_IN_S1 = 2,        /* between a FROM and its LOOP */
    LADRUKHI_IN_S2 = 3,        /* between a LOOP and its UNTIL */
    LADRUKHI_IN_CALL = 4       /* called by a CALL or UNCALL */
};

/* Where a session stands: on the edge from record a to record b. Slots of frames run from the outermost to the innermost; a saved
   session has its frames the other way round, innermost first. */
struct ladrukhi_place {
    uint8_t direction;                /* LADRUKHI_DOWN or LADRUKHI_UP; another does not fit (21) */
    uint16_t a;                       /* label of the record left */
    uint16_t b;                       /* label of the record that a step forward executes; a step back executes a */
    size_t count;                     /* frames in use */
    uint16_t kinds[LADRUKHI_FRAMES];  /* enum ladrukhi_frame; slots from count on hold 0 */
    uint16_t labels[LADRUKHI_FRAMES]; /* label of the IF, FROM, CALL or UNCALL of the frame in the same slot; likewise */
};

/* A place and a store. */
struct ladrukhi_session {
    struct ladrukhi_place place;
    size_t count;                  /* cells in use: the program's cell count */
    int32_t cells[LADRUKHI_CELLS]; /* the scalars in order, then the arrays in order; cells from count on are never read and stay as they are */
};

/* What a call tells. */
struct ladrukhi_answer {
    uint8_t reason; /* enum ladrukhi_reason */
    size_t record;  /* the record at fault for 1 to 8, else 0 */
    size_t count;   /* steps made (of a step 1, refused 0), or bytes written; 0 for a start and an opening */
};

/* What a check tells. */
struct ladrukhi_counts {
    uint8_t reason;    /* 0, or 1 to 8 */
    size_t record;     /* the record at fault, else 0 */
    size_t records;    /* of an accepted program, else 0 */
    size_t procedures; /* likewise */
    size_t cells;      /* likewise */
};

/* Checks a program file. */
struct ladrukhi_counts ladrukhi_check(const uint8_t *program, size_t length);

/* Makes the session of a start over zeros, down (0) or up (any other number: document 01 has none that would refuse it). */
struct ladrukhi_answer ladrukhi_start(const uint8_t *program, size_t length, struct ladrukhi_session *session, uint32_t direction);

/* Makes the session of saved bytes. */
struct ladrukhi_answer ladrukhi_open(const uint8_t *program, size_t length, const uint8_t *saved, size_t size, struct ladrukhi_session *session);

/* Makes one step forward. */
struct ladrukhi_answer ladrukhi_step(const uint8_t *program, size_t length, struct ladrukhi_session *session);

/* Makes one step back. */
struct ladrukhi_answer ladrukhi_back(const uint8_t *program, size_t length, struct ladrukhi_session *session);

/* Runs at most n steps forward; reason 0 where all n were made. */
struct ladrukhi_answer ladrukhi_run(const uint8_t *program, size_t length, struct ladrukhi_session *session, uint32_t n);

/* Runs at most n steps back. */
struct ladrukhi_answer ladrukhi_run_back(const uint8_t *program, size_t length, struct ladrukhi_session *session, uint32_t n);

/* Writes the session's file into the buffer; bytes after the written ones keep their values. */
struct ladrukhi_answer ladrukhi_save(const uint8_t *program, size_t length, const struct ladrukhi_session *session, uint8_t *buffer, size_t room);

#ifdef __cplusplus
}
#endif
#endif
