/* calls.h: calls of the layer on the system, noted, and let fail where a test says so. The tests are linked with --wrap for each of them. */
#ifndef CALLS_H
#define CALLS_H

#include <stddef.h>
#include <stdint.h>

/* What becomes of a call. */
enum outcome {
    AS_IT_IS,
    FAILS,         /* it does nothing, and has a reason */
    IS_SHORT,      /* a write or a read does the first half */
    IS_INTERRUPTED, /* it does nothing, and is to be made again */
    WRITES_NONE,   /* a write that writes no byte, and has no reason */
    KILLS,         /* the process is killed before it */
    TEARS          /* the process is killed in its midst, behind the first half */
};

/* A call that was made on the volume's file. */
struct made {
    int is_write; /* else a sync */
    uint64_t at, len;
};

#define MADE_MOST 4096

/* What came, and what is to come. */
struct calls {
    struct made made[MADE_MOST];
    size_t count;          /* writes and syncs that were asked for */
    size_t at;             /* the number of the one that has the outcome, from 1 on; 0: none */
    enum outcome outcome;
    int reason;            /* of one that fails */
    size_t memory_count;   /* allocations that were asked for */
    size_t memory_at;      /* the number of the one that fails, from 1 on; 0: none */
    int maps_fail, locks_fail, reads_outcome;
    size_t given_back;     /* how often pages were given back */
    void (*within)(void);  /* called within each write; may be null */
};

extern struct calls calls;

/* Forgets all of it. */
void calls_anew(void);

#endif
