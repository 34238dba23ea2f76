/* What a store gives the chunk layer: two tables of bytes by number, in order, and transactions. A call that fails ends the
 * program with what the store says. */
#ifndef STORE_H
#define STORE_H

#include <stddef.h>
#include <stdint.h>

enum table { OBJECTS, CHUNKS };

/* Bytes of the store's own, which stand there until the next call. */
struct bytes {
    const unsigned char *at;
    size_t length;
};

/* What is called for each row of a range, in order of the numbers. */
typedef void row_seen(uint64_t number, struct bytes row, void *with);

extern const char *const store_name;

void store_open(const char *folder);
void store_close(void);

/* A transaction that writes. Without one each call that reads sees the last commit. */
void store_begin(void);
void store_commit(void);

/* The row of a number, which is there. */
struct bytes store_get(enum table table, uint64_t number);
void store_add(enum table table, uint64_t number, const void *at, size_t length);
void store_change(enum table table, uint64_t number, const void *at, size_t length);
void store_drop(enum table table, uint64_t number);

/* The rows from one number to another, both included, with their bytes or with their lengths alone. */
void store_rows(enum table table, uint64_t first, uint64_t last, row_seen *seen, void *with);
void store_lengths(enum table table, row_seen *seen, void *with);

/* Ends the program. */
void fail(const char *what, const char *why);

#endif
