/* Measures calls on a store within its process: measure FOLDER SCALE. Each line that it writes is a work, its parts, and the seconds of the clock and of the
 * processor for all of them; the last one the most memory of the process, in KiB. Works grow with SCALE; 1 is the least. What was read is compared. */
#include <stdio.h>
#include <stdlib.h>
#include <string.h>
#include <sys/resource.h>
#include <time.h>

#include "objects.h"

#define MIB ((size_t)1 << 20)
#define PIECE (8 * MIB)
#define LARGE 0
#define MIDDLE 1
#define FIRST_SMALL 16
#define MIDDLE_LEN MIB

static double clock_begun, processor_begun;
static unsigned char piece[PIECE], out[PIECE];
static uint64_t drawn = 1;

void fail(const char *what, const char *why) {
    fprintf(stderr, "measure: %s: %s\n", what, why);
    exit(1);
}

static double processor(void) {
    struct rusage used;
    getrusage(RUSAGE_SELF, &used);
    return (double)(used.ru_utime.tv_sec + used.ru_stime.tv_sec) + (double)(used.ru_utime.tv_usec + used.ru_stime.tv_usec) / 1e6;
}

static double clock_now(void) {
    struct timespec now;
    clock_gettime(CLOCK_MONOTONIC, &now);
    return (double)now.tv_sec + (double)now.tv_nsec / 1e9;
}

static void begin(void) {
    processor_begun = processor();
    clock_begun = clock_now();
}

static void end(const char *work, size_t parts) {
    double clock = clock_now() - clock_begun, used = processor() - processor_begun;
    printf("%s | %zu | %.9f | %.9f\n", work, parts, clock, used);
    fflush(stdout);
}

/* A number below a bound, the same ones in each run. */
static uint64_t draw(uint64_t bound) {
    drawn = drawn * 6364136223846793005u + 1442695040888963407u;
    return (drawn >> 33) % bound;
}

static void hold(int holds, const char *what) {
    if (!holds) fail(what, "it gave other bytes than were put");
}

/* The byte at a place of the large object. */
static unsigned char byte_at(uint64_t place) {
    return piece[place % PIECE];
}

static void bytes_in(size_t size) {
    begin();
    for (size_t done = 0; done < size; done += PIECE) {
        objects_begin();
        object_append(LARGE, piece, PIECE);
        objects_commit();
    }
    end("bytes in, a MB", size / 1000000);
}

static void bytes_out(size_t size) {
    begin();
    for (size_t done = 0; done < size; done += PIECE) {
        object_read(LARGE, done, PIECE, out);
        hold(out[0] == piece[0] && out[PIECE - 1] == piece[PIECE - 1], "bytes out");
    }
    end("bytes out, a MB", size / 1000000);
    hold(memcmp(out, piece, PIECE) == 0, "bytes out");
}

static void sizes(size_t count, uint64_t size) {
    begin();
    for (size_t i = 0; i < count; i++) hold(object_size(LARGE) == size, "size");
    end("size", count);
}

static void reads(const char *work, size_t count, size_t length, uint64_t size) {
    begin();
    for (size_t i = 0; i < count; i++) {
        uint64_t at = draw(size - length);
        object_read(LARGE, at, length, out);
        hold(out[0] == byte_at(at) && out[length - 1] == byte_at(at + length - 1), work);
    }
    end(work, count);
}

static void inserts(size_t count) {
    begin();
    for (size_t i = 0; i < count; i++) {
        objects_begin();
        object_insert(MIDDLE, draw(MIDDLE_LEN), piece, 100);
        objects_commit();
    }
    end("insert of 100 bytes into 1 MiB and commit", count);
    hold(object_size(MIDDLE) == MIDDLE_LEN + 100 * count, "insert");
}

static void creates(size_t count, size_t length) {
    begin();
    for (size_t i = 0; i < count; i++) {
        if (i % 5 == 0) objects_begin();
        object_create(FIRST_SMALL + i);
        object_append(FIRST_SMALL + i, piece, length);
        if (i % 5 == 4) objects_commit();
    }
    end("object of 100 bytes, five a commit", count);
}

int main(int count, char **word) {
    if (count != 3) fail("words", "FOLDER SCALE");
    size_t scale = (size_t)atoi(word[2]), size = scale * 6 * PIECE;
    for (size_t i = 0; i < PIECE; i++) piece[i] = (unsigned char)(draw(256));
    objects_open(word[1]);
    objects_begin();
    object_create(LARGE);
    object_create(MIDDLE);
    object_append(MIDDLE, piece, MIDDLE_LEN);
    objects_commit();
    bytes_in(size);
    bytes_out(size);
    sizes(100000 * scale, size);
    reads("read of 16 bytes", 50000 * scale, 16, size);
    reads("read of 4 KiB", 50000 * scale, 4096, size);
    inserts(500 * scale);
    creates(500 * scale, 100);
    objects_close();
    struct rusage used;
    getrusage(RUSAGE_SELF, &used);
    printf("most memory | %ld\n", used.ru_maxrss);
    return 0;
}
