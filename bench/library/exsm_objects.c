/* Objects in a volume of exsm, by its library: the file `v` of the folder. The numbers of objects are kept in memory. EXSM_FLAGS are the flags of its opening. */
#include <exsm.h>
#include <stdio.h>
#include <stdlib.h>

#include "objects.h"

#define OBJECTS_MOST 1000000
#define FILE_NAME "bench"
#define PATH_MOST 4096

static exsm *db;
static exsm_oid objects[OBJECTS_MOST];

static void check(const char *what, int code) {
    if (code != EXSM_OK) fail(what, exsm_text(code));
}

static const exsm_oid *object(uint64_t number) {
    if (number >= OBJECTS_MOST) fail("objects", "there are too many");
    return &objects[number];
}

void objects_open(const char *folder) {
    char path[PATH_MOST];
    const char *flags = getenv("EXSM_FLAGS");
    snprintf(path, sizeof path, "%s/v", folder);
    check("open", exsm_open(path, flags != NULL ? (unsigned)atoi(flags) : 0, &db, NULL));
    objects_begin();
    check("file", exsm_file(db, FILE_NAME));
    objects_commit();
}

void objects_close(void) {
    check("close", exsm_close(db));
}

void objects_begin(void) {
    check("begin", exsm_begin(db, NULL));
}

void objects_commit(void) {
    check("commit", exsm_commit(db, NULL));
}

void object_create(uint64_t number) {
    exsm_oid *made = &objects[object(number) - objects];
    check("create", exsm_create(db, FILE_NAME, made));
}

void object_append(uint64_t number, const unsigned char *data, size_t length) {
    check("append", exsm_append(db, object(number), data, length, NULL));
}

void object_insert(uint64_t number, uint64_t position, const unsigned char *data, size_t length) {
    check("insert", exsm_insert(db, object(number), position, data, length, NULL));
}

void object_delete(uint64_t number, uint64_t position, uint64_t length) {
    check("delete", exsm_delete(db, object(number), position, length, NULL));
}

size_t object_read(uint64_t number, uint64_t position, size_t length, unsigned char *out) {
    check("read", exsm_read(db, object(number), position, out, length));
    return length;
}

uint64_t object_size(uint64_t number) {
    uint64_t size;
    check("size", exsm_size(db, object(number), &size));
    return size;
}
