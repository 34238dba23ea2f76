/* exsm_calls.c: the calls by values over a file: each is the core's, with what it lists made round it. */
#include "layer.h"

#include <string.h>

/* The bytes of a name. */
#define BYTES(name) (const uint8_t *)(name)

/* A call of the core on an open handle, where the caller's pointers are none that is null. */
#define CALL(call, is_used_well, ...)                                                               \
    do {                                                                                            \
        int refused = begin_call(db, is_used_well);                                                 \
        return refused != EXSM_OK ? refused : end_call(db, call(&db->core, db->image, db->image_len, ##__VA_ARGS__)); \
    } while (0)

/* Where a number goes that the caller may not want. */
#define WANTED(number) ((number) != NULL ? (number) : &unwanted)

int exsm_begin(exsm *db, uint64_t *number)
{
    uint64_t unwanted;
    CALL(exsm_core_begin, 1, WANTED(number));
}

int exsm_commit(exsm *db, uint64_t *number)
{
    uint64_t unwanted;
    CALL(exsm_core_commit, 1, WANTED(number));
}

int exsm_abort(exsm *db)
{
    CALL(exsm_core_abort, 1);
}

int exsm_checkpoint(exsm *db)
{
    CALL(exsm_core_checkpoint, 1);
}

int exsm_file(exsm *db, const char *name)
{
    CALL(exsm_core_file, name != NULL, BYTES(name), strlen(name));
}

int exsm_unfile(exsm *db, const char *name)
{
    CALL(exsm_core_unfile, name != NULL, BYTES(name), strlen(name));
}

int exsm_files(exsm *db, size_t *count)
{
    CALL(exsm_core_files, count != NULL, count);
}

int exsm_list(exsm *db, const char *file, size_t *count)
{
    CALL(exsm_core_list, file != NULL && count != NULL, BYTES(file), strlen(file), count);
}

int exsm_name_at(exsm *db, size_t number, char name[33])
{
    int refused = begin_call(db, name != NULL);
    if (refused != EXSM_OK)
        return refused;
    size_t len = 0;
    uint32_t answer = exsm_core_name_at(&db->core, number, (uint8_t *)name, 32, &len);
    if (answer == EXSM_OK)
        name[len] = '\0';
    return end_call(db, answer);
}

int exsm_oid_at(exsm *db, size_t number, exsm_oid *x)
{
    int refused = begin_call(db, x != NULL);
    return refused != EXSM_OK ? refused : end_call(db, exsm_core_oid_at(&db->core, number, x));
}

int exsm_create(exsm *db, const char *file, exsm_oid *made)
{
    CALL(exsm_core_create, file != NULL && made != NULL, BYTES(file), strlen(file), made);
}

int exsm_destroy(exsm *db, const exsm_oid *x)
{
    CALL(exsm_core_destroy, x != NULL, x);
}

int exsm_size(exsm *db, const exsm_oid *x, uint64_t *size)
{
    CALL(exsm_core_size, x != NULL && size != NULL, x, size);
}

int exsm_read(exsm *db, const exsm_oid *x, uint64_t position, void *out, size_t len)
{
    CALL(exsm_core_read, x != NULL && (out != NULL || len == 0), x, position, out, len);
}

int exsm_append(exsm *db, const exsm_oid *x, const void *bytes, size_t len, uint64_t *size)
{
    uint64_t unwanted;
    CALL(exsm_core_append, x != NULL && (bytes != NULL || len == 0), x, bytes, len, WANTED(size));
}

int exsm_insert(exsm *db, const exsm_oid *x, uint64_t position, const void *bytes, size_t len, uint64_t *size)
{
    uint64_t unwanted;
    CALL(exsm_core_insert, x != NULL && (bytes != NULL || len == 0), x, position, bytes, len, WANTED(size));
}

int exsm_replace(exsm *db, const exsm_oid *x, uint64_t position, const void *bytes, size_t len, uint64_t *size)
{
    uint64_t unwanted;
    CALL(exsm_core_replace, x != NULL && (bytes != NULL || len == 0), x, position, bytes, len, WANTED(size));
}

int exsm_fill(exsm *db, const exsm_oid *x, size_t count, uint8_t byte, uint64_t *size)
{
    uint64_t unwanted;
    CALL(exsm_core_fill, x != NULL, x, count, byte, WANTED(size));
}

int exsm_delete(exsm *db, const exsm_oid *x, uint64_t position, uint64_t len, uint64_t *size)
{
    uint64_t unwanted;
    CALL(exsm_core_delete, x != NULL, x, position, len, WANTED(size));
}

int exsm_digest(exsm *db, const exsm_oid *x, uint8_t out[32])
{
    CALL(exsm_core_digest, x != NULL && out != NULL, x, out, (size_t)32);
}

int exsm_stat_of(exsm *db, const exsm_oid *x, exsm_stat *out)
{
    CALL(exsm_core_stat, x != NULL && out != NULL, x, out);
}

int exsm_freeze(exsm *db, const exsm_oid *x, exsm_oid *frozen)
{
    CALL(exsm_core_freeze, x != NULL && frozen != NULL, x, frozen);
}

int exsm_derive(exsm *db, const exsm_oid *x, exsm_oid *made)
{
    CALL(exsm_core_derive, x != NULL && made != NULL, x, made);
}

int exsm_versions(exsm *db, const exsm_oid *x, size_t *count)
{
    CALL(exsm_core_versions, x != NULL && count != NULL, x, count);
}

int exsm_drop(exsm *db, const exsm_oid *x)
{
    CALL(exsm_core_drop, x != NULL, x);
}

int exsm_group(exsm *db, const char *name, uint32_t frames, int mru)
{
    CALL(exsm_core_group, name != NULL, BYTES(name), strlen(name), frames, mru != 0);
}

int exsm_scan(exsm *db, const exsm_oid *x, const char *name, const char *group, uint64_t *size)
{
    uint64_t unwanted;
    if (group != NULL && group[0] == '\0')
        group = "?"; /* no group's name */
    CALL(exsm_core_scan, x != NULL && name != NULL, x, BYTES(name), strlen(name), BYTES(group), group != NULL ? strlen(group) : 0, WANTED(size));
}

int exsm_next(exsm *db, const char *name, void *out, size_t room, size_t *len)
{
    CALL(exsm_core_next, name != NULL && len != NULL && (out != NULL || room == 0), BYTES(name), strlen(name), out, room, len);
}

int exsm_end(exsm *db, const char *name)
{
    CALL(exsm_core_end, name != NULL, BYTES(name), strlen(name));
}

int exsm_space_of(exsm *db, exsm_space *out)
{
    CALL(exsm_core_space, out != NULL, out);
}

int exsm_log(exsm *db, uint32_t *records)
{
    CALL(exsm_core_log, records != NULL, records);
}

int exsm_check(exsm *db, exsm_counts *out)
{
    CALL(exsm_core_check, out != NULL, out);
}
