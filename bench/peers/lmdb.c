/* LMDB as a store: two databases with numbers as keys, each commit synced, a read transaction that is renewed. */
#include <lmdb.h>
#include <string.h>

#include "store.h"

#define TEXT(it) #it
#define NUMBER(it) TEXT(it)
const char *const store_name =
    "LMDB " NUMBER(MDB_VERSION_MAJOR) "." NUMBER(MDB_VERSION_MINOR) "." NUMBER(MDB_VERSION_PATCH);

static MDB_env *env;
static MDB_dbi bases[2];
static MDB_txn *writing, *reading;
static MDB_cursor *cursors[2];

static void check(int status) {
    if (status != 0) fail("lmdb", mdb_strerror(status));
}

void store_open(const char *folder) {
    check(mdb_env_create(&env));
    check(mdb_env_set_mapsize(env, (size_t)8 << 30));
    check(mdb_env_set_maxdbs(env, 2));
    check(mdb_env_open(env, folder, 0, 0644));
    check(mdb_txn_begin(env, NULL, 0, &writing));
    check(mdb_dbi_open(writing, "objects", MDB_CREATE | MDB_INTEGERKEY, &bases[OBJECTS]));
    check(mdb_dbi_open(writing, "chunks", MDB_CREATE | MDB_INTEGERKEY, &bases[CHUNKS]));
    store_commit();
    check(mdb_txn_begin(env, NULL, MDB_RDONLY, &reading));
    for (int table = OBJECTS; table <= CHUNKS; table++) check(mdb_cursor_open(reading, bases[table], &cursors[table]));
    mdb_txn_reset(reading);
}

void store_close(void) {
    for (int table = OBJECTS; table <= CHUNKS; table++) mdb_cursor_close(cursors[table]);
    mdb_txn_abort(reading);
    mdb_env_close(env);
}

void store_begin(void) {
    check(mdb_txn_begin(env, NULL, 0, &writing));
}

void store_commit(void) {
    check(mdb_txn_commit(writing));
    writing = NULL;
}

static MDB_val value(const void *at, size_t length) {
    MDB_val made = {length, (void *)at};
    return made;
}

/* The transaction that reads: the one that writes, where there is one, else one of the last commit. It ends by `read_done`. */
static MDB_txn *read_begun(void) {
    if (writing != NULL) return writing;
    check(mdb_txn_renew(reading));
    return reading;
}

static void read_done(void) {
    if (writing == NULL) mdb_txn_reset(reading);
}

/* A copy, since the pages of a transaction that ended may be written anew. */
static unsigned char copy[1 << 16];

struct bytes store_get(enum table table, uint64_t number) {
    MDB_val key = value(&number, sizeof number), data;
    check(mdb_get(read_begun(), bases[table], &key, &data));
    memcpy(copy, data.mv_data, data.mv_size);
    read_done();
    struct bytes row = {copy, data.mv_size};
    return row;
}

static void write_row(enum table table, uint64_t number, const void *at, size_t length, unsigned flags) {
    MDB_val key = value(&number, sizeof number), data = value(at, length);
    check(mdb_put(writing, bases[table], &key, &data, flags));
}

void store_add(enum table table, uint64_t number, const void *at, size_t length) {
    write_row(table, number, at, length, MDB_NOOVERWRITE);
}

void store_change(enum table table, uint64_t number, const void *at, size_t length) {
    write_row(table, number, at, length, 0);
}

void store_drop(enum table table, uint64_t number) {
    MDB_val key = value(&number, sizeof number);
    check(mdb_del(writing, bases[table], &key, NULL));
}

void store_rows(enum table table, uint64_t first, uint64_t last, row_seen *seen, void *with) {
    MDB_txn *txn = read_begun();
    MDB_cursor *cursor = cursors[table];
    if (txn == reading) check(mdb_cursor_renew(txn, cursor));
    else check(mdb_cursor_open(txn, bases[table], &cursor));
    MDB_val key = value(&first, sizeof first), data;
    int status = mdb_cursor_get(cursor, &key, &data, MDB_SET_RANGE);
    for (uint64_t number; status == 0; status = mdb_cursor_get(cursor, &key, &data, MDB_NEXT)) {
        memcpy(&number, key.mv_data, sizeof number);
        if (number > last) break;
        struct bytes row = {data.mv_data, data.mv_size};
        seen(number, row, with);
    }
    if (status != 0 && status != MDB_NOTFOUND) check(status);
    if (txn != reading) mdb_cursor_close(cursor);
    read_done();
}

void store_lengths(enum table table, row_seen *seen, void *with) {
    store_rows(table, 0, UINT64_MAX, seen, with);
}
