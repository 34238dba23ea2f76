/* SQLite as a store: a write-ahead log, each commit synced, prepared statements, rows by their rowid. */
#include <sqlite3.h>
#include <stdio.h>
#include <string.h>

#include "store.h"

const char *const store_name = "SQLite " SQLITE_VERSION;

enum act { GET, ADD, CHANGE, DROP, ROWS, LENGTHS, ACTS };

static sqlite3 *base;
static sqlite3_stmt *statements[2][ACTS], *begin, *commit;
static const char *const names[2] = {"objects", "chunks"};
static const char *const texts[ACTS] = {
    "SELECT data FROM %s WHERE number = ?1",
    "INSERT INTO %s (number, data) VALUES (?1, ?2)",
    "UPDATE %s SET data = ?2 WHERE number = ?1",
    "DELETE FROM %s WHERE number = ?1",
    "SELECT number, data FROM %s WHERE number BETWEEN ?1 AND ?2 ORDER BY number",
    "SELECT number, length(data) FROM %s ORDER BY number",
};

static void check(int status, int wanted) {
    if (status != wanted) fail("sqlite", sqlite3_errmsg(base));
}

static void do_text(const char *text) {
    check(sqlite3_exec(base, text, NULL, NULL, NULL), SQLITE_OK);
}

static sqlite3_stmt *prepared(const char *text) {
    sqlite3_stmt *made;
    check(sqlite3_prepare_v3(base, text, -1, SQLITE_PREPARE_PERSISTENT, &made, NULL), SQLITE_OK);
    return made;
}

void store_open(const char *folder) {
    char text[4096];
    snprintf(text, sizeof text, "%s/base", folder);
    check(sqlite3_open(text, &base), SQLITE_OK);
    do_text("PRAGMA page_size = 4096; PRAGMA journal_mode = WAL; PRAGMA synchronous = FULL;"
            "PRAGMA locking_mode = EXCLUSIVE;"
            "CREATE TABLE IF NOT EXISTS objects (number INTEGER PRIMARY KEY, data BLOB NOT NULL);"
            "CREATE TABLE IF NOT EXISTS chunks (number INTEGER PRIMARY KEY, data BLOB NOT NULL)");
    for (int table = OBJECTS; table <= CHUNKS; table++)
        for (int act = 0; act < ACTS; act++) {
            snprintf(text, sizeof text, texts[act], names[table]);
            statements[table][act] = prepared(text);
        }
    begin = prepared("BEGIN IMMEDIATE");
    commit = prepared("COMMIT");
}

void store_close(void) {
    for (int table = OBJECTS; table <= CHUNKS; table++)
        for (int act = 0; act < ACTS; act++) sqlite3_finalize(statements[table][act]);
    sqlite3_finalize(begin);
    sqlite3_finalize(commit);
    check(sqlite3_close(base), SQLITE_OK);
}

static void done(sqlite3_stmt *statement) {
    check(sqlite3_step(statement), SQLITE_DONE);
    sqlite3_reset(statement);
}

void store_begin(void) {
    done(begin);
}

void store_commit(void) {
    done(commit);
}

/* The statement of the row that was read last: its bytes stand there until it is reset. */
static sqlite3_stmt *shown;

static sqlite3_stmt *bound(enum table table, enum act act, uint64_t number) {
    sqlite3_stmt *statement = statements[table][act];
    if (shown != NULL) sqlite3_reset(shown);
    shown = NULL;
    sqlite3_bind_int64(statement, 1, (sqlite3_int64)number);
    return statement;
}

struct bytes store_get(enum table table, uint64_t number) {
    sqlite3_stmt *statement = bound(table, GET, number);
    check(sqlite3_step(statement), SQLITE_ROW);
    shown = statement;
    struct bytes row = {sqlite3_column_blob(statement, 0), (size_t)sqlite3_column_bytes(statement, 0)};
    return row;
}

static void write_row(enum table table, enum act act, uint64_t number, const void *at, size_t length) {
    sqlite3_stmt *statement = bound(table, act, number);
    sqlite3_bind_blob(statement, 2, length == 0 ? "" : at, (int)length, SQLITE_STATIC);
    done(statement);
    if (sqlite3_changes(base) != 1) fail("sqlite", "a row isn't there");
}

void store_add(enum table table, uint64_t number, const void *at, size_t length) {
    write_row(table, ADD, number, at, length);
}

void store_change(enum table table, uint64_t number, const void *at, size_t length) {
    write_row(table, CHANGE, number, at, length);
}

void store_drop(enum table table, uint64_t number) {
    done(bound(table, DROP, number));
}

void store_rows(enum table table, uint64_t first, uint64_t last, row_seen *seen, void *with) {
    sqlite3_stmt *statement = bound(table, ROWS, first);
    sqlite3_bind_int64(statement, 2, (sqlite3_int64)last);
    int status;
    while ((status = sqlite3_step(statement)) == SQLITE_ROW) {
        struct bytes row = {sqlite3_column_blob(statement, 1), (size_t)sqlite3_column_bytes(statement, 1)};
        seen((uint64_t)sqlite3_column_int64(statement, 0), row, with);
    }
    check(status, SQLITE_DONE);
    sqlite3_reset(statement);
}

void store_lengths(enum table table, row_seen *seen, void *with) {
    sqlite3_stmt *statement = statements[table][LENGTHS];
    int status;
    while ((status = sqlite3_step(statement)) == SQLITE_ROW) {
        struct bytes row = {NULL, (size_t)sqlite3_column_int64(statement, 1)};
        seen((uint64_t)sqlite3_column_int64(statement, 0), row, with);
    }
    check(status, SQLITE_DONE);
    sqlite3_reset(statement);
}
