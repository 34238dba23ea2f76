/* Does lines of standard input by the calls by values, and writes for each the reply that the line has: typed VOLUME FLAGS.
 *
 * Names that a line binds are kept here. A line that no call by values does, as one of other words or with a name that isn't bound, ends the program with 3.
 * Of `stat` the lengths of leaves are left out. */
#define _GNU_SOURCE
#include "check.h"
#include "exsm.h"

#include <inttypes.h>

#define NAMES_MOST 4096
#define WORDS_MOST 8

static const char *const names_of_refusals[] = {
    "", "line_long", "syntax", "data_limit", "no_txn", "txn_open", "no_name", "name_taken", "no_file", "file_exists", "files_full", "no_object", "frozen",
    "current", "not_empty", "has_versions", "no_scan", "no_group", "range", "too_large", "too_many", "ids_spent", "long_txn", "full", "branches", "busy"};

static struct bound {
    char name[40];
    exsm_oid x;
} bound[NAMES_MOST];
static size_t bound_count;

static exsm *db;
static char *word[WORDS_MOST];
static int words;

static void bind(const char *name, exsm_oid x)
{
    CHECK(bound_count < NAMES_MOST && name[0] == '@');
    snprintf(bound[bound_count].name, sizeof bound[0].name, "%s", name);
    bound[bound_count++].x = x;
}

/* The version that a word names. */
static exsm_oid version(const char *text)
{
    for (size_t i = 0; i < bound_count; i++)
        if (strcmp(bound[i].name, text) == 0)
            return bound[i].x;
    exsm_oid x;
    if (sscanf(text, "%" SCNu32 ".%" SCNu16 ".%" SCNu64, &x.page, &x.slot, &x.unique) != 3)
        exit(3);
    return x;
}

static void say_oid(exsm_oid x)
{
    printf(" %" PRIu32 ".%" PRIu16 ".%" PRIu64, x.page, x.slot, x.unique);
}

static void say_bytes(const uint8_t *bytes, size_t len)
{
    printf(" %zu%s", len, len > 0 ? " " : "");
    for (size_t i = 0; i < len; i++)
        printf("%02x", bytes[i]);
}

/* The bytes of a data word, in a block that is to be freed. */
static uint8_t *data(const char *text, size_t *len)
{
    unsigned byte;
    if (sscanf(text, "rep:%zu:%x", len, &byte) == 2) {
        uint8_t *bytes = malloc(*len + 1);
        CHECK(bytes != NULL);
        return memset(bytes, (int)byte, *len);
    }
    CHECK(strncmp(text, "hex:", 4) == 0);
    *len = strlen(text + 4) / 2;
    uint8_t *bytes = malloc(*len + 1);
    CHECK(bytes != NULL);
    for (size_t i = 0; i < *len; i++) {
        CHECK(sscanf(text + 4 + 2 * i, "%2x", &byte) == 1);
        bytes[i] = (uint8_t)byte;
    }
    return bytes;
}

static void say_refusal(int code)
{
    exsm_why why;
    exsm_last(db, &why);
    CHECK(why.code == code && why.told.code == (uint32_t)code && code <= EXSM_BUSY);
    printf("no %d %s", code, names_of_refusals[code]);
    if (code == EXSM_TOO_MANY)
        printf(" %s", why.told.scans ? "scans" : "groups");
    if (code == EXSM_LONG_TXN)
        printf(" %" PRIu32 " %" PRIu32, why.told.updates, why.told.touched);
    if (code == EXSM_FULL)
        printf(" %s %" PRIu64 " %" PRIu64, why.told.area ? "segs" : "pages", why.told.need, why.told.free);
    if (code == EXSM_BRANCHES)
        printf(" %" PRIu64, why.told.derived);
    printf("\n");
}

/* Writes the reply to a line: what stands behind its word, where the call was done, else the refusal. Whether it was done. */
static int replies(int code)
{
    if (code != EXSM_OK) {
        say_refusal(code);
        return 0;
    }
    printf("ok %s", word[0]);
    return 1;
}

/* Whether a number was answered that a list hasn't, of which nothing else is known, whatever was refused before. */
static int is_past_the_end(int code)
{
    exsm_why why;
    exsm_last(db, &why);
    return code == EXSM_MISUSE && why.code == code && why.told.code == 0;
}

static int is(const char *name, int count)
{
    return words == count && strcmp(word[0], name) == 0;
}

/* A line about the session. Whether it was one. */
static int do_session(void)
{
    uint64_t number;
    uint32_t records;
    exsm_space space;
    size_t count;
    if (is("begin", 1) || is("commit", 1)) {
        if (replies(word[0][0] == 'b' ? exsm_begin(db, &number) : exsm_commit(db, &number)))
            printf(" %" PRIu64 "\n", number);
    } else if (is("abort", 1) || is("checkpoint", 1)) {
        if (replies(word[0][0] == 'a' ? exsm_abort(db) : exsm_checkpoint(db)))
            printf("\n");
    } else if (is("log", 1)) {
        if (replies(exsm_log(db, &records)))
            printf(" %" PRIu32 "\n", records);
    } else if (is("space", 1)) {
        if (replies(exsm_space_of(db, &space)))
            printf(" pages %" PRIu32 " of %" PRIu32 " segs %" PRIu32 " of %" PRIu32 "\n", space.pages, space.of_pages, space.segs, space.of_segs);
    } else if (is("files", 1)) {
        if (replies(exsm_files(db, &count))) {
            char name[33];
            printf(" %zu", count);
            for (size_t i = 0; i < count; i++)
                printf(" %s", exsm_name_at(db, i, name) == EXSM_OK ? name : "?");
            CHECK(is_past_the_end(exsm_name_at(db, count, name)));
            printf("\n");
        }
    } else {
        return 0;
    }
    return 1;
}

static void say_list(size_t count)
{
    exsm_oid x;
    printf(" %zu", count);
    for (size_t i = 0; i < count; i++) {
        CHECK(exsm_oid_at(db, i, &x) == EXSM_OK);
        say_oid(x);
    }
    CHECK(is_past_the_end(exsm_oid_at(db, count, &x)));
    printf("\n");
}

/* A line about files or versions. Whether it was one. */
static int do_versions(void)
{
    exsm_oid x, made;
    size_t count;
    if (is("file", 2) || is("unfile", 2)) {
        if (replies(word[0][0] == 'f' ? exsm_file(db, word[1]) : exsm_unfile(db, word[1])))
            printf(" %s\n", word[1]);
    } else if (is("list", 2)) {
        if (replies(exsm_list(db, word[1], &count)))
            say_list(count);
    } else if (is("versions", 2)) {
        x = version(word[1]);
        if (replies(exsm_versions(db, &x, &count)))
            say_list(count);
    } else if (is("create", 4) || is("freeze", 4) || is("derive", 4)) {
        int is_create = word[0][0] == 'c';
        if (!is_create)
            x = version(word[1]);
        if (replies(is_create ? exsm_create(db, word[1], &made) : word[0][0] == 'f' ? exsm_freeze(db, &x, &made) : exsm_derive(db, &x, &made))) {
            bind(word[3], made);
            say_oid(made);
            printf("\n");
        }
    } else if (is("destroy", 2) || is("drop", 2)) {
        x = version(word[1]);
        if (replies(word[0][1] == 'e' ? exsm_destroy(db, &x) : exsm_drop(db, &x))) {
            say_oid(x);
            printf("\n");
        }
    } else {
        return 0;
    }
    return 1;
}

/* A line that looks at bytes. Whether it was one. */
static int do_looks(void)
{
    uint64_t size;
    exsm_stat stat;
    uint8_t digest[32];
    if (words < 2)
        return 0;
    if (is("size", 2)) {
        exsm_oid x = version(word[1]);
        if (replies(exsm_size(db, &x, &size)))
            printf(" %" PRIu64 "\n", size);
    } else if (is("stat", 2)) {
        exsm_oid x = version(word[1]);
        if (replies(exsm_stat_of(db, &x, &stat))) {
            printf(" %s %" PRIu64, stat.is_large ? "large" : "small", stat.size);
            if (stat.is_large)
                printf(" height %d leaves %" PRIu64, stat.height, stat.leaves);
            printf("\n");
        }
    } else if (is("digest", 2)) {
        exsm_oid x = version(word[1]);
        if (replies(exsm_digest(db, &x, digest))) {
            printf(" ");
            for (int i = 0; i < 32; i++)
                printf("%02x", digest[i]);
            printf("\n");
        }
    } else if (is("read", 4)) {
        exsm_oid x = version(word[1]);
        size_t len = strtoull(word[3], NULL, 10);
        uint8_t *out = malloc(len + 1);
        CHECK(out != NULL);
        out[len] = 0xa5;
        if (replies(exsm_read(db, &x, strtoull(word[2], NULL, 10), out, len))) {
            say_bytes(out, len);
            printf("\n");
        }
        CHECK(out[len] == 0xa5);
        free(out);
    } else {
        return 0;
    }
    return 1;
}

/* A line that edits bytes. Whether it was one. */
static int do_edits(void)
{
    uint64_t size = 0, at = words > 2 ? strtoull(word[2], NULL, 10) : 0;
    if (is("append", 3) || is("insert", 4) || is("replace", 4)) {
        exsm_oid x = version(word[1]);
        size_t len;
        uint8_t *bytes = data(word[words - 1], &len);
        int code;
        if (word[0][0] == 'i')
            code = exsm_insert(db, &x, at, bytes, len, &size);
        else if (word[0][0] == 'r')
            code = exsm_replace(db, &x, at, bytes, len, &size);
        else if (strncmp(word[2], "rep:", 4) == 0)
            code = exsm_fill(db, &x, len, len > 0 ? bytes[0] : 0, &size);
        else
            code = exsm_append(db, &x, bytes, len, &size);
        free(bytes);
        if (replies(code))
            printf(" %" PRIu64 "\n", size);
    } else if (is("delete", 4)) {
        exsm_oid x = version(word[1]);
        if (replies(exsm_delete(db, &x, at, strtoull(word[3], NULL, 10), &size)))
            printf(" %" PRIu64 "\n", size);
    } else {
        return 0;
    }
    return 1;
}

/* A line about scans. Whether it was one. */
static int do_scans(void)
{
    uint64_t size;
    size_t len;
    if (is("scan", 4) || is("scan", 6)) {
        exsm_oid x = version(word[1]);
        if (replies(exsm_scan(db, &x, word[3], words == 6 ? word[5] : NULL, &size)))
            printf(" %s %" PRIu64 "\n", word[3], size);
    } else if (is("group", 4)) {
        if (replies(exsm_group(db, word[1], (uint32_t)strtoul(word[2], NULL, 10), strcmp(word[3], "mru") == 0)))
            printf(" %s\n", word[1]);
    } else if (is("next", 3)) {
        size_t room = strtoull(word[2], NULL, 10);
        uint8_t *out = malloc(room + 1);
        CHECK(out != NULL);
        if (replies(exsm_next(db, word[1], out, room, &len))) {
            say_bytes(out, len);
            printf("\n");
        }
        free(out);
    } else if (is("close", 2)) {
        if (replies(exsm_end(db, word[1])))
            printf(" %s\n", word[1]);
    } else {
        return 0;
    }
    return 1;
}

static void do_line(char *line)
{
    char *rest;
    words = 0;
    for (char *it = strtok_r(line, " \n", &rest); it != NULL && words < WORDS_MOST; it = strtok_r(NULL, " \n", &rest))
        word[words++] = it;
    if (words == 0 || !(do_session() || do_versions() || do_looks() || do_edits() || do_scans()))
        exit(3);
}

/* Null pointers and handles are answered, and change nothing. */
static void misuse(void)
{
    exsm_oid x = {0};
    uint64_t number;
    CHECK(exsm_begin(NULL, &number) == EXSM_MISUSE && exsm_size(db, NULL, &number) == EXSM_MISUSE && exsm_size(db, &x, NULL) == EXSM_MISUSE);
    CHECK(exsm_read(db, &x, 0, NULL, 1) == EXSM_MISUSE && exsm_append(db, &x, NULL, 1, NULL) == EXSM_MISUSE);
    CHECK(exsm_insert(db, NULL, 0, "x", 1, NULL) == EXSM_MISUSE && exsm_replace(db, &x, 0, NULL, 1, NULL) == EXSM_MISUSE);
    CHECK(exsm_file(db, NULL) == EXSM_MISUSE && exsm_unfile(db, NULL) == EXSM_MISUSE && exsm_files(db, NULL) == EXSM_MISUSE);
    CHECK(exsm_list(db, NULL, NULL) == EXSM_MISUSE && exsm_name_at(db, 0, NULL) == EXSM_MISUSE && exsm_oid_at(db, 0, NULL) == EXSM_MISUSE);
    CHECK(exsm_create(db, "f", NULL) == EXSM_MISUSE && exsm_create(db, NULL, &x) == EXSM_MISUSE && exsm_destroy(db, NULL) == EXSM_MISUSE);
    CHECK(exsm_digest(db, &x, NULL) == EXSM_MISUSE && exsm_stat_of(db, &x, NULL) == EXSM_MISUSE && exsm_freeze(db, &x, NULL) == EXSM_MISUSE);
    CHECK(exsm_derive(db, NULL, &x) == EXSM_MISUSE && exsm_versions(db, &x, NULL) == EXSM_MISUSE && exsm_drop(db, NULL) == EXSM_MISUSE);
    CHECK(exsm_group(db, NULL, 1, 0) == EXSM_MISUSE && exsm_scan(db, &x, NULL, NULL, NULL) == EXSM_MISUSE && exsm_end(db, NULL) == EXSM_MISUSE);
    CHECK(exsm_next(db, "s", NULL, 1, NULL) == EXSM_MISUSE && exsm_space_of(db, NULL) == EXSM_MISUSE && exsm_log(db, NULL) == EXSM_MISUSE);
    CHECK(exsm_check(db, NULL) == EXSM_MISUSE && exsm_fill(db, NULL, 1, 0, NULL) == EXSM_MISUSE && exsm_delete(db, NULL, 0, 0, NULL) == EXSM_MISUSE);
    CHECK(exsm_file(db, "NO") == EXSM_SYNTAX && exsm_file(db, "") == EXSM_SYNTAX && exsm_group(db, "g", 0, 0) == EXSM_SYNTAX);
    CHECK(exsm_group(db, "g", 1025, 0) == EXSM_SYNTAX && exsm_scan(db, &x, "s", "", NULL) == EXSM_SYNTAX);
}

int main(int count, char **words_of)
{
    CHECK(count == 3);
    char *line = NULL;
    size_t room = 0;
    exsm_counts counts;
    CHECK(exsm_open(words_of[1], (unsigned)atoi(words_of[2]), &db, NULL) == EXSM_OK);
    misuse();
    while (getline(&line, &room, stdin) > 0)
        do_line(line);
    free(line);
    CHECK(exsm_check(db, &counts) == EXSM_OK);
    printf("ok check last %" PRIu64 " files %" PRIu64 " objects %" PRIu64 " versions %" PRIu64 " pages %" PRIu64 " segs %" PRIu64 "\n", counts.last, counts.files,
           counts.objects, counts.versions, counts.pages, counts.segs);
    CHECK(exsm_close(db) == EXSM_OK);
    return 0;
}
