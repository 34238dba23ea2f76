/* Tests of exsm_file.c and heap.c by themselves, over a core that lists what a line says. */
#define _GNU_SOURCE
#include "calls.h"
#include "check.h"
#include "fake_core.h"

#include <errno.h>
#include <fcntl.h>
#include <pthread.h>
#include <signal.h>
#include <stdarg.h>
#include <sys/file.h>
#include <sys/stat.h>
#include <sys/wait.h>
#include <unistd.h>

#define VOLUME "v"
#define VOLUME_LEN 20000

/* How often the bytes of a new volume come again. */
#define PERIOD 251

/* Makes the volume, of bytes that differ. */
static void make_volume(size_t len, char log)
{
    static uint8_t bytes[PERIOD * 400];
    for (size_t i = 0; i < sizeof bytes; i++)
        bytes[i] = (uint8_t)(i % PERIOD);
    FILE *file = fopen(VOLUME, "wb");
    CHECK(file != NULL);
    for (size_t at = 0; at < len; at += sizeof bytes)
        CHECK(fwrite(bytes, len - at < sizeof bytes ? len - at : sizeof bytes, 1, file) == 1);
    CHECK(fseek(file, 0, SEEK_SET) == 0 && fprintf(file, "%s%c", FAKE_MAGIC, log) == FAKE_MAGIC_LEN + 1);
    CHECK(fclose(file) == 0);
}

/* The bytes of the volume's file, in a block that is to be freed. */
static uint8_t *file_bytes(void)
{
    int fd = open(VOLUME, O_RDONLY);
    struct stat about;
    CHECK(fd >= 0 && fstat(fd, &about) == 0);
    uint8_t *bytes = malloc((size_t)about.st_size + 1);
    CHECK(bytes != NULL && read(fd, bytes, (size_t)about.st_size) == about.st_size);
    close(fd);
    return bytes;
}

/* Whether the file has one byte over and over at a place. */
static int file_has(size_t at, size_t len, int byte)
{
    uint8_t *bytes = file_bytes();
    int has = bytes[at] == byte && memcmp(bytes + at, bytes + at + 1, len - 1) == 0;
    free(bytes);
    return has;
}

/* Whether the file is as it was made at a place. */
static int file_is_old(size_t at, size_t len)
{
    uint8_t *bytes = file_bytes();
    int is_old = 1;
    for (size_t i = at; i < at + len; i++)
        is_old &= bytes[i] == i % PERIOD;
    free(bytes);
    return is_old;
}

static exsm *opened(unsigned flags)
{
    exsm *db;
    exsm_why why;
    CHECK(exsm_open(VOLUME, flags, &db, &why) == EXSM_OK);
    CHECK(db != NULL && why.code == EXSM_OK && why.os_error == 0);
    return db;
}

/* A new volume, opened. */
static exsm *new_volume(unsigned flags)
{
    calls_anew();
    make_volume(VOLUME_LEN, FAKE_NO_LOG);
    exsm *db = opened(flags);
    calls_anew();
    return db;
}

static int line(exsm *db, const char *text)
{
    return exsm_line(db, text, strlen(text), NULL, NULL);
}

/* Whether a line is answered so, with a reply. */
static int replies(exsm *db, const char *text, int code, const char *wanted)
{
    const char *reply;
    size_t len;
    return exsm_line(db, text, strlen(text), &reply, &len) == code && len == strlen(wanted) && strcmp(reply, wanted) == 0;
}

/* Whether exactly these calls were made: the number of them, and each as a place and a length, or -1 and 0 for a sync. */
static int made(size_t count, ...)
{
    va_list wanted;
    va_start(wanted, count);
    int is_so = calls.count == count;
    for (size_t i = 0; i < count && i < calls.count; i++) {
        long at = va_arg(wanted, long), len = va_arg(wanted, long);
        is_so &= calls.made[i].is_write == (at >= 0);
        is_so &= at < 0 || (calls.made[i].at == (uint64_t)at && calls.made[i].len == (uint64_t)len);
    }
    va_end(wanted);
    return is_so;
}

#define SYNC -1L, 0L

static int why_is(const exsm *db, int code, int os_error)
{
    exsm_why why;
    exsm_last(db, &why);
    return why.code == code && why.os_error == os_error && why.part == 0;
}

/* Whether another handle gets the volume. */
static int is_free(void)
{
    int fd = open(VOLUME, O_RDWR);
    int is_taken = flock(fd, LOCK_EX | LOCK_NB) != 0;
    CHECK(!is_taken || errno == EWOULDBLOCK);
    close(fd);
    return !is_taken;
}

/* Whether a handle is down: each call says so, and the volume is free. */
static int is_down(exsm *db)
{
    return line(db, "t 1") == EXSM_DOWN && exsm_sync(db) == EXSM_DOWN && is_free();
}

/* ---- The tests ---- */

static void calls_in_order(void)
{
    exsm *db = new_volume(0);
    CHECK(replies(db, "w 100 5 61;w 200 3 62;s;w 100 2 63;s;t 2", EXSM_OK, "ok xx"));
    CHECK(made(5, 100L, 5L, 200L, 3L, SYNC, 100L, 2L, SYNC));
    CHECK(file_has(100, 2, 0x63) && file_has(102, 3, 0x61) && file_has(200, 3, 0x62) && file_is_old(105, 95) && file_is_old(203, VOLUME_LEN - 203));
    calls_anew();
    CHECK(replies(db, "r 99 7", EXSM_OK, "ok 63636361616169"));
    CHECK(calls.count == 0);
    CHECK(exsm_close(db) == EXSM_OK && calls.count == 0);
}

static void adjacent_writes_are_one(void)
{
    exsm *db = new_volume(0);
    CHECK(line(db, "w 100 5 61;w 105 3 62;w 108 2 63;s;w 110 1 64;w 100 5 65") == EXSM_OK);
    CHECK(made(4, 100L, 10L, SYNC, 110L, 1L, 100L, 5L));
    CHECK(file_has(100, 5, 0x65) && file_has(105, 3, 0x62) && file_has(108, 2, 0x63) && file_has(110, 1, 0x64));
    CHECK(exsm_close(db) == EXSM_OK);

    calls_anew();
    make_volume(5 << 20, FAKE_NO_LOG);
    db = opened(0);
    CHECK(line(db, "w 1000 600000 61;w 601000 600000 62;w 1201000 1500000 63;w 2701000 10 64") == EXSM_OK);
    CHECK(made(4, 1000L, 600000L, 601000L, 600000L, 1201000L, 1500000L, 2701000L, 10L));
    CHECK(file_has(1000, 600000, 0x61) && file_has(601000, 600000, 0x62) && file_has(1201000, 1500000, 0x63) && file_has(2701000, 10, 0x64));
    CHECK(exsm_close(db) == EXSM_OK);
}

/* What was made and may be lost by a crash stays listed, and is made once. */
static void calls_stay_listed_until_a_sync(void)
{
    exsm *db = new_volume(0);
    CHECK(line(db, "w 100 5 61") == EXSM_OK && replies(db, "l", EXSM_OK, "ok 1"));
    CHECK(line(db, "w 200 5 62;s;w 300 5 63") == EXSM_OK && replies(db, "l", EXSM_OK, "ok 4"));
    CHECK(made(4, 100L, 5L, 200L, 5L, SYNC, 300L, 5L));
    CHECK(line(db, "s") == EXSM_OK && replies(db, "l", EXSM_OK, "ok 0"));
    CHECK(made(5, 100L, 5L, 200L, 5L, SYNC, 300L, 5L, SYNC));
    CHECK(exsm_close(db) == EXSM_OK && calls.count == 5);
}

/* They don't grow without end: a sync of the layer's own settles them. */
static void long_lists_are_settled(void)
{
    calls_anew();
    make_volume(17 << 20, FAKE_NO_LOG);
    exsm *db = opened(0);
    CHECK(line(db, "w 1000 16777216 61") == EXSM_OK && replies(db, "l", EXSM_OK, "ok 1"));
    CHECK(line(db, "w 100 1 62") == EXSM_OK && replies(db, "l", EXSM_OK, "ok 0"));
    CHECK(made(3, 1000L, 16777216L, 100L, 1L, SYNC));
    CHECK(exsm_close(db) == EXSM_OK && calls.count == 3);
}

static void replies_are_whole(void)
{
    exsm *db = new_volume(0);
    const char *reply = NULL;
    size_t len = 0;
    CHECK(exsm_line(db, "t 3000000", 9, &reply, &len) == EXSM_OK);
    CHECK(len == 3000003 && memcmp(reply, "ok ", 3) == 0 && reply[3] == 'x' && reply[len - 1] == 'x' && reply[len] == '\0');
    CHECK(exsm_line(db, "z", 1, &reply, &len) == EXSM_OK && len == 4 && memcmp(reply, "ok\0z", 5) == 0);
    CHECK(exsm_line(db, NULL, 0, &reply, &len) == EXSM_OK && len == 0 && reply[0] == '\0');
    CHECK(exsm_line(db, "t 1 and what isn't counted", 3, &reply, NULL) == EXSM_OK && strcmp(reply, "ok x") == 0);
    CHECK(replies(db, "n 18", EXSM_RANGE, "no 18") && why_is(db, EXSM_RANGE, 0));
    exsm_why why;
    exsm_last(db, &why);
    CHECK(why.told.need == FAKE_NEED);
    CHECK(replies(db, "t 1", EXSM_OK, "ok x") && why_is(db, EXSM_OK, 0));
    CHECK(exsm_close(db) == EXSM_OK);
}

static void openings_write(void)
{
    calls_anew();
    make_volume(VOLUME_LEN, FAKE_LOG);
    exsm *db = opened(EXSM_LATER);
    CHECK(made(4, 64L, 64L, SYNC, 8L, 1L, SYNC));
    CHECK(file_has(64, 64, 'h') && file_has(8, 1, FAKE_NO_LOG));
    CHECK(exsm_close(db) == EXSM_OK);

    for (size_t at = 1; at <= 4; at++) {
        calls_anew();
        make_volume(VOLUME_LEN, FAKE_LOG);
        calls.at = at;
        calls.outcome = FAILS;
        calls.reason = ENOSPC;
        exsm_why why;
        CHECK(exsm_open(VOLUME, 0, &db, &why) == EXSM_DISK && db == NULL && why.code == EXSM_DISK && why.os_error == ENOSPC);
        CHECK(calls.count == at && is_free());
    }
}

static void misuse_is_answered(void)
{
    exsm *db = NULL;
    exsm_why why;
    const char *reply = "before";
    size_t len = 77;
    CHECK(exsm_open(NULL, 0, &db, &why) == EXSM_MISUSE && db == NULL && why.code == EXSM_MISUSE);
    CHECK(exsm_open(VOLUME, 0, NULL, &why) == EXSM_MISUSE && why.code == EXSM_MISUSE);
    CHECK(exsm_open(VOLUME, 4, &db, NULL) == EXSM_MISUSE && db == NULL);
    CHECK(exsm_close(NULL) == EXSM_OK && exsm_sync(NULL) == EXSM_MISUSE);
    CHECK(exsm_line(NULL, "t 1", 3, &reply, &len) == EXSM_MISUSE && strcmp(reply, "before") == 0 && len == 77);
    exsm_last(NULL, &why);
    db = new_volume(0);
    exsm_last(db, NULL);
    CHECK(exsm_line(db, NULL, 3, &reply, &len) == EXSM_MISUSE && strcmp(reply, "before") == 0 && len == 77);
    CHECK(exsm_sync(db) == EXSM_OK && calls.count == 0);
    CHECK(exsm_close(db) == EXSM_OK);
}

/* What an opening of a path answers. It gives no handle. */
static int answer_of(const char *path, int *os_error)
{
    exsm *db;
    exsm_why why;
    int code = exsm_open(path, 0, &db, &why);
    CHECK(db == NULL && why.code == code && exsm_open(path, 0, &db, NULL) == code);
    *os_error = why.os_error;
    return code;
}

static void what_cannot_be_opened(void)
{
    calls_anew();
    int reason;
    exsm *db;
    exsm_why why;
    CHECK(answer_of("none", &reason) == EXSM_OS && reason == ENOENT);
    CHECK(answer_of(".", &reason) == EXSM_OS && reason == EISDIR);
    CHECK(answer_of("/dev/null", &reason) == EXSM_OS && reason == ENOTBLK);
    CHECK(mkfifo("pipe", 0600) == 0 && answer_of("pipe", &reason) == EXSM_OS && reason == ENOTBLK);
    CHECK(close(open("empty", O_CREAT | O_WRONLY, 0600)) == 0);
    CHECK(exsm_open("empty", 0, &db, &why) == EXSM_BAD_VOLUME && db == NULL && why.code == EXSM_BAD_VOLUME && why.part == FAKE_PART);
    make_volume(VOLUME_LEN, FAKE_NO_LOG);
    CHECK(truncate(VOLUME, FAKE_MAGIC_LEN) == 0 && exsm_open(VOLUME, EXSM_READ_ALL, &db, &why) == EXSM_BAD_VOLUME);
    make_volume(VOLUME_LEN, FAKE_NO_LOG);
    calls.locks_fail = 1;
    CHECK(answer_of(VOLUME, &reason) == EXSM_OS && reason == ENOLCK);
    calls.locks_fail = 0;
    calls.maps_fail = ENODEV;
    CHECK(answer_of(VOLUME, &reason) == EXSM_OS && reason == ENODEV);
    calls.maps_fail = ENOMEM;
    CHECK(answer_of(VOLUME, &reason) == EXSM_NOMEM && reason == 0);
    calls_anew();
    CHECK(is_free() && file_is_old(9, VOLUME_LEN - 9));
}

static void one_handle_at_a_time(void)
{
    exsm *db = new_volume(0), *other;
    exsm_why why;
    CHECK(exsm_open(VOLUME, 0, &other, &why) == EXSM_IN_USE && other == NULL && why.code == EXSM_IN_USE && !is_free());
    pid_t child = fork();
    if (child == 0)
        _exit(exsm_open(VOLUME, 0, &other, NULL) == EXSM_IN_USE ? 0 : 1);
    int status;
    CHECK(waitpid(child, &status, 0) == child && status == 0);
    CHECK(line(db, "w 100 1 61;s") == EXSM_OK && exsm_close(db) == EXSM_OK && is_free());
    int fd = open(VOLUME, O_RDONLY);
    CHECK(flock(fd, LOCK_EX | LOCK_NB) == 0 && exsm_open(VOLUME, 0, &other, NULL) == EXSM_IN_USE);
    close(fd);
    CHECK(exsm_close(opened(0)) == EXSM_OK);
}

static void a_forked_child_has_no_handle(void)
{
    exsm *db = new_volume(EXSM_LATER), *again;
    CHECK(line(db, "w 100 3 61;s") == EXSM_OK);
    int status, ways[2];
    pid_t child = fork();
    if (child == 0) {
        int is_so = line(db, "w 100 3 62") == EXSM_MISUSE && exsm_sync(db) == EXSM_MISUSE && exsm_close(db) == EXSM_OK && calls.count == 0;
        _exit(is_so && exsm_open(VOLUME, 0, &again, NULL) == EXSM_IN_USE ? 0 : 1);
    }
    CHECK(waitpid(child, &status, 0) == child && status == 0);
    CHECK(!is_free() && replies(db, "r 100 3", EXSM_OK, "ok 616161"));

    /* The volume is free once the handle is closed, also while a child has a copy of it. */
    CHECK(pipe(ways) == 0);
    child = fork();
    if (child == 0) {
        char byte;
        close(ways[1]);
        _exit(read(ways[0], &byte, 1) == 0 && exsm_close(db) == EXSM_OK ? 0 : 1);
    }
    CHECK(exsm_close(db) == EXSM_OK && is_free() && file_has(100, 3, 0x61));
    CHECK(close(ways[1]) == 0 && waitpid(child, &status, 0) == child && status == 0 && close(ways[0]) == 0);
}

static exsm *db_within;
static int answer_within;

static void call_within(void)
{
    const char *reply = "before";
    answer_within = exsm_line(db_within, "w 300 1 62", 10, &reply, NULL) == EXSM_MISUSE && exsm_sync(db_within) == EXSM_MISUSE
        && exsm_close(db_within) == EXSM_MISUSE && strcmp(reply, "before") == 0;
}

static void *call_in_thread(void *unused)
{
    call_within();
    return unused;
}

static void call_from_thread(void)
{
    pthread_t thread;
    CHECK(pthread_create(&thread, NULL, call_in_thread, NULL) == 0 && pthread_join(thread, NULL) == 0);
}

static void one_call_at_a_time(void)
{
    void (*const within[])(void) = {call_within, call_from_thread};
    for (int i = 0; i < 2; i++) {
        db_within = new_volume(0);
        answer_within = 0;
        calls.within = within[i];
        CHECK(replies(db_within, "w 100 1 61;s;t 1", EXSM_OK, "ok x") && answer_within);
        calls.within = NULL;
        CHECK(file_has(100, 1, 0x61) && file_is_old(300, 1) && line(db_within, "t 1") == EXSM_OK);
        CHECK(exsm_close(db_within) == EXSM_OK);
    }
}

/* Four calls of a line: two writes that are made apart, a sync, a write. */
#define FOUR_CALLS "w 100 4 61;w 300 6 62;s;w 100 2 63;t 3"
#define FOUR 4

/* Whether the file has what the first `count` of the four calls write. */
static int has_front(size_t count)
{
    return (count < 1 ? file_is_old(100, 4) : file_has(102, 2, 0x61) && file_has(100, 2, count < 4 ? 0x61 : 0x63))
        && (count < 2 ? file_is_old(300, 6) : file_has(300, 6, 0x62));
}

static void a_call_that_fails_is_the_last(void)
{
    for (size_t at = 1; at <= FOUR; at++) {
        exsm *db = new_volume(0);
        const char *reply = "before";
        size_t len = 77;
        calls.at = at;
        calls.outcome = FAILS;
        calls.reason = ENOSPC;
        CHECK(exsm_line(db, FOUR_CALLS, strlen(FOUR_CALLS), &reply, &len) == EXSM_DISK && why_is(db, EXSM_DISK, ENOSPC));
        CHECK(strcmp(reply, "before") == 0 && len == 77);
        CHECK(calls.count == at && has_front(at - 1) && is_down(db) && calls.count == at);
        CHECK(why_is(db, EXSM_DOWN, 0) && exsm_close(db) == EXSM_OK && calls.count == at);
        db = opened(0);
        CHECK(exsm_close(db) == EXSM_OK);
    }
}

static void calls_in_parts_are_whole(void)
{
    const enum outcome outcomes[] = {IS_SHORT, IS_INTERRUPTED};
    for (size_t i = 0; i < 2; i++)
        for (size_t at = 1; at <= FOUR; at++) {
            exsm *db = new_volume(0);
            calls.at = at;
            calls.outcome = outcomes[i];
            CHECK(replies(db, FOUR_CALLS, EXSM_OK, "ok xxx") && calls.count == FOUR + 1 && has_front(FOUR));
            CHECK(exsm_close(db) == EXSM_OK);
        }
}

static void writes_of_no_bytes(void)
{
    exsm *db = new_volume(0);
    CHECK(line(db, "w 100 0 61;s;w 200 1 62;w 201 0 63") == EXSM_OK && made(2, SYNC, 200L, 1L));
    calls_anew();
    calls.at = 2;
    calls.outcome = WRITES_NONE;
    CHECK(line(db, "s;w 100 4 61") == EXSM_DISK && why_is(db, EXSM_DISK, EIO) && is_down(db));
    CHECK(exsm_close(db) == EXSM_OK);
}

static void memory_that_is_refused(void)
{
    size_t open_count, line_count;
    exsm *db = new_volume(0);
    CHECK(line(db, FOUR_CALLS) == EXSM_OK);
    line_count = calls.memory_count;
    CHECK(exsm_close(db) == EXSM_OK);
    make_volume(VOLUME_LEN, FAKE_LOG);
    calls_anew();
    db = opened(0);
    open_count = calls.memory_count;
    CHECK(exsm_close(db) == EXSM_OK && open_count > 3 && line_count > 5);
    for (size_t at = 1; at <= open_count; at++) {
        make_volume(VOLUME_LEN, FAKE_LOG);
        calls_anew();
        calls.memory_at = at;
        exsm_why why;
        CHECK(exsm_open(VOLUME, 0, &db, &why) == EXSM_NOMEM && db == NULL && why.code == EXSM_NOMEM && why.os_error == 0);
        calls_anew();
        CHECK(is_free());
    }
    for (size_t at = 1; at <= line_count; at++) {
        db = new_volume(0);
        calls.memory_at = at;
        CHECK(line(db, FOUR_CALLS) == EXSM_NOMEM && why_is(db, EXSM_NOMEM, 0));
        calls.memory_at = 0;
        CHECK(is_down(db) && exsm_close(db) == EXSM_OK && (calls.count <= 3 ? has_front(calls.count) : 0));
    }
}

static void faults_of_the_core(void)
{
    for (int code = EXSM_NOMEM; code <= EXSM_DOWN; code++) {
        exsm *db = new_volume(0);
        char text[64];
        sprintf(text, "w 100 4 62;s;f %d", code);
        CHECK(line(db, text) == code && why_is(db, code, 0));
        CHECK(is_down(db) && calls.count == 0 && file_is_old(100, 4) && exsm_close(db) == EXSM_OK && calls.count == 0);

        /* What waited before is written, and nothing of the call that met the fault. */
        db = new_volume(EXSM_LATER);
        CHECK(line(db, "w 100 4 61;s") == EXSM_OK && calls.count == 0 && line(db, text) == code && why_is(db, code, 0));
        CHECK(made(2, 100L, 4L, SYNC) && is_down(db) && exsm_close(db) == EXSM_OK && calls.count == 2);
    }
}

static void later_calls_wait(void)
{
    exsm *db = new_volume(EXSM_LATER);
    CHECK(line(db, "w 100 4 61;s") == EXSM_OK && line(db, "w 300 6 62;s") == EXSM_OK && replies(db, "w 100 2 63;s;t 1", EXSM_OK, "ok x"));
    CHECK(calls.count == 0 && file_is_old(100, 4) && replies(db, "r 100 4", EXSM_OK, "ok 63636161"));
    CHECK(exsm_sync(db) == EXSM_OK && made(6, 100L, 4L, SYNC, 300L, 6L, SYNC, 100L, 2L, SYNC) && has_front(FOUR));
    CHECK(exsm_sync(db) == EXSM_OK && calls.count == 6);
    CHECK(line(db, "w 500 4 64;s") == EXSM_OK && calls.count == 6);
    CHECK(exsm_close(db) == EXSM_OK && calls.count == 8 && file_has(500, 4, 0x64));
}

/* Three lines whose calls wait: six calls. */
static void three_commits(exsm *db)
{
    CHECK(line(db, "w 100 4 61;s") == EXSM_OK && line(db, "w 300 6 62;s") == EXSM_OK && line(db, "w 100 2 63;s") == EXSM_OK);
}

/* How many of the four calls' writes the first `count` of the six calls make. */
static size_t front_of_six(size_t count)
{
    return count < 1 ? 0 : count < 3 ? 1 : count < 5 ? 2 : 4;
}

static void later_calls_fail(void)
{
    for (size_t at = 1; at <= 6; at++)
        for (int is_closed = 0; is_closed < 2; is_closed++) {
            exsm *db = new_volume(EXSM_LATER);
            three_commits(db);
            calls.at = at;
            calls.outcome = FAILS;
            calls.reason = EIO;
            if (is_closed) {
                CHECK(exsm_close(db) == EXSM_DISK);
            } else {
                CHECK(exsm_sync(db) == EXSM_DISK && why_is(db, EXSM_DISK, EIO) && is_down(db) && exsm_close(db) == EXSM_OK);
            }
            CHECK(calls.count == at && has_front(front_of_six(at - 1)) && is_free());
        }
}

static void later_calls_do_not_wait_without_end(void)
{
    calls_anew();
    make_volume(24 << 20, FAKE_NO_LOG);
    exsm *db = opened(EXSM_LATER);
    CHECK(line(db, "w 1000 16777216 61;s") == EXSM_OK && calls.count == 0);
    CHECK(line(db, "w 1000 16777216 62;s") == EXSM_OK && calls.count == 0);
    CHECK(line(db, "w 1000 1 63;s") == EXSM_OK && calls.count == 6);
    CHECK(file_has(1000, 1, 0x63) && file_has(1001, 16777215, 0x62));
    CHECK(line(db, "w 1000 16777216 64;s") == EXSM_OK && calls.count == 6);
    CHECK(exsm_close(db) == EXSM_OK && calls.count == 8);
}

static void pages_are_given_back(void)
{
    for (unsigned flags = 0; flags <= EXSM_READ_ALL; flags += EXSM_READ_ALL) {
        calls_anew();
        make_volume(24 << 20, FAKE_NO_LOG);
        exsm *db = opened(flags);
        CHECK(line(db, "w 1000 100 61;s") == EXSM_OK && calls.given_back == 0);
        CHECK(line(db, "w 5000 16777216 62;s") == EXSM_OK && calls.given_back == (flags == 0));
        CHECK(line(db, "w 7000 2 63;s") == EXSM_OK && calls.given_back == (flags == 0));
        CHECK(replies(db, "r 6999 4", EXSM_OK, "ok 62636362") && replies(db, "r 1098 2", EXSM_OK, "ok 6161"));
        CHECK(file_has(7000, 2, 0x63) && file_has(7002, 1000, 0x62) && file_has(1000, 100, 0x61));
        CHECK(exsm_close(db) == EXSM_OK);
    }
}

static void read_into_memory(void)
{
    exsm *db = new_volume(EXSM_READ_ALL);
    int fd = open(VOLUME, O_WRONLY);
    CHECK(pwrite(fd, "zz", 2, 5000) == 2 && replies(db, "r 5000 2", EXSM_OK, "ok e7e8") && ftruncate(fd, 100) == 0);
    CHECK(replies(db, "r 5000 2", EXSM_OK, "ok e7e8") && line(db, "w 50 2 61;s") == EXSM_OK);
    close(fd);
    CHECK(exsm_close(db) == EXSM_OK && file_has(50, 2, 0x61));
    const int outcomes[] = {IS_SHORT, IS_INTERRUPTED};
    for (int i = 0; i < 2; i++) {
        calls_anew();
        make_volume(VOLUME_LEN, FAKE_NO_LOG);
        calls.reads_outcome = outcomes[i];
        db = opened(EXSM_READ_ALL);
        CHECK(replies(db, "r 19999 1", EXSM_OK, "ok aa") && exsm_close(db) == EXSM_OK);
    }
    exsm_why why;
    calls.reads_outcome = FAILS;
    CHECK(exsm_open(VOLUME, EXSM_READ_ALL, &db, &why) == EXSM_DISK && db == NULL && why.os_error == EIO && is_free());
}

static void no_standard_stream_is_a_volume(void)
{
    make_volume(VOLUME_LEN, FAKE_NO_LOG);
    pid_t child = fork();
    if (child == 0) {
        close(0);
        close(1);
        close(2);
        exsm *db;
        if (exsm_open(VOLUME, 0, &db, NULL) != EXSM_OK)
            _exit(1);
        int is_so = write(1, "printed", 7) < 0 && write(0, "printed", 7) < 0 && line(db, "w 100 4 61;s") == EXSM_OK;
        _exit(is_so && exsm_close(db) == EXSM_OK ? 0 : 2);
    }
    int status;
    CHECK(waitpid(child, &status, 0) == child && status == 0);
    CHECK(file_has(100, 4, 0x61) && file_is_old(9, 91) && file_is_old(104, VOLUME_LEN - 104));
}

static void kills_leave_a_front(void)
{
    const enum outcome outcomes[] = {KILLS, TEARS};
    for (size_t i = 0; i < 2; i++)
        for (size_t at = 1; at <= FOUR; at++) {
            calls_anew();
            make_volume(VOLUME_LEN, FAKE_NO_LOG);
            pid_t child = fork();
            if (child == 0) {
                exsm *db = opened(0);
                calls.at = at;
                calls.outcome = outcomes[i];
                line(db, FOUR_CALLS);
                _exit(0);
            }
            int status;
            CHECK(waitpid(child, &status, 0) == child && WIFSIGNALED(status) && WTERMSIG(status) == SIGKILL);
            CHECK(is_free());
            if (outcomes[i] == KILLS)
                CHECK(has_front(at - 1));
            else if (at == 1)
                CHECK(file_has(100, 2, 0x61) && file_is_old(102, 2));
            exsm *db = opened(0);
            CHECK(exsm_close(db) == EXSM_OK);
        }
}

static void texts_are_there(void)
{
    const int codes[] = {EXSM_ROOM, EXSM_MISUSE, EXSM_NOMEM, EXSM_DISK, EXSM_DAMAGED, EXSM_DOWN, EXSM_BAD_VOLUME, EXSM_IN_USE, EXSM_OS,
        EXSM_IS_VOLUME, EXSM_TOO_SMALL};
    for (int code = EXSM_OK; code <= EXSM_BUSY; code++)
        CHECK(strlen(exsm_text(code)) > 3 && strcmp(exsm_text(code), exsm_text(-1)) != 0);
    for (size_t i = 0; i < sizeof codes / sizeof codes[0]; i++)
        CHECK(strlen(exsm_text(codes[i])) > 3 && strcmp(exsm_text(codes[i]), exsm_text(-1)) != 0);
    CHECK(strcmp(exsm_text(26), exsm_text(99)) == 0 && strcmp(exsm_text(109), exsm_text(-1)) == 0);
    CHECK(strcmp(exsm_text(EXSM_NO_TXN), "no transaction is open") == 0);
    CHECK(strchr(exsm_version(), '.') != NULL);
}

static const struct test tests[] = {
    {"calls_in_order", calls_in_order},
    {"adjacent_writes_are_one", adjacent_writes_are_one},
    {"calls_stay_listed_until_a_sync", calls_stay_listed_until_a_sync},
    {"long_lists_are_settled", long_lists_are_settled},
    {"replies_are_whole", replies_are_whole},
    {"openings_write", openings_write},
    {"misuse_is_answered", misuse_is_answered},
    {"what_cannot_be_opened", what_cannot_be_opened},
    {"one_handle_at_a_time", one_handle_at_a_time},
    {"a_forked_child_has_no_handle", a_forked_child_has_no_handle},
    {"one_call_at_a_time", one_call_at_a_time},
    {"a_call_that_fails_is_the_last", a_call_that_fails_is_the_last},
    {"calls_in_parts_are_whole", calls_in_parts_are_whole},
    {"writes_of_no_bytes", writes_of_no_bytes},
    {"memory_that_is_refused", memory_that_is_refused},
    {"faults_of_the_core", faults_of_the_core},
    {"later_calls_wait", later_calls_wait},
    {"later_calls_fail", later_calls_fail},
    {"later_calls_do_not_wait_without_end", later_calls_do_not_wait_without_end},
    {"pages_are_given_back", pages_are_given_back},
    {"read_into_memory", read_into_memory},
    {"no_standard_stream_is_a_volume", no_standard_stream_is_a_volume},
    {"kills_leave_a_front", kills_leave_a_front},
    {"texts_are_there", texts_are_there},
};

int main(int words, char **word)
{
    return run_tests(tests, sizeof tests / sizeof tests[0], words, word);
}
