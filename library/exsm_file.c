/* exsm_file.c: exsm over a file. It opens the volume, locks it, maps it, and makes the calls that the core lists. It is all of the library that isn't proved,
 * with heap.c:
 *
 *   - the image is a private mapping, so what the core writes into it stays in this process until the listed calls are made
 *   - the calls are made each whole, in their order, before the reply is handed out, or later under EXSM_LATER
 *   - where one fails none is made after it: the handle goes down
 *   - one process at a time has the volume, by the lock that the program takes
 */
#define _GNU_SOURCE
#include "layer.h"

#include <errno.h>
#include <fcntl.h>
#include <stdlib.h>
#include <sys/file.h>
#include <sys/mman.h>
#include <sys/stat.h>
#include <unistd.h>

/* Bytes that may wait under EXSM_LATER. */
#define WAITING_MOST ((uint64_t)32 << 20)

/* Bytes that one call writes at most where several listed writes are made as one. */
#define JOINED_MOST ((size_t)1 << 20)

/* Bytes of writes that were made and stay listed at most, before they are settled for that. */
#define KEPT_MOST ((uint64_t)16 << 20)

/* Bytes of pages of the image that are this process' own, before they are given back. */
#define PRIVATE_MOST ((uint64_t)8 << 20)

/* What a write takes of the image's pages at most beside its bytes. */
#define PAGE_MOST 8192

/* The least descriptor of a volume: those below it are of the standard streams. */
#define DESCRIPTOR_LEAST 3

const char *exsm_version(void)
{
    return EXSM_VERSION;
}

static const char *const refusals[] = {
    [EXSM_OK] = "done",
    [EXSM_LINE_LONG] = "the line has more than 1,048,576 bytes",
    [EXSM_SYNTAX] = "the words spell no command",
    [EXSM_DATA_LIMIT] = "more than 16,777,216 bytes are given or asked for",
    [EXSM_NO_TXN] = "no transaction is open",
    [EXSM_TXN_OPEN] = "a transaction is open",
    [EXSM_NO_NAME] = "the name isn't bound",
    [EXSM_NAME_TAKEN] = "the name is that of a bound name, an open scan or a group",
    [EXSM_NO_FILE] = "no file has the name",
    [EXSM_FILE_EXISTS] = "a file has the name",
    [EXSM_FILES_FULL] = "there are as many files as there may be",
    [EXSM_NO_OBJECT] = "no version has the identifier",
    [EXSM_FROZEN] = "the version is frozen, and keeps its bytes",
    [EXSM_CURRENT] = "the version is a current one",
    [EXSM_NOT_EMPTY] = "the file has objects",
    [EXSM_HAS_VERSIONS] = "the version is the only one that is derived from its older one",
    [EXSM_NO_SCAN] = "no open scan has the name",
    [EXSM_NO_GROUP] = "no group has the name",
    [EXSM_RANGE] = "the place is behind the end",
    [EXSM_TOO_LARGE] = "an object has at most 1,099,511,627,775 bytes",
    [EXSM_TOO_MANY] = "64 scans are open, or there are 64 groups",
    [EXSM_IDS_SPENT] = "the numbers of this volume are spent",
    [EXSM_LONG_TXN] = "the transaction is full: commit, and go on in the next one",
    [EXSM_FULL] = "the update may need more pages or segment units than are free",
    [EXSM_BRANCHES] = "several versions are derived from the frozen one",
    [EXSM_BUSY] = "another client's transaction is open",
};

const char *exsm_text(int code)
{
    if (code >= 0 && code < (int)(sizeof refusals / sizeof refusals[0]))
        return refusals[code];
    switch (code) {
    case EXSM_ROOM:
        return "the buffer is too small";
    case EXSM_MISUSE:
        return "a null pointer, an unknown flag, a handle of the parent process or one that a call is in";
    case EXSM_NOMEM:
        return "no memory was there";
    case EXSM_DISK:
        return "a call on the volume's file failed";
    case EXSM_DAMAGED:
        return "a page of the volume isn't what names it";
    case EXSM_DOWN:
        return "an earlier call on the handle met a fault";
    case EXSM_BAD_VOLUME:
        return "the file holds no volume, or a damaged one";
    case EXSM_IN_USE:
        return "another process or handle has the volume";
    case EXSM_OS:
        return "the volume's file can't be opened, made, locked or mapped";
    case EXSM_IS_VOLUME:
        return "a volume is there already";
    case EXSM_TOO_SMALL:
        return "the image is smaller than the volume";
    default:
        return "an unknown number";
    }
}

/* ---- The file ---- */

int write_whole(int fd, const uint8_t *bytes, size_t len, uint64_t at)
{
    while (len > 0) {
        ssize_t wrote = pwrite(fd, bytes, len, (off_t)at);
        if (wrote < 0 && errno == EINTR)
            continue;
        if (wrote <= 0)
            return wrote < 0 ? errno : EIO;
        bytes += wrote;
        at += (uint64_t)wrote;
        len -= (size_t)wrote;
    }
    return 0;
}

/* Reads bytes from the front. 0, or the system's reason. */
static int read_whole(int fd, uint8_t *bytes, size_t len)
{
    for (size_t at = 0; at < len;) {
        ssize_t got = pread(fd, bytes + at, len - at, (off_t)at);
        if (got < 0 && errno == EINTR)
            continue;
        if (got <= 0)
            return got < 0 ? errno : EIO;
        at += (size_t)got;
    }
    return 0;
}

/* What was written outlasts a loss of power. 0, or the system's reason. */
static int sync_file(int fd)
{
    while (fdatasync(fd) != 0)
        if (errno != EINTR)
            return errno;
    return 0;
}

/* (What the process prints would be written into a volume that has the descriptor of a standard stream.) */
int open_apart(const char *path, int more)
{
    int fd;
    do
        fd = open(path, O_RDWR | O_CLOEXEC | O_NOCTTY | more, 0666);
    while (fd < 0 && errno == EINTR);
    if (fd < 0 || fd >= DESCRIPTOR_LEAST)
        return fd;
    int apart = fcntl(fd, F_DUPFD_CLOEXEC, DESCRIPTOR_LEAST);
    int reason = errno;
    close(fd);
    errno = reason;
    return apart;
}

/* The bytes of a file, or those up to the end of a block device. 0, or the system's reason. */
static int size_of(int fd, size_t *size)
{
    struct stat about;
    if (fstat(fd, &about) != 0)
        return errno;
    if (!S_ISREG(about.st_mode) && !S_ISBLK(about.st_mode))
        return ENOTBLK;
    off_t end = lseek(fd, 0, SEEK_END);
    if (end < 0)
        return errno;
    *size = (size_t)end;
    return 0;
}

int unless(exsm *db, int reason, int code)
{
    db->why.os_error = reason;
    return reason == 0 ? EXSM_OK : code;
}

/* Opens and locks the file. A result. */
static int take_file(exsm *db, const char *path)
{
    db->fd = open_apart(path, 0);
    if (db->fd < 0)
        return unless(db, errno, EXSM_OS);
    if (flock(db->fd, LOCK_EX | LOCK_NB) != 0)
        return errno == EWOULDBLOCK ? EXSM_IN_USE : unless(db, errno, EXSM_OS);
    return unless(db, size_of(db->fd, &db->image_len), EXSM_OS);
}

int take_image(exsm *db)
{
    if (db->image_len == 0)
        return EXSM_OK;
    int is_read = (db->flags & EXSM_READ_ALL) != 0;
    int kind = MAP_PRIVATE | MAP_NORESERVE | (is_read ? MAP_ANONYMOUS : 0);
    void *at = mmap(NULL, db->image_len, PROT_READ | PROT_WRITE, kind, is_read ? -1 : db->fd, 0);
    if (at == MAP_FAILED)
        return errno == ENOMEM ? EXSM_NOMEM : unless(db, errno, EXSM_OS);
    db->image = at;
    return is_read ? unless(db, read_whole(db->fd, db->image, db->image_len), EXSM_DISK) : EXSM_OK;
}

/* Notes that the process isn't a child of the one that opened. Where the system can't tell a child, none is told. */
static void mark_ours(exsm *db)
{
#ifdef MADV_WIPEONFORK
    size_t page = (size_t)sysconf(_SC_PAGESIZE);
    void *at = mmap(NULL, page, PROT_READ | PROT_WRITE, MAP_PRIVATE | MAP_ANONYMOUS, -1, 0);
    if (at == MAP_FAILED)
        return;
    if (madvise(at, page, MADV_WIPEONFORK) != 0) {
        munmap(at, page);
        return;
    }
    db->is_ours = at;
    *db->is_ours = 1;
#else
    (void)db;
#endif
}

exsm *new_handle(unsigned flags)
{
    exsm *db = calloc(1, sizeof *db);
    if (db == NULL)
        return NULL;
    db->fd = -1;
    db->flags = flags;
    mark_ours(db);
    return db;
}

static int is_ours(const exsm *db)
{
    return db->is_ours == NULL || *db->is_ours != 0;
}

void let_go(exsm *db)
{
    if (db->core.at != NULL)
        exsm_core_close(&db->core);
    if (db->image != NULL)
        munmap(db->image, db->image_len);
    db->image = NULL;
    if (db->fd >= 0) {
        if (is_ours(db))
            flock(db->fd, LOCK_UN);
        close(db->fd);
    }
    db->fd = -1;
}

void free_handle(exsm *db)
{
    if (db->is_ours != NULL)
        munmap(db->is_ours, (size_t)sysconf(_SC_PAGESIZE));
    free(db->joined);
    free(db->reply);
    free(db);
}

/* ---- The listed calls ---- */

/* Makes room for `len` bytes. Whether there is. */
static int has_room(void **at, size_t *room, size_t len)
{
    if (len <= *room)
        return 1;
    void *more = realloc(*at, len);
    if (more == NULL)
        return 0;
    *at = more;
    *room = len;
    return 1;
}

/* Counts the bytes of calls that were listed since. */
static void count_waiting(exsm *db)
{
    size_t listed = exsm_core_asked(&db->core);
    exsm_asked what;
    for (; db->counted < listed; db->counted++) {
        exsm_core_call(&db->core, db->counted, &what, NULL, 0);
        db->waiting += what.len;
    }
}

/* Writes `len` joined bytes at a place. A result. */
static int write_joined(exsm *db, uint64_t at, size_t len)
{
    db->private_most += len + PAGE_MOST;
    db->kept += len;
    return unless(db, write_whole(db->fd, db->joined, len, at), EXSM_DISK);
}

/* Makes the listed calls of numbers `from` on that are writes, each where the one before it ends, as one. A result; `from` is then the next call. */
static int make_writes(exsm *db, size_t *from, size_t listed)
{
    uint64_t at = 0;
    size_t len = 0;
    for (; *from < listed; (*from)++) {
        exsm_asked what;
        exsm_core_call(&db->core, *from, &what, NULL, 0);
        if (!what.is_write || (len > 0 && (what.at != at + len || len + what.len > JOINED_MOST)))
            break;
        if (!has_room((void **)&db->joined, &db->joined_room, len + what.len))
            return EXSM_NOMEM;
        exsm_core_call(&db->core, *from, &what, db->joined + len, what.len);
        at = len > 0 ? at : what.at;
        len += what.len;
    }
    return write_joined(db, at, len);
}

/* Makes the listed call of number `from`, a sync. A result. */
static int make_sync(exsm *db, size_t *from)
{
    (*from)++;
    return unless(db, sync_file(db->fd), EXSM_DISK);
}

/* The file now has what the image has: gives the image's private pages back, where they are many. */
static void give_back(exsm *db)
{
    if (db->private_most < PRIVATE_MOST || (db->flags & EXSM_READ_ALL))
        return;
    madvise(db->image, db->image_len, MADV_DONTNEED);
    db->private_most = 0;
}

/* All that is listed was made. Forgets it where a sync came last, and else, where it is long, behind a sync: what no sync settled may be lost by a crash, so the
 * core has to know of it. A result. */
static int forget(exsm *db, int is_settled)
{
    if (!is_settled && db->kept <= KEPT_MOST)
        return EXSM_OK;
    int code = is_settled ? EXSM_OK : unless(db, sync_file(db->fd), EXSM_DISK);
    if (code != EXSM_OK)
        return code;
    exsm_core_made(&db->core);
    db->done = 0;
    db->kept = 0;
    db->counted = 0;
    return EXSM_OK;
}

int make_calls(exsm *db, size_t count)
{
    int is_settled = db->done == 0;
    while (db->done < count) {
        exsm_asked what;
        exsm_core_call(&db->core, db->done, &what, NULL, 0);
        is_settled = !what.is_write;
        int code = what.is_write ? make_writes(db, &db->done, count) : make_sync(db, &db->done);
        if (code != EXSM_OK)
            return code;
    }
    db->counted = db->done;
    db->waiting = 0;
    give_back(db);
    return count == exsm_core_asked(&db->core) ? forget(db, is_settled) : EXSM_OK;
}

/* Whether the listed calls are to be made now. */
static int is_due(exsm *db)
{
    if (!(db->flags & EXSM_LATER))
        return 1;
    count_waiting(db);
    return db->waiting > WAITING_MOST;
}

/* ---- The calls ---- */

/* Enters a handle. Whether nothing else is in it, and it is of this process. */
static int enters(exsm *db)
{
    return db != NULL && is_ours(db) && !__atomic_exchange_n(&db->is_in_call, 1, __ATOMIC_ACQUIRE);
}

/* Leaves a handle with the result of a call, which it gives. After a fault the volume is let go. */
static int leave(exsm *db, int code)
{
    db->why.code = code;
    if (code >= EXSM_NOMEM)
        let_go(db);
    __atomic_store_n(&db->is_in_call, 0, __ATOMIC_RELEASE);
    return code;
}

int begin_call(exsm *db, int is_used_well)
{
    if (!is_used_well || !enters(db))
        return EXSM_MISUSE;
    db->why = (exsm_why){0};
    return db->fd >= 0 ? EXSM_OK : leave(db, EXSM_DOWN);
}

/* Notes what the core knows besides of a call that it answered so. Of a number that a list hasn't it knows nothing, and would tell of an earlier call. */
static void ask_why(exsm *db, uint32_t answer)
{
    if (answer != EXSM_OK && answer != EXSM_MISUSE)
        exsm_core_why(&db->core, &db->why.told);
}

int end_call(exsm *db, uint32_t answer)
{
    ask_why(db, answer);
    int code = EXSM_OK;
    if (answer >= EXSM_NOMEM)
        code = make_calls(db, db->counted);
    else if (is_due(db))
        code = make_calls(db, exsm_core_asked(&db->core));
    return leave(db, answer >= EXSM_NOMEM || code == EXSM_OK ? (int)answer : code);
}

/* Opens all that a handle has. A result. */
static int open_volume(exsm *db, const char *path)
{
    int code = take_file(db, path);
    if (code == EXSM_OK)
        code = take_image(db);
    if (code == EXSM_OK)
        code = (int)exsm_core_open(&db->core, db->image, db->image_len, &db->why.part);
    return code == EXSM_OK ? make_calls(db, exsm_core_asked(&db->core)) : code;
}

int exsm_open(const char *path, unsigned flags, exsm **out, exsm_why *why)
{
    exsm_why unasked;
    if (why == NULL)
        why = &unasked;
    *why = (exsm_why){.code = EXSM_MISUSE};
    if (out == NULL)
        return why->code;
    *out = NULL;
    if (path == NULL || (flags & ~(unsigned)(EXSM_READ_ALL | EXSM_LATER)) != 0)
        return why->code;
    exsm *db = new_handle(flags);
    if (db == NULL)
        return why->code = EXSM_NOMEM;
    db->why.code = open_volume(db, path);
    *why = db->why;
    if (why->code == EXSM_OK) {
        *out = db;
        return EXSM_OK;
    }
    let_go(db);
    free_handle(db);
    return why->code;
}

int exsm_close(exsm *db)
{
    if (db == NULL)
        return EXSM_OK;
    int is_child = !is_ours(db);
    if (!is_child && !enters(db))
        return EXSM_MISUSE;
    int code = is_child || db->fd < 0 ? EXSM_OK : make_calls(db, exsm_core_asked(&db->core));
    let_go(db);
    free_handle(db);
    return code;
}

int exsm_sync(exsm *db)
{
    int code = begin_call(db, 1);
    return code == EXSM_OK ? leave(db, make_calls(db, exsm_core_asked(&db->core))) : code;
}

void exsm_last(const exsm *db, exsm_why *out)
{
    if (db != NULL && out != NULL)
        *out = db->why;
}

/* Takes the reply's text from the core, without its line feed. A result. */
static uint32_t take_reply(exsm *db)
{
    size_t len = exsm_core_text_len(&db->core);
    if (!has_room((void **)&db->reply, &db->reply_room, len + 1))
        return EXSM_NOMEM;
    exsm_core_text(&db->core, (uint8_t *)db->reply, len);
    db->reply_len = len > 0 ? len - 1 : 0;
    db->reply[db->reply_len] = '\0';
    return EXSM_OK;
}

int exsm_line(exsm *db, const char *line, size_t len, const char **reply, size_t *reply_len)
{
    int code = begin_call(db, line != NULL || len == 0);
    if (code != EXSM_OK)
        return code;
    uint32_t answer = exsm_core_line(&db->core, db->image, db->image_len, (const uint8_t *)line, len);
    if (answer < EXSM_NOMEM && take_reply(db) != EXSM_OK)
        answer = EXSM_NOMEM;
    code = end_call(db, answer);
    if (code < EXSM_NOMEM && reply != NULL)
        *reply = db->reply;
    if (code < EXSM_NOMEM && reply_len != NULL)
        *reply_len = db->reply_len;
    return code;
}
