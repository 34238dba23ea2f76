/* exsm.h: exsm as a library.
 *
 * exsm keeps large objects, each a sequence of bytes, in one volume: a file or a block device. Bytes are read, replaced, inserted, deleted and
 * appended at any position, within transactions, and versions are kept. docs/LIBRARY.md shows how programs use this header; docs/RULES.md has each
 * line that a volume takes, with all that it may be answered.
 *
 *     exsm *db;
 *     exsm_why why;
 *     const char *reply;
 *     size_t len;
 *     if (exsm_open("v", 0, &db, &why) != EXSM_OK)
 *         errx(1, "v: %s", exsm_text(why.code));
 *     if (exsm_line(db, "files", 5, &reply, &len) == EXSM_OK)
 *         printf("%s\n", reply);
 *     exsm_close(db);
 *
 * What every call has in common:
 *
 *   Results    Each call that can fail returns one of the numbers below, EXSM_OK where it did what it says.
 *   Memory     The caller owns each buffer that it passes and each struct that it gets filled. A handle owns its texts until the next call on it. Of
 *              what the library gives, the handle alone is let go by the caller, by exsm_close. The library takes memory by malloc.
 *   Threads    A handle may be used by any thread, by one at a time. A call on a handle that another thread is in, or that the call interrupted, does
 *              nothing and answers EXSM_MISUSE. Handles are independent of one another.
 *   Processes  One process at a time has a volume, by one handle. In a forked child each call on a handle of the parent answers EXSM_MISUSE, but for
 *              exsm_close, which lets the child's copy go and leaves file and lock as they are.
 *   Signals    Calls aren't to be made in a signal's handler. The volume is mapped: where the disk can't be read, or another program cuts the file
 *              short, the system sends SIGBUS, as for each mapped file. EXSM_READ_ALL has no mapping. A write past the process' limit of a file's size
 *              (RLIMIT_FSIZE) sends SIGXFSZ, unless that is ignored.
 *   Quiet      The library writes nothing to standard streams, starts no thread, takes no signal, changes no setting of the process, and ends it never.
 */
#ifndef EXSM_H
#define EXSM_H

#include <stddef.h>
#include <stdint.h>

#ifdef __cplusplus
extern "C" {
#endif

/* An open volume. */
typedef struct exsm exsm;

/* ---- Results ---- */

enum {
    EXSM_OK = 0,

    /* Refusals, by the numbers of docs/RULES.md ("Refusals"), which says of each exactly where it comes. A refused call changed nothing, and the handle
     * goes on as before. */
    EXSM_LINE_LONG = 1,     /* the line has more than 1,048,576 bytes */
    EXSM_SYNTAX = 2,        /* the words spell no command */
    EXSM_DATA_LIMIT = 3,    /* more than 16,777,216 bytes are given or asked for */
    EXSM_NO_TXN = 4,        /* an update or a commit needs a transaction, and none is open */
    EXSM_TXN_OPEN = 5,      /* a transaction is open */
    EXSM_NO_NAME = 6,       /* the name isn't bound */
    EXSM_NAME_TAKEN = 7,    /* the name is that of a bound name, an open scan or a group */
    EXSM_NO_FILE = 8,       /* no file has the name */
    EXSM_FILE_EXISTS = 9,   /* a file has the name */
    EXSM_FILES_FULL = 10,   /* there are as many files as there may be */
    EXSM_NO_OBJECT = 11,    /* no version has the identifier */
    EXSM_FROZEN = 12,       /* the version is frozen, and keeps its bytes */
    EXSM_CURRENT = 13,      /* the version is a current one */
    EXSM_NOT_EMPTY = 14,    /* the file has objects */
    EXSM_HAS_VERSIONS = 15, /* the version is the only one that is derived from its older one */
    EXSM_NO_SCAN = 16,      /* no open scan has the name */
    EXSM_NO_GROUP = 17,     /* no group has the name */
    EXSM_RANGE = 18,        /* the place is behind the end */
    EXSM_TOO_LARGE = 19,    /* an object has at most 1,099,511,627,775 bytes */
    EXSM_TOO_MANY = 20,     /* 64 scans are open, or there are 64 groups */
    EXSM_IDS_SPENT = 21,    /* the numbers of this volume are spent */
    EXSM_LONG_TXN = 22,     /* the transaction is full: commit, and go on in the next one */
    EXSM_FULL = 23,         /* the update may need more pages or segment units than are free */
    EXSM_BRANCHES = 24,     /* several versions are derived from the frozen one */
    EXSM_BUSY = 25,         /* another client's transaction is open; a handle has one client, so it never comes */

    /* Wrong calls. Nothing was done, and the handle goes on as before. */
    EXSM_ROOM = 50,         /* the caller's buffer is too small */
    EXSM_MISUSE = 51,       /* a null pointer, an unknown flag, a handle of the parent process or one that a call is in */

    /* Faults. The handle is down: its file is closed and free for others, each later call on it answers EXSM_DOWN, and it is still to be closed. What was
     * committed is on the volume, whole; whether a commit that was answered so is there too, an opening tells. exsm_open answers them too, and gives no
     * handle then. */
    EXSM_NOMEM = 100,       /* no memory was there */
    EXSM_DISK = 101,        /* a call on the file failed; os_error has the system's reason */
    EXSM_DAMAGED = 102,     /* a page isn't what names it; never on an honest disk */
    EXSM_DOWN = 103,        /* an earlier call on the handle met a fault */
    EXSM_BAD_VOLUME = 104,  /* exsm_open: the file holds no volume, or a damaged one; it is as it was. exsm_format, exsm_core_make: a size breaks a limit */
    EXSM_IN_USE = 105,      /* exsm_open: another process, or another handle, has the volume */
    EXSM_OS = 106,          /* exsm_open, exsm_format: the file can't be opened, made, locked or mapped; os_error has the system's reason */
    EXSM_IS_VOLUME = 107,   /* exsm_core_make: the image holds a volume already; it is as it was */
    EXSM_TOO_SMALL = 108    /* exsm_core_make: the image is smaller than the volume; it is as it was */
};

/* What a result says, as a sentence without a full stop: "no transaction is open". Of a number that is none of the above, that it is unknown. The text
 * is static, and never null. */
const char *exsm_text(int code);

/* The version of the library: "0.9.0". Static. */
const char *exsm_version(void);

/* The parts of a volume, in the order in which an opening tests them. */
enum {
    EXSM_PART_SUPER = 1,   /* the superblock, and the size of the file */
    EXSM_PART_LOG = 2,     /* the records of the log */
    EXSM_PART_CATALOG = 3, /* the page of the files */
    EXSM_PART_FILE = 4,    /* which pages are a file's */
    EXSM_PART_PAGE = 5,    /* the pages of the files */
    EXSM_PART_BODY = 6,    /* the records on them */
    EXSM_PART_NODE = 7,    /* the nodes of the trees of large versions */
    EXSM_PART_BALANCE = 8, /* their counts, and how full leaves and nodes are */
    EXSM_PART_UNIQUE = 9   /* the numbers of versions */
};

/* What the core knows besides of a call that wasn't done. A number that the result doesn't speak of is 0. */
typedef struct exsm_reason {
    uint32_t code;              /* the result */
    uint8_t scans;              /* EXSM_TOO_MANY: 1 where they are scans, 0 where they are groups */
    uint8_t area;               /* EXSM_FULL: 0 for pages, 1 for segment units */
    uint32_t updates, touched;  /* EXSM_LONG_TXN: the updates of the transaction, and the pages that it touched */
    uint64_t need, free;        /* EXSM_FULL: the units that the update may need, and those that are free */
    uint64_t derived;           /* EXSM_BRANCHES: how many versions are derived */
    uint32_t page;              /* EXSM_DAMAGED: the page, and the kind, the level and the total that were wanted of it and got */
    uint8_t want_kind, want_level, got_kind, got_level;
    uint64_t want_total, got_total;
} exsm_reason;

/* What is known besides of a call that wasn't answered EXSM_OK. */
typedef struct exsm_why {
    int code;         /* its result */
    int os_error;     /* at EXSM_DISK and EXSM_OS the system's reason, a number of errno.h; else 0. ENOTBLK: it is neither a file nor a block device */
    uint8_t part;     /* exsm_open, at EXSM_BAD_VOLUME: the first part that fails, EXSM_PART_SUPER to EXSM_PART_UNIQUE; else 0 */
    exsm_reason told; /* what the core knows of a refusal or of damage; else zeros */
} exsm_why;

/* Fills `out` with what is known of the last call on the handle, of any kind, that wasn't answered EXSM_OK; all zero where each was. Does nothing where
 * either is null. */
void exsm_last(const exsm *db, exsm_why *out);

/* ---- Opening and closing ---- */

/* The sizes of a volume: the bytes of a page, 512 to 8,192; the pages of the page area; the units of the segment area; the pages of a unit, 1 to 16; the least
 * number of pairs of an inner node, 2 to (page_size - 20) / 24. */
typedef struct exsm_geometry {
    uint32_t page_size, pages, segs, seg_len, fan;
} exsm_geometry;

/* Makes an empty volume in a new file: of (257 + pages + segs * seg_len) * page_size bytes, of which the first 128 MiB are written with zeros and the others
 * are sparse. It doesn't open it. A file that is there is left alone: EXSM_OS, and os_error is EEXIST. Where the answer is a fault, no file is left; a process
 * that is killed in its midst leaves one that is no volume. Volumes on devices are made by the program.
 *
 * EXSM_OK, EXSM_MISUSE, EXSM_NOMEM, EXSM_DISK, EXSM_BAD_VOLUME where a size breaks a limit, or EXSM_OS. `why` may be null. */
int exsm_format(const char *path, const exsm_geometry *sizes, exsm_why *why);

/* Flags of exsm_open, to be added. */
enum {
    /* The volume is read into memory whole, in place of a mapping: no SIGBUS, but memory as large as the volume, and the time to read it. */
    EXSM_READ_ALL = 1,
    /* A commit is answered before it is on the disk. All that is to be written waits in memory, and is written in its order by exsm_sync, by exsm_close, and
     * by itself where more than 32 MiB wait. A crash may lose the last commits, each whole, from the last one backwards, and leaves the volume as one of
     * them left it: never out of order, never damaged. */
    EXSM_LATER = 2
};

/* Opens the volume at a path, a file or a block device, and gives a handle of it.
 *
 * The opening tests all that leads to the bytes of objects, and writes: it brings the pages of the log home. It takes the lock that each run of the program
 * takes, for as long as the handle is open, and waits for nobody. It makes no volume.
 *
 *   path   the name of the file, ended by a zero byte
 *   flags  0, or flags from above
 *   out    gets the handle, which is to be closed by exsm_close; null where the answer isn't EXSM_OK
 *   why    gets what is known besides where the answer isn't EXSM_OK, else zeros; may be null
 *
 * EXSM_OK, EXSM_MISUSE, EXSM_NOMEM, EXSM_DISK, EXSM_BAD_VOLUME, EXSM_IN_USE or EXSM_OS. Where it is EXSM_DISK in the midst of bringing the log home, the
 * volume is as after any stop: the next opening begins that anew. */
int exsm_open(const char *path, unsigned flags, exsm **out, exsm_why *why);

/* Closes a handle: aborts an open transaction, writes what waits under EXSM_LATER, and lets all go that the handle has. It is called once for each handle
 * that exsm_open gave, whatever happened to it; the handle is gone whatever is answered, but for EXSM_MISUSE. A null pointer is no handle, and is taken.
 *
 * EXSM_OK; EXSM_NOMEM or EXSM_DISK where what waited couldn't be written, so that the last commits are lost, which can be under EXSM_LATER alone; or
 * EXSM_MISUSE where another thread is in a call on it, and then it stays open. Who wants to know more, or to tell what was kept, calls exsm_sync before. */
int exsm_close(exsm *db);

/* Writes what waits under EXSM_LATER, in its order. Where it is answered EXSM_OK, each commit that was answered before outlasts a loss of power. Without
 * EXSM_LATER nothing waits.
 *
 * EXSM_OK, EXSM_MISUSE, EXSM_NOMEM, EXSM_DISK or EXSM_DOWN. */
int exsm_sync(exsm *db);

/* ---- Lines ---- */

/* Steps on a line of a script, as docs/RULES.md has them, and gives its reply: all that the program can do, by the same texts. A commit that is answered
 * EXSM_OK outlasts a loss of power, on a disk that keeps to what docs/DEVICES.md asks of it, unless the handle was opened with EXSM_LATER.
 *
 *   line, len         the line, without its line feed; it need not be ended by a zero byte. May be null where len is 0
 *   reply, reply_len  get the text of the reply, "ok .." or "no NUMBER ..", without its line feed and ended by a zero byte, and its length. The text is the
 *                     handle's, until the next call on it. A line without words, and one that begins with #, has no reply: the text is empty. Either may be
 *                     null. Where the answer is a fault or EXSM_MISUSE they are left as they are
 *
 * EXSM_OK where the reply begins with ok, and where there is none; the number of the refusal where it begins with no; EXSM_MISUSE, EXSM_NOMEM, EXSM_DISK,
 * EXSM_DAMAGED or EXSM_DOWN. */
int exsm_line(exsm *db, const char *line, size_t len, const char **reply, size_t *reply_len);

/* ---- Calls by values ---- */

/* Each of these does what its line in docs/RULES.md does, and is refused where that is, in its order, but that no text is made or read. An answer other than
 * EXSM_OK leaves what the call fills as it was; at a fault it may have any values. Of what a call fills, a pointer that may be null is said to be. Besides
 * EXSM_OK and the refusals that are named, each may be answered EXSM_MISUSE, EXSM_NOMEM, EXSM_DISK, EXSM_DAMAGED or EXSM_DOWN.
 *
 * A name has 1 to 32 bytes of a-z, 0-9 and _, and is ended by a zero byte; another one is EXSM_SYNTAX. */

/* The identifier of a version, `page.slot.unique` in a line. The last number is the version's for good, the others say where its record lies. */
typedef struct exsm_oid {
    uint32_t page;
    uint16_t slot;
    uint64_t unique;
} exsm_oid;

/* Transactions: one at a time. Reads show its working state, or the committed one where none is open. An update needs one (EXSM_NO_TXN), and at most 512 fit
 * into it (EXSM_LONG_TXN). */

/* Begins one; `number`, which may be null, gets the number that its commit will have. EXSM_TXN_OPEN, EXSM_IDS_SPENT. */
int exsm_begin(exsm *db, uint64_t *number);

/* Makes its state the committed one; `number`, which may be null, gets the commit's. Where it is EXSM_OK, the commit outlasts a loss of power, unless the
 * handle was opened with EXSM_LATER. Where it is a fault, the next opening tells whether the commit is there: whole or not at all. EXSM_NO_TXN. */
int exsm_commit(exsm *db, uint64_t *number);

/* Drops its state. EXSM_NO_TXN. */
int exsm_abort(exsm *db);

/* Writes logged pages home and empties the log. EXSM_TXN_OPEN. */
int exsm_checkpoint(exsm *db);

/* Files, which hold objects. */

/* Update: makes an empty one. EXSM_FILE_EXISTS, EXSM_FILES_FULL, EXSM_FULL. */
int exsm_file(exsm *db, const char *name);

/* Update: removes one without objects. EXSM_NO_FILE, EXSM_NOT_EMPTY. */
int exsm_unfile(exsm *db, const char *name);

/* Lists the files, in byte order of their names; `count` gets how many there are, and exsm_name_at tells each. */
int exsm_files(exsm *db, size_t *count);

/* Lists the current versions in a file, in order of their numbers; `count` gets how many there are, and exsm_oid_at tells each. EXSM_NO_FILE. */
int exsm_list(exsm *db, const char *file, size_t *count);

/* Tells the name of a number from 0 on, of the last exsm_files, ended by a zero byte. EXSM_MISUSE where that had no such name. */
int exsm_name_at(exsm *db, size_t number, char name[33]);

/* Tells the version of a number from 0 on, of the last exsm_list or exsm_versions. EXSM_MISUSE where that had no such version. */
int exsm_oid_at(exsm *db, size_t number, exsm_oid *x);

/* Objects, by bytes. Each takes a version's identifier, and is EXSM_NO_OBJECT where none has it; edits are EXSM_FROZEN where it is a frozen one. A call gives or
 * asks for at most 16,777,216 bytes (EXSM_DATA_LIMIT). `size`, which may be null, gets the bytes that the version then has. */

/* Update: makes an empty object in a file. EXSM_NO_FILE, EXSM_IDS_SPENT, EXSM_FULL. */
int exsm_create(exsm *db, const char *file, exsm_oid *made);

/* Update: removes a current version, and its object with the last one. EXSM_HAS_VERSIONS. */
int exsm_destroy(exsm *db, const exsm_oid *x);

/* Tells how many bytes it has. */
int exsm_size(exsm *db, const exsm_oid *x, uint64_t *size);

/* Reads `len` bytes from a position on. EXSM_RANGE where there are fewer. */
int exsm_read(exsm *db, const exsm_oid *x, uint64_t position, void *out, size_t len);

/* Updates: put bytes at the end; in before the one at a position; over those from a position on. EXSM_RANGE, EXSM_TOO_LARGE, EXSM_FULL. */
int exsm_append(exsm *db, const exsm_oid *x, const void *bytes, size_t len, uint64_t *size);
int exsm_insert(exsm *db, const exsm_oid *x, uint64_t position, const void *bytes, size_t len, uint64_t *size);
int exsm_replace(exsm *db, const exsm_oid *x, uint64_t position, const void *bytes, size_t len, uint64_t *size);

/* Update: puts one byte at the end, `count` times. EXSM_TOO_LARGE, EXSM_FULL. */
int exsm_fill(exsm *db, const exsm_oid *x, size_t count, uint8_t byte, uint64_t *size);

/* Update: takes `len` bytes from a position on out. EXSM_RANGE, EXSM_FULL. */
int exsm_delete(exsm *db, const exsm_oid *x, uint64_t position, uint64_t len, uint64_t *size);

/* Gives the SHA-256 of its bytes. */
int exsm_digest(exsm *db, const exsm_oid *x, uint8_t out[32]);

/* How a version lies. */
typedef struct exsm_stat {
    uint64_t size;    /* its bytes */
    uint64_t leaves;  /* of a large one the leaves of its tree, else 0 */
    uint8_t is_large; /* 1 where its bytes are leaves of a tree, 0 where they are a record on a page */
    uint8_t height;   /* of a large one that of its tree, else 0 */
} exsm_stat;

/* Tells how it lies. */
int exsm_stat_of(exsm *db, const exsm_oid *x, exsm_stat *out);

/* Versions: a frozen one keeps its bytes until it is dropped. Neither of the first two copies bytes of a large one. */

/* Update: puts a frozen copy of a current version before it; `frozen` gets the copy's identifier. EXSM_FROZEN, EXSM_IDS_SPENT, EXSM_FULL. */
int exsm_freeze(exsm *db, const exsm_oid *x, exsm_oid *frozen);

/* Update: makes a current version with the bytes of a frozen one. EXSM_CURRENT, EXSM_IDS_SPENT, EXSM_FULL. */
int exsm_derive(exsm *db, const exsm_oid *x, exsm_oid *made);

/* Lists all versions of its object, each before those derived from it; `count` gets how many there are, and exsm_oid_at tells each. */
int exsm_versions(exsm *db, const exsm_oid *x, size_t *count);

/* Update: removes a frozen version. EXSM_CURRENT, EXSM_BRANCHES. */
int exsm_drop(exsm *db, const exsm_oid *x);

/* Scans: the bytes that a version had when its scan was opened, whatever becomes of it. At most 64 are open, and they end with the handle. A group of frames is
 * a part of the memory that pages are kept in, so that a scan doesn't drive out what others use. */

/* Makes a group of 1 to 1,024 frames, which gives up its most recent frame first where `mru` isn't 0, else its least recent one. EXSM_NAME_TAKEN,
 * EXSM_TOO_MANY, and EXSM_SYNTAX for another number of frames. */
int exsm_group(exsm *db, const char *name, uint32_t frames, int mru);

/* Opens a scan, in a group, or in the common one where `group` is null. `size`, which may be null, gets the bytes that it gives in all. EXSM_NO_OBJECT,
 * EXSM_NAME_TAKEN, EXSM_NO_GROUP, EXSM_TOO_MANY. */
int exsm_scan(exsm *db, const exsm_oid *x, const char *name, const char *group, uint64_t *size);

/* Gives the next bytes, at most `room`; `len` gets how many they are, 0 at the end. EXSM_NO_SCAN, EXSM_DATA_LIMIT. */
int exsm_next(exsm *db, const char *name, void *out, size_t room, size_t *len);

/* Closes a scan. EXSM_NO_SCAN. */
int exsm_end(exsm *db, const char *name);

/* Numbers. */

/* The units in use, and all that there are. */
typedef struct exsm_space {
    uint32_t pages, of_pages; /* of the page area */
    uint32_t segs, of_segs;   /* of the segment area */
} exsm_space;

/* Tells the units in use. */
int exsm_space_of(exsm *db, exsm_space *out);

/* Tells how many records of the log count. */
int exsm_log(exsm *db, uint32_t *records);

/* What a volume holds. */
typedef struct exsm_counts {
    uint64_t last;                     /* the number of the last commit */
    uint64_t files, objects, versions; /* of the committed state */
    uint64_t pages, segs;              /* units that it reaches */
} exsm_counts;

/* Tells what the committed state of the volume holds, as `exsm check` does; it reads all that leads to the bytes of objects. */
int exsm_check(exsm *db, exsm_counts *out);

/* ---- Without a file ---- */

/* The calls above are these with calls on a file round them. They compute, and touch nothing but what they are given: the caller is the disk. They serve
 * who keeps a volume elsewhere, in a container, in memory or on a device of its own, and tests.
 *
 * The caller lends the library the bytes of the volume, the image, at each call that takes it. A call changes the image, and lists the calls that are to be
 * made on the disk, writes and syncs. Once they are made, in their order, before the call's reply is used, the disk holds what the
 * image holds. Where one of them can't be made, make none after it, and close. A disk that stops between two of them, or in the midst of one, holds what an
 * opening opens: the committed state before the call, or in a commit that one or the next.
 *
 * Nothing tests what a caller owes here:
 *
 *   - a core is zero before exsm_core_open, is changed by these calls alone, and isn't copied
 *   - exsm_core_open gets a core that isn't open; each other call gets an open one, and each open one is closed once. One whose opening was refused isn't
 *     open
 *   - one call at a time is made on a core
 *   - the image is the same bytes in each call as the last one left, of the same length; it may lie elsewhere
 *   - a pointer with a length is to that many bytes, which nothing else writes or reads meanwhile and which overlap with no other argument. With length 0 it
 *     may be null
 *
 * The numbers that they answer are those of above. */
typedef struct exsm_core {
    void *at; /* the core's own; null while it isn't open */
} exsm_core;

/* A call that is to be made on the disk: a write of `len` bytes at the place `at`, or a sync, of which both are 0. */
typedef struct exsm_asked {
    uint8_t is_write;
    uint64_t at, len;
} exsm_asked;

/* Opens the volume that the image holds. EXSM_OK, EXSM_NOMEM or EXSM_BAD_VOLUME, and then `part` gets the first part that fails. */
uint32_t exsm_core_open(exsm_core *core, uint8_t *image, size_t image_len, uint8_t *part);

/* Makes an empty volume on an image that holds none, whatever its bytes are, and opens it. EXSM_OK, EXSM_NOMEM, EXSM_BAD_VOLUME where a size breaks a limit,
 * EXSM_IS_VOLUME or EXSM_TOO_SMALL. */
uint32_t exsm_core_make(exsm_core *core, uint8_t *image, size_t image_len, const exsm_geometry *sizes);

/* Closes it, and drops what is listed. */
void exsm_core_close(exsm_core *core);

/* Tells what is known of the last call with an image that wasn't done; zeros where each was. */
void exsm_core_why(exsm_core *core, exsm_reason *out);

/* How many calls are listed. */
size_t exsm_core_asked(exsm_core *core);

/* Tells the listed call of a number from 0 on, and copies the bytes of a write to the front of `out`, as many as it has room for. EXSM_OK, or EXSM_MISUSE
 * where no call has the number. */
uint32_t exsm_core_call(exsm_core *core, size_t number, exsm_asked *what, uint8_t *out, size_t room);

/* All listed calls were made, and a sync has settled them: forgets them. Those that were made and not settled stay listed, since a crash may still lose them;
 * who makes the calls goes on behind them at the next step. */
void exsm_core_made(exsm_core *core);

/* Steps on a line without its line feed. EXSM_OK, also where it has no reply; a refusal; EXSM_MISUSE where the image has another length than the opened one,
 * and nothing was done; EXSM_NOMEM, EXSM_DAMAGED or EXSM_DOWN. */
uint32_t exsm_core_line(exsm_core *core, uint8_t *image, size_t image_len, const uint8_t *line, size_t len);

/* The length of the last line's reply, with its line feed; 0 where it has none. */
size_t exsm_core_text_len(exsm_core *core);

/* Copies the last line's reply, with its line feed, to the front of `out`. EXSM_OK, or EXSM_ROOM where it doesn't fit, and nothing is copied. */
uint32_t exsm_core_text(exsm_core *core, uint8_t *out, size_t room);

/* The calls by values. Each does what the call above of its name does, with the refusals that stand there; a name is given by its bytes and their number, and no
 * pointer but one with a length may be null. */
uint32_t exsm_core_begin(exsm_core *core, uint8_t *image, size_t image_len, uint64_t *number);
uint32_t exsm_core_commit(exsm_core *core, uint8_t *image, size_t image_len, uint64_t *number);
uint32_t exsm_core_abort(exsm_core *core, uint8_t *image, size_t image_len);
uint32_t exsm_core_checkpoint(exsm_core *core, uint8_t *image, size_t image_len);
uint32_t exsm_core_file(exsm_core *core, uint8_t *image, size_t image_len, const uint8_t *name, size_t name_len);
uint32_t exsm_core_unfile(exsm_core *core, uint8_t *image, size_t image_len, const uint8_t *name, size_t name_len);
uint32_t exsm_core_files(exsm_core *core, uint8_t *image, size_t image_len, size_t *count);
uint32_t exsm_core_list(exsm_core *core, uint8_t *image, size_t image_len, const uint8_t *file, size_t file_len, size_t *count);
uint32_t exsm_core_name_at(exsm_core *core, size_t number, uint8_t *out, size_t room, size_t *len); /* without a zero byte; 32 bytes are room for each */
uint32_t exsm_core_oid_at(exsm_core *core, size_t number, exsm_oid *x);
uint32_t exsm_core_create(exsm_core *core, uint8_t *image, size_t image_len, const uint8_t *file, size_t file_len, exsm_oid *made);
uint32_t exsm_core_destroy(exsm_core *core, uint8_t *image, size_t image_len, const exsm_oid *x);
uint32_t exsm_core_size(exsm_core *core, uint8_t *image, size_t image_len, const exsm_oid *x, uint64_t *size);
uint32_t exsm_core_stat(exsm_core *core, uint8_t *image, size_t image_len, const exsm_oid *x, exsm_stat *out);
uint32_t exsm_core_digest(exsm_core *core, uint8_t *image, size_t image_len, const exsm_oid *x, uint8_t *out, size_t room); /* 32 bytes */
uint32_t exsm_core_read(exsm_core *core, uint8_t *image, size_t image_len, const exsm_oid *x, uint64_t position, uint8_t *out, size_t len);
uint32_t exsm_core_append(exsm_core *core, uint8_t *image, size_t image_len, const exsm_oid *x, const uint8_t *bytes, size_t len, uint64_t *size);
uint32_t exsm_core_insert(exsm_core *core, uint8_t *image, size_t image_len, const exsm_oid *x, uint64_t position, const uint8_t *bytes, size_t len,
                          uint64_t *size);
uint32_t exsm_core_replace(exsm_core *core, uint8_t *image, size_t image_len, const exsm_oid *x, uint64_t position, const uint8_t *bytes, size_t len,
                           uint64_t *size);
uint32_t exsm_core_fill(exsm_core *core, uint8_t *image, size_t image_len, const exsm_oid *x, size_t count, uint8_t byte, uint64_t *size);
uint32_t exsm_core_delete(exsm_core *core, uint8_t *image, size_t image_len, const exsm_oid *x, uint64_t position, uint64_t len, uint64_t *size);
uint32_t exsm_core_freeze(exsm_core *core, uint8_t *image, size_t image_len, const exsm_oid *x, exsm_oid *frozen);
uint32_t exsm_core_derive(exsm_core *core, uint8_t *image, size_t image_len, const exsm_oid *x, exsm_oid *made);
uint32_t exsm_core_versions(exsm_core *core, uint8_t *image, size_t image_len, const exsm_oid *x, size_t *count);
uint32_t exsm_core_drop(exsm_core *core, uint8_t *image, size_t image_len, const exsm_oid *x);
uint32_t exsm_core_group(exsm_core *core, uint8_t *image, size_t image_len, const uint8_t *name, size_t name_len, uint32_t frames, uint8_t mru);
uint32_t exsm_core_scan(exsm_core *core, uint8_t *image, size_t image_len, const exsm_oid *x, const uint8_t *name, size_t name_len, const uint8_t *group,
                        size_t group_len, uint64_t *size); /* no bytes of a group: the common one */
uint32_t exsm_core_next(exsm_core *core, uint8_t *image, size_t image_len, const uint8_t *name, size_t name_len, uint8_t *out, size_t room, size_t *len);
uint32_t exsm_core_end(exsm_core *core, uint8_t *image, size_t image_len, const uint8_t *name, size_t name_len);
uint32_t exsm_core_space(exsm_core *core, uint8_t *image, size_t image_len, exsm_space *out);
uint32_t exsm_core_log(exsm_core *core, uint8_t *image, size_t image_len, uint32_t *records);
uint32_t exsm_core_check(exsm_core *core, uint8_t *image, size_t image_len, exsm_counts *out);

#ifdef __cplusplus
}
#endif

#endif
