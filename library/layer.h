/* layer.h: what the files of the layer share. */
#ifndef LAYER_H
#define LAYER_H

#include "exsm.h"

struct exsm {
    exsm_core core;
    unsigned flags;
    int is_in_call;     /* a call is in it */
    int fd;             /* the volume; -1 where the handle is down */
    uint8_t *is_ours;   /* a byte that is 1 in this process and 0 in a forked child, as the system sees to; null where it can't */
    uint8_t *image;     /* null where it has no bytes */
    size_t image_len;
    size_t done;        /* listed calls that were made: they stay listed until a sync settles them */
    uint64_t kept;      /* bytes that those write */
    size_t counted;     /* listed calls that `waiting` counts */
    uint64_t waiting;   /* bytes that listed calls write, as far as they are counted */
    uint64_t private_most; /* bytes of pages of the image that are this process' own, at most */
    uint8_t *joined;    /* bytes of listed writes, on their way to the file */
    size_t joined_room;
    char *reply;
    size_t reply_room, reply_len;
    exsm_why why;
};

/* A handle with nothing in it yet; null where there is no memory. */
exsm *new_handle(unsigned flags);

/* Opens a file to be read and written, with more flags of open, on a descriptor of no standard stream. -1 where it fails. */
int open_apart(const char *path, int more);

/* EXSM_OK where there is no reason of the system, else `code`, and the reason is noted. */
int unless(exsm *db, int reason, int code);

/* Writes bytes at a place, whole. 0, or the system's reason. */
int write_whole(int fd, const uint8_t *bytes, size_t len, uint64_t at);

/* Maps the file of `image_len` bytes privately, or reads it. A result. */
int take_image(exsm *db);

/* Makes the first `count` calls that are listed, in their order, up to one that fails, but for those that were made already. The list is forgotten once a
 * sync has settled all of it. A result. */
int make_calls(exsm *db, size_t count);

/* Lets the volume go: no call on it is made from here on. A forked child leaves the lock to its parent. */
void let_go(exsm *db);

/* Frees the handle, of which the volume was let go. */
void free_handle(exsm *db);

/* Begins a call on a handle, which the caller uses well or not. EXSM_OK where it is to be done and ended, else its answer. */
int begin_call(exsm *db, int is_used_well);

/* Ends a call that the core answered so: makes what it listed, where that isn't to wait, and after a fault lets the volume go. Gives the call's answer. */
int end_call(exsm *db, uint32_t answer);

#endif
