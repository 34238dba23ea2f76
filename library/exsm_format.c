/* exsm_format.c: a volume is made in a new file. */
#define _GNU_SOURCE
#include "layer.h"

#include <errno.h>
#include <fcntl.h>
#include <stdlib.h>
#include <string.h>
#include <sys/file.h>
#include <unistd.h>

/* Bytes of a new file that are written with zeros, so that the file system has given room to them before the first commit. What lies behind is sparse. */
#define FILLED_MOST ((size_t)128 << 20)

/* Zeros that one call writes. */
#define ZEROS_LEN ((size_t)1 << 16)

/* Pages before the page area: the superblock and the log; and the catalog, its first page. */
#define PAGES_BEFORE 257

/* Whether a volume may have the sizes: the core refuses others first, and then an image that is too small. */
static int are_sizes(const exsm_geometry *sizes)
{
    exsm_core core = {0};
    return exsm_core_make(&core, NULL, 0, sizes) == EXSM_TOO_SMALL;
}

/* The bytes of a volume of these sizes, which a volume may have. */
static size_t bytes_of(const exsm_geometry *sizes)
{
    return (size_t)sizes->page_size * (PAGES_BEFORE + (size_t)sizes->pages + (size_t)sizes->segs * sizes->seg_len);
}

/* Gives a new file its bytes. 0, or the system's reason. */
static int fill(int fd, size_t size)
{
    static const uint8_t zeros[ZEROS_LEN];
    if (ftruncate(fd, (off_t)size) != 0)
        return errno;
    size_t filled = size < FILLED_MOST ? size : FILLED_MOST;
    for (size_t at = 0; at < filled; at += ZEROS_LEN) {
        int reason = write_whole(fd, zeros, filled - at < ZEROS_LEN ? filled - at : ZEROS_LEN, at);
        if (reason != 0)
            return reason;
    }
    return 0;
}

/* The folder of a path is on the disk, with its names. 0, or the system's reason. */
static int sync_folder(const char *path)
{
    char *folder = strdup(path);
    if (folder == NULL)
        return ENOMEM;
    char *end = strrchr(folder, '/');
    if (end != NULL)
        end[end == folder] = '\0';
    int fd = open(end != NULL ? folder : ".", O_RDONLY | O_CLOEXEC);
    free(folder);
    if (fd < 0)
        return errno;
    int reason = fsync(fd) == 0 ? 0 : errno;
    close(fd);
    return reason;
}

/* Makes the volume in the handle's new file. A result. */
static int make_volume(exsm *db, const char *path, const exsm_geometry *sizes)
{
    if (flock(db->fd, LOCK_EX | LOCK_NB) != 0)
        return unless(db, errno, EXSM_OS);
    int code = unless(db, fill(db->fd, db->image_len), EXSM_DISK);
    if (code == EXSM_OK)
        code = take_image(db);
    if (code == EXSM_OK)
        code = (int)exsm_core_make(&db->core, db->image, db->image_len, sizes);
    if (code == EXSM_OK)
        code = make_calls(db, exsm_core_asked(&db->core));
    return code == EXSM_OK ? unless(db, sync_folder(path), EXSM_DISK) : code;
}

int exsm_format(const char *path, const exsm_geometry *sizes, exsm_why *why)
{
    exsm_why unasked;
    if (why == NULL)
        why = &unasked;
    *why = (exsm_why){.code = EXSM_MISUSE};
    if (path == NULL || sizes == NULL)
        return why->code;
    if (!are_sizes(sizes))
        return why->code = EXSM_BAD_VOLUME;
    exsm *db = new_handle(0);
    if (db == NULL)
        return why->code = EXSM_NOMEM;
    db->image_len = bytes_of(sizes);
    db->fd = open_apart(path, O_CREAT | O_EXCL);
    int is_made = db->fd >= 0;
    db->why.code = is_made ? make_volume(db, path, sizes) : unless(db, errno, EXSM_OS);
    if (is_made && db->why.code != EXSM_OK)
        unlink(path);
    *why = db->why;
    let_go(db);
    free_handle(db);
    return why->code;
}
