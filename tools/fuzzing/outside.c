/* Stands between a program and the system, where it is preloaded: it begins runs of the program
   without a start of their own, notes the calls of a run, and lets one of them fail, or one that
   asks for memory.

   A run is asked for on the socket that EXSM_OUTSIDE names: a plan, with descriptors for the
   standard streams of the run and for the notes. It begins where the program's `main` would, in a
   child, whose number and whose end are told. */
#define _GNU_SOURCE
#include <errno.h>
#include <fcntl.h>
#include <stdint.h>
#include <stdlib.h>
#include <string.h>
#include <sys/resource.h>
#include <sys/socket.h>
#include <sys/syscall.h>
#include <sys/types.h>
#include <sys/uio.h>
#include <sys/wait.h>
#include <unistd.h>

enum kind { READ = 1, WRITE, SYNC, TAKE, PUT, REFUSED };

/* Whether calls are noted, and which one is to fail, with which number of an error; a write leaves
   so many thousandths of its bytes all the same. Without a number of an error the call moves as
   many of its bytes, and it is no fault. And which of the calls that ask for memory is refused. */
struct plan { uint64_t noted, fails, error, thousandths, refuses; };

/* Seconds of a processor that a run has, so that one that doesn't end is seen on a busy machine. */
static const rlim_t SECONDS = 60;

struct note { uint64_t kind, failed, at, length; };

static const char SOCKET[] = "EXSM_OUTSIDE";
enum { STREAMS = 3, NOTES = 3, DESCRIPTORS = 4 };

static struct plan plan;
static int notes = -1;
static uint64_t calls, allocations;

static void note(enum kind kind, int failed, uint64_t at, const void *bytes, size_t length)
{
    if (notes < 0) return;
    struct note head = {kind, failed, at, length};
    struct iovec parts[] = {{&head, sizeof head}, {(void *) bytes, bytes ? length : 0}};
    int before = errno;
    syscall(SYS_writev, notes, parts, 2);
    errno = before;
}

/* Whether this is the call that is to fail. */
static int fails(void)
{
    return ++calls == plan.fails;
}

/* The bytes that a call moves of so many, where it moves some: one at least. */
static size_t some(size_t length)
{
    size_t part = length * plan.thousandths / 1000;
    return part || !length ? part : 1;
}

static ssize_t moved(enum kind kind, long number, int file, void *bytes, size_t length, off_t at)
{
    int is_fault = 0, is_given = kind == WRITE || kind == PUT;
    size_t most = length;
    if (fails()) {
        if (!plan.error) most = some(length);
        else is_fault = 1;
    }
    if (is_fault) {
        size_t left = kind == WRITE ? length * plan.thousandths / 1000 : 0;
        if (left) syscall(number, file, bytes, left, at);
        note(kind, 1, at, is_given ? bytes : 0, left);
        errno = plan.error;
        return -1;
    }
    ssize_t count = syscall(number, file, bytes, most, at);
    note(kind, count < 0, at, is_given ? bytes : 0, count < 0 ? 0 : count);
    return count;
}

static int synced(long number, int file)
{
    int is_fault = fails() && plan.error, result = is_fault ? -1 : (int) syscall(number, file);
    note(SYNC, result < 0, 0, 0, 0);
    if (is_fault) errno = plan.error;
    return result;
}

ssize_t pread(int f, void *b, size_t n, off_t p) { return moved(READ, SYS_pread64, f, b, n, p); }
ssize_t pread64(int f, void *b, size_t n, off_t p) { return moved(READ, SYS_pread64, f, b, n, p); }
ssize_t pwrite64(int f, const void *b, size_t n, off_t p)
{
    return moved(WRITE, SYS_pwrite64, f, (void *) b, n, p);
}
ssize_t pwrite(int f, const void *b, size_t n, off_t p) { return pwrite64(f, b, n, p); }
int fsync(int f) { return synced(SYS_fsync, f); }
int fdatasync(int f) { return synced(SYS_fdatasync, f); }

ssize_t read(int f, void *b, size_t n)
{
    return f == 0 ? moved(TAKE, SYS_read, f, b, n, 0) : syscall(SYS_read, f, b, n);
}

ssize_t write(int f, const void *b, size_t n)
{
    return f == 1 ? moved(PUT, SYS_write, f, (void *) b, n, 0) : syscall(SYS_write, f, b, n);
}

/* Calls that ask for memory, counted from where a run begins. */

void *__libc_malloc(size_t), *__libc_calloc(size_t, size_t), *__libc_realloc(void *, size_t);
void *__libc_memalign(size_t, size_t);

static int refused(void)
{
    if (!plan.refuses || ++allocations != plan.refuses) return 0;
    note(REFUSED, 1, 0, 0, 0);
    errno = ENOMEM;
    return 1;
}

void *malloc(size_t n) { return refused() ? 0 : __libc_malloc(n); }
void *calloc(size_t n, size_t each) { return refused() ? 0 : __libc_calloc(n, each); }
void *realloc(void *p, size_t n) { return refused() ? 0 : __libc_realloc(p, n); }
void *memalign(size_t at, size_t n) { return refused() ? 0 : __libc_memalign(at, n); }
void *aligned_alloc(size_t at, size_t n) { return memalign(at, n); }

int posix_memalign(void **p, size_t at, size_t n)
{
    void *found = memalign(at, n);
    if (!found) return ENOMEM;
    *p = found;
    return 0;
}

/* Takes a plan with its descriptors; without one the asker is gone. */
static int asked(int socket, int *descriptors)
{
    union { struct cmsghdr head; char room[CMSG_SPACE(DESCRIPTORS * sizeof(int))]; } control;
    struct iovec part = {&plan, sizeof plan};
    struct msghdr message = {.msg_iov = &part, .msg_iovlen = 1, .msg_control = &control,
                             .msg_controllen = sizeof control};
    if (recvmsg(socket, &message, 0) != sizeof plan) return 0;
    struct cmsghdr *head = CMSG_FIRSTHDR(&message);
    if (!head || head->cmsg_len != CMSG_LEN(DESCRIPTORS * sizeof(int))) return 0;
    memcpy(descriptors, CMSG_DATA(head), DESCRIPTORS * sizeof(int));
    return 1;
}

static void tell(int socket, int64_t first, int64_t second)
{
    int64_t answer[] = {first, second};
    if (send(socket, answer, sizeof answer, MSG_NOSIGNAL) != sizeof answer) _exit(1);
}

/* Waits for the end of a run; tells its status, or its signal below 0, and its microseconds of a
   processor. */
static void tell_end(int socket, pid_t run)
{
    struct rusage used;
    int status;
    if (run < 0 || wait4(run, &status, 0, &used) != run) _exit(1);
    int64_t seconds = used.ru_utime.tv_sec + used.ru_stime.tv_sec;
    int64_t rest = used.ru_utime.tv_usec + used.ru_stime.tv_usec;
    tell(socket, WIFEXITED(status) ? WEXITSTATUS(status) : -WTERMSIG(status),
         seconds * 1000000 + rest);
}

/* What a run begins with: its streams, and its notes out of the way of its other descriptors. */
static void begin(int socket, const int *descriptors)
{
    close(socket);
    for (int stream = 0; stream < STREAMS; stream++) dup2(descriptors[stream], stream);
    if (plan.noted) notes = fcntl(descriptors[NOTES], F_DUPFD_CLOEXEC, 512);
    for (int place = 0; place < DESCRIPTORS; place++) close(descriptors[place]);
    setrlimit(RLIMIT_CPU, &(struct rlimit) {SECONDS, SECONDS});
}

__attribute__((constructor)) static void serve(void)
{
    const char *name = getenv(SOCKET);
    if (!name) return;
    int socket = atoi(name), descriptors[DESCRIPTORS];
    unsetenv(SOCKET);
    unsetenv("LD_PRELOAD");
    tell(socket, 0, 0);
    while (asked(socket, descriptors)) {
        pid_t child = fork();
        if (child == 0) {
            begin(socket, descriptors);
            return;
        }
        for (int place = 0; place < DESCRIPTORS; place++) close(descriptors[place]);
        tell(socket, child, 0);
        tell_end(socket, child);
    }
    _exit(0);
}
