/* Stands between the program and the C library (LD_PRELOAD): refuses one of its calls, and records what it does with files.

   SHIM="WHAT N HOW": the N-th call of this kind, from 1 on, goes wrong. WHAT is `growth` (malloc, calloc, realloc), `thread`,
   `disk` (each call on a file that the program opened, and each opening), `read` (of standard input) or `write` (to standard
   output). HOW is
     once       it is refused, and later ones are made
     on         it and all later ones are refused
     done       it is made, and refused all the same
     half       of a write half is made and answered, and all later calls are refused
     interrupt  it is interrupted, and later ones are made
     nothing    it takes or gives nothing, and later ones are made
     short      it and all later reads and writes take or give one byte
     kill       it isn't made, and the program is killed

   SHIM_DEVICE="WHEN PATH": the file of this path looks as a block device does. WHEN is `looked`, where it is looked at by its
   path, `opened`, where it is looked at once it is open, as if it had taken the place of another file just then, or `always`.

   SHIM_GATE="FIRST N": each of N threads, from the FIRST one on (from 0), waits at its end until all of them have begun, for ten
   seconds at most. (At its beginning it can't: a thread may begin others.)

   SHIM_SYNC=N: each sync takes N microseconds more.

   SHIM_LOG=PATH: a line is appended to this file for each call that changes a file, syncs it, reads it at a place, writes
   answers or goes wrong, as "KIND AT LENGTH\n" and, of a write, its bytes. KIND is W (written), R (read at a place), T (cut
   or made longer), S (synced), O (written to standard output), E (gone wrong, with the call's number in place of AT), C (at the end:
   how many calls of WHAT there were), where SHIM is set B (a thread begun) and J (one joined), and where there is a gate G (a
   thread that ended when all had begun) and L (one that waited in vain). */
#define _GNU_SOURCE
#include <dlfcn.h>
#include <errno.h>
#include <fcntl.h>
#include <pthread.h>
#include <signal.h>
#include <stdarg.h>
#include <stdio.h>
#include <stdlib.h>
#include <string.h>
#include <sys/file.h>
#include <sys/stat.h>
#include <sys/uio.h>
#include <unistd.h>

extern void *__libc_malloc(size_t), *__libc_calloc(size_t, size_t), *__libc_realloc(void *, size_t);

enum outcome { MADE, REFUSED, DONE, HALF, INTERRUPTED, NOTHING, SHORT };

static char what[16], how[16];
static long wanted, seen;
static int log_fd = -1, is_set, is_file[1024], is_device[1024];
static int gate, first, begun, there;
static useconds_t slower;
static struct { void *(*body)(void *); void *argument; } waiting[64];
static char device_when[16], device[4096];

#define NEXT(name) ((__typeof__(&name))dlsym(RTLD_NEXT, #name))

__attribute__((constructor)) static void begin(void) {
    const char *shim = getenv("SHIM"), *path = getenv("SHIM_LOG"), *special = getenv("SHIM_DEVICE");
    const char *threads = getenv("SHIM_GATE"), *sync = getenv("SHIM_SYNC");
    if (sync) slower = atol(sync);
    if (threads && sscanf(threads, "%d %d", &first, &gate) == 2 && gate > 64) gate = 64;
    if (special) sscanf(special, "%15s %4095[^\n]", device_when, device);
    if (path) {
        int fd = NEXT(open)(path, O_WRONLY | O_CREAT | O_APPEND | O_CLOEXEC, 0600);
        log_fd = fcntl(fd, F_DUPFD_CLOEXEC, 500);
        NEXT(close)(fd);
    }
    is_set = shim && sscanf(shim, "%15s %ld %15s", what, &wanted, how) == 3;
}

static void note(char kind, long at, long length, const void *bytes) {
    char line[64];
    int saved = errno, size = snprintf(line, sizeof line, "%c %ld %ld\n", kind, at, length);
    struct iovec parts[2] = {{line, size}, {(void *)bytes, bytes ? length : 0}};
    if (log_fd >= 0) (void)!writev(log_fd, parts, 2);
    errno = saved;
}

/* What is to come of a call of this kind. */
static enum outcome outcome_of(const char *kind, int error) {
    if (!is_set || strcmp(kind, what)) return MADE;
    long number = __atomic_add_fetch(&seen, 1, __ATOMIC_SEQ_CST);
    int goes_on = !strcmp(how, "on") || !strcmp(how, "half") || !strcmp(how, "short");
    if (number < wanted || (number > wanted && !goes_on)) return MADE;
    if (number == wanted) note('E', number, 0, NULL);
    if (!strcmp(how, "kill")) raise(SIGKILL);
    if (!strcmp(how, "short")) return SHORT;
    if (!strcmp(how, "half") && number == wanted) return HALF;
    if (!strcmp(how, "done")) { errno = error; return DONE; }
    if (!strcmp(how, "interrupt")) { errno = EINTR; return INTERRUPTED; }
    if (!strcmp(how, "nothing")) return NOTHING;
    errno = error;
    return REFUSED;
}

void _exit(int status) {
    if (is_set) note('C', seen, 0, NULL);
    NEXT(_exit)(status);
    __builtin_unreachable();
}

static int is_open_file(int fd) { return fd >= 0 && fd < 1024 && is_file[fd]; }

void *malloc(size_t size) { return outcome_of("growth", ENOMEM) == MADE ? __libc_malloc(size) : NULL; }

void *calloc(size_t count, size_t size) { return outcome_of("growth", ENOMEM) == MADE ? __libc_calloc(count, size) : NULL; }

void *realloc(void *old, size_t size) { return outcome_of("growth", ENOMEM) == MADE ? __libc_realloc(old, size) : NULL; }

static void *before_gate(void *place) {
    long number = (long)place;
    __atomic_add_fetch(&there, 1, __ATOMIC_SEQ_CST);
    void *result = waiting[number].body(waiting[number].argument);
    for (int waited = 0; waited < 10000 && __atomic_load_n(&there, __ATOMIC_SEQ_CST) < gate; waited++) usleep(1000);
    note(__atomic_load_n(&there, __ATOMIC_SEQ_CST) < gate ? 'L' : 'G', number, 0, NULL);
    return result;
}

int pthread_create(pthread_t *thread, const pthread_attr_t *attributes, void *(*body)(void *), void *argument) {
    if (outcome_of("thread", EAGAIN) != MADE) return EAGAIN;
    long number = __atomic_fetch_add(&begun, 1, __ATOMIC_SEQ_CST) - first;
    if (number >= 0 && number < gate) {
        waiting[number].body = body;
        waiting[number].argument = argument;
        body = before_gate;
        argument = (void *)number;
    }
    int answer = NEXT(pthread_create)(thread, attributes, body, argument);
    if (is_set && !answer) note('B', 0, 0, NULL);
    return answer;
}

int pthread_join(pthread_t thread, void **result) {
    int answer = NEXT(pthread_join)(thread, result);
    if (is_set && !answer) note('J', 0, 0, NULL);
    return answer;
}

int open(const char *path, int flags, ...) {
    va_list more;
    va_start(more, flags);
    mode_t mode = flags & O_CREAT ? va_arg(more, mode_t) : 0;
    va_end(more);
    enum outcome outcome = outcome_of("disk", EIO);
    int error = errno;
    if (outcome != MADE && outcome != DONE && outcome != SHORT) return errno = error, -1;
    int fd = NEXT(open)(path, flags, mode);
    if (fd >= 0 && outcome == DONE) NEXT(close)(fd);
    else if (fd >= 0 && fd < 1024) is_file[fd] = 1, is_device[fd] = *device && !strcmp(path, device);
    return outcome == DONE ? (errno = error, -1) : fd;
}

int close(int fd) {
    if (is_open_file(fd)) is_file[fd] = is_device[fd] = 0;
    return NEXT(close)(fd);
}

/* A call on a file that answers 0 or -1, and what is noted of it where it was made. */
#define ON_FILE(call, kind, at)                                                                   \
    enum outcome outcome = is_open_file(fd) ? outcome_of("disk", EIO) : MADE;                     \
    int error = errno;                                                                            \
    if (outcome != MADE && outcome != DONE && outcome != SHORT) return errno = error, -1;         \
    int answer = call;                                                                            \
    if (answer >= 0 && is_open_file(fd) && kind) note(kind, at, 0, NULL);                         \
    return outcome == DONE ? (errno = error, -1) : answer

/* A sync that takes longer. */
static int synced(int answer) {
    if (slower) usleep(slower);
    return answer;
}

int fsync(int fd) { ON_FILE(synced(NEXT(fsync)(fd)), 'S', 0); }

int fdatasync(int fd) { ON_FILE(synced(NEXT(fdatasync)(fd)), 'S', 0); }

int ftruncate(int fd, off_t length) { ON_FILE(NEXT(ftruncate)(fd, length), 'T', length); }

int flock(int fd, int operation) { ON_FILE(NEXT(flock)(fd, operation), 0, 0); }

/* What the system says of a file, or what is to be said of a device, which has no length. */
static int look(int fd, const char *path, int flags, unsigned mask, struct statx *into) {
    int answer = NEXT(statx)(fd, path, flags, mask, into), by_path = *path, when = strcmp(device_when, by_path ? "opened" : "looked");
    int is_it = by_path ? *device && !strcmp(path, device) : is_open_file(fd) && is_device[fd];
    if (!answer && is_it && when) into->stx_mode = S_IFBLK | 0660, into->stx_size = 0;
    return answer;
}

int statx(int fd, const char *path, int flags, unsigned mask, struct statx *into) {
    ON_FILE(look(fd, path, flags, mask, into), 0, 0);
}

off_t lseek(int fd, off_t at, int whence) {
    enum outcome outcome = is_open_file(fd) ? outcome_of("disk", EIO) : MADE;
    if (outcome != MADE && outcome != SHORT) return -1;
    return NEXT(lseek)(fd, at, whence);
}

ssize_t read(int fd, void *into, size_t count) {
    enum outcome outcome = fd == 0 ? outcome_of("read", EIO) : is_open_file(fd) ? outcome_of("disk", EIO) : MADE;
    if (outcome == NOTHING) return 0;
    if (outcome == SHORT && count) count = 1;
    else if (outcome != MADE) return -1;
    return NEXT(read)(fd, into, count);
}

ssize_t pread(int fd, void *into, size_t count, off_t at) {
    enum outcome outcome = is_open_file(fd) ? outcome_of("disk", EIO) : MADE;
    if (outcome == NOTHING) return 0;
    if (outcome == SHORT && count) count = 1;
    else if (outcome != MADE) return -1;
    ssize_t answer = NEXT(pread)(fd, into, count, at);
    if (answer >= 0 && is_open_file(fd)) note('R', at, answer, NULL);
    return answer;
}

ssize_t write(int fd, const void *bytes, size_t count) {
    enum outcome outcome = fd == 1 ? outcome_of("write", EIO) : is_open_file(fd) ? outcome_of("disk", ENOSPC) : MADE;
    int error = errno;
    if (outcome == NOTHING) return 0;
    if (outcome == REFUSED || outcome == INTERRUPTED) return -1;
    if (outcome == SHORT && count) count = 1;
    if (outcome == HALF) count = (count + 1) / 2;
    long at = is_open_file(fd) ? NEXT(lseek)(fd, 0, SEEK_CUR) : 0;
    ssize_t answer = NEXT(write)(fd, bytes, count);
    if (answer >= 0 && is_open_file(fd)) note('W', at, answer, bytes);
    else if (answer >= 0 && fd == 1) note('O', 0, answer, bytes);
    return outcome == DONE ? (errno = error, -1) : answer;
}
