/* Notes what a program does to the files of a folder and what it sends to its peers; and has one call fail, or kills
 * the program. For tests only:
 *
 *     cc -O2 -shared -fPIC -o disk_calls.so disk_calls.c
 *     LD_PRELOAD=./disk_calls.so DISK_FOLDER=FOLDER DISK_NOTES=FILE PROGRAM
 *
 * FOLDER is a whole path without links. `disk_calls.py` reads the notes. With DISK_FAILED=NUMBER the call of this
 * number in the folder, counted from 1, does nothing and fails with the number of an error in DISK_ERROR; with
 * DISK_LASTS=1 all calls after it that write fail as well. With DISK_KILLED=NUMBER the program is killed once this
 * number of notes is written.
 *
 * A call is made and noted under one lock, so that the notes are in the order of the calls, and a program that is
 * killed after a note has made just the calls that are noted. A sync has a note at its beginning and one at its end,
 * and what is sent is noted before. So what is after the end of a sync in the notes is after it in time.
 */
#define _GNU_SOURCE
#include <dlfcn.h>
#include <errno.h>
#include <fcntl.h>
#include <limits.h>
#include <netinet/in.h>
#include <pthread.h>
#include <signal.h>
#include <stdarg.h>
#include <stdint.h>
#include <stdio.h>
#include <stdlib.h>
#include <string.h>
#include <sys/file.h>
#include <sys/socket.h>
#include <sys/stat.h>
#include <sys/syscall.h>
#include <sys/uio.h>
#include <unistd.h>

enum kind { OPENED = 1, WRITTEN, CUT, RENAMED, UNLINKED, SYNCING, SYNCED, SENT, READ, FAILED };

/* What is before the bytes of a note. */
struct note {
    uint32_t kind, thread;
    uint64_t file; /* the number of a file, or the port of a peer */
    int64_t at;    /* where it is written, how long it becomes, or what came of it */
    uint64_t size; /* how many bytes come after */
};

static pthread_mutex_t lock = PTHREAD_MUTEX_INITIALIZER;
static const char *folder;
static size_t length;
static int notes = -1;
static long calls, written, failed, error, lasts, killed;

#define REAL(name) ((__typeof__(&name))dlsym(RTLD_NEXT, #name))

static long number_of(const char *name) {
    const char *text = getenv(name);
    return text ? atol(text) : 0;
}

__attribute__((constructor)) static void begin(void) {
    const char *path = getenv("DISK_NOTES");
    folder = getenv("DISK_FOLDER");
    length = folder ? strlen(folder) : 0;
    failed = number_of("DISK_FAILED");
    error = number_of("DISK_ERROR");
    lasts = number_of("DISK_LASTS");
    killed = number_of("DISK_KILLED");
    if (folder && path) notes = REAL(open)(path, O_WRONLY | O_CREAT | O_APPEND | O_CLOEXEC, 0600);
}

static int is_within(const char *path) {
    return folder && path && !strncmp(path, folder, length) && (path[length] == '/' || !path[length]);
}

/* The path of a descriptor, where it is the folder or in it. */
static int is_of_folder(int descriptor, char path[PATH_MAX]) {
    char link[64];
    if (!folder) return 0;
    snprintf(link, sizeof link, "/proc/self/fd/%d", descriptor);
    ssize_t size = readlink(link, path, PATH_MAX - 1);
    path[size < 0 ? 0 : size] = 0;
    return is_within(path);
}

static uint64_t file_of(int descriptor) {
    struct stat found;
    return fstat(descriptor, &found) ? 0 : found.st_ino;
}

/* Writes a note, under the lock. */
static void put(enum kind kind, uint64_t file, int64_t at, const void *bytes, size_t size) {
    if (notes < 0) return;
    struct note head = {kind, (uint32_t)syscall(SYS_gettid), file, at, size};
    struct iovec parts[] = {{&head, sizeof head}, {(void *)bytes, size}};
    if (syscall(SYS_writev, notes, parts, 2) != (ssize_t)(sizeof head + size)) abort();
    if (++written == killed) kill(getpid(), SIGKILL);
}

/* Whether this call fails, under the lock: it is counted. */
static int fails(const char *name, int writes) {
    calls++;
    if (!failed || (calls != failed && !(lasts && writes && calls > failed))) return 0;
    put(FAILED, 0, calls, name, strlen(name));
    errno = (int)error;
    return 1;
}

static void enter(void) { pthread_mutex_lock(&lock); }

static ssize_t leave(ssize_t result) {
    int kept = errno;
    pthread_mutex_unlock(&lock);
    errno = kept;
    return result;
}

static int open_it(const char *path, int flags, mode_t mode) {
    if (!is_within(path)) return REAL(open)(path, flags, mode);
    enter();
    if (fails("open", (flags & (O_CREAT | O_TRUNC)) != 0)) return (int)leave(-1);
    struct stat before;
    int is_new = lstat(path, &before) != 0;
    int descriptor = REAL(open)(path, flags, mode);
    if (descriptor >= 0 && (flags & (O_CREAT | O_TRUNC)))
        put(OPENED, file_of(descriptor), is_new ? 1 : flags & O_TRUNC ? 2 : 0, path, strlen(path));
    return (int)leave(descriptor);
}

int open(const char *path, int flags, ...) {
    va_list more;
    va_start(more, flags);
    mode_t mode = flags & (O_CREAT | O_TMPFILE) ? va_arg(more, mode_t) : 0;
    va_end(more);
    return open_it(path, flags, mode);
}

int open64(const char *path, int flags, ...) __attribute__((alias("open")));

static ssize_t write_it(int descriptor, const void *bytes, size_t size, int is_placed, off_t at) {
    char path[PATH_MAX];
    if (!is_of_folder(descriptor, path))
        return is_placed ? REAL(pwrite)(descriptor, bytes, size, at) : REAL(write)(descriptor, bytes, size);
    enter();
    if (fails("write", 1)) return leave(-1);
    struct stat found;
    if (!is_placed) {
        int appends = fcntl(descriptor, F_GETFL) & O_APPEND;
        at = appends && !fstat(descriptor, &found) ? found.st_size : lseek(descriptor, 0, SEEK_CUR);
    }
    ssize_t done = is_placed ? REAL(pwrite)(descriptor, bytes, size, at) : REAL(write)(descriptor, bytes, size);
    if (done > 0) put(WRITTEN, file_of(descriptor), at, bytes, done);
    return leave(done);
}

/* Notes what is about to be sent over a socket. */
static void note_sent(int descriptor, const void *bytes, size_t size) {
    struct sockaddr_in peer;
    socklen_t room = sizeof peer;
    if (notes < 0 || getpeername(descriptor, (struct sockaddr *)&peer, &room) || peer.sin_family != AF_INET) return;
    enter();
    put(SENT, ntohs(peer.sin_port), descriptor, bytes, size);
    leave(0);
}

ssize_t write(int descriptor, const void *bytes, size_t size) {
    note_sent(descriptor, bytes, size);
    return write_it(descriptor, bytes, size, 0, 0);
}

ssize_t __write(int descriptor, const void *bytes, size_t size) __attribute__((alias("write")));

ssize_t send(int descriptor, const void *bytes, size_t size, int flags) {
    note_sent(descriptor, bytes, size);
    return REAL(send)(descriptor, bytes, size, flags);
}

ssize_t pwrite(int descriptor, const void *bytes, size_t size, off_t at) {
    return write_it(descriptor, bytes, size, 1, at);
}

ssize_t pwrite64(int descriptor, const void *bytes, size_t size, off_t at) __attribute__((alias("pwrite")));

ssize_t read(int descriptor, void *bytes, size_t size) {
    char path[PATH_MAX];
    if (!is_of_folder(descriptor, path)) return REAL(read)(descriptor, bytes, size);
    enter();
    return leave(fails("read", 0) ? -1 : REAL(read)(descriptor, bytes, size));
}

int ftruncate(int descriptor, off_t size) {
    char path[PATH_MAX];
    if (!is_of_folder(descriptor, path)) return REAL(ftruncate)(descriptor, size);
    enter();
    if (fails("ftruncate", 1)) return (int)leave(-1);
    int result = REAL(ftruncate)(descriptor, size);
    if (!result) put(CUT, file_of(descriptor), size, NULL, 0);
    return (int)leave(result);
}

int ftruncate64(int descriptor, off_t size) __attribute__((alias("ftruncate")));

int rename(const char *from, const char *to) {
    char both[2 * PATH_MAX];
    if (!is_within(from) && !is_within(to)) return REAL(rename)(from, to);
    enter();
    if (fails("rename", 1)) return (int)leave(-1);
    int result = REAL(rename)(from, to);
    if (!result) put(RENAMED, 0, 0, both, snprintf(both, sizeof both, "%s\n%s", from, to));
    return (int)leave(result);
}

int unlink(const char *path) {
    if (!is_within(path)) return REAL(unlink)(path);
    enter();
    if (fails("unlink", 1)) return (int)leave(-1);
    int result = REAL(unlink)(path);
    if (!result) put(UNLINKED, 0, 0, path, strlen(path));
    return (int)leave(result);
}

int statx(int descriptor, const char *path, int flags, unsigned mask, struct statx *found) {
    char own[PATH_MAX];
    if (!(*path ? is_within(path) : is_of_folder(descriptor, own)))
        return REAL(statx)(descriptor, path, flags, mask, found);
    enter();
    return (int)leave(fails("statx", 0) ? -1 : REAL(statx)(descriptor, path, flags, mask, found));
}

int mkdir(const char *path, mode_t mode) {
    if (!is_within(path)) return REAL(mkdir)(path, mode);
    enter();
    return (int)leave(fails("mkdir", 1) ? -1 : REAL(mkdir)(path, mode));
}

int flock(int descriptor, int operation) {
    char path[PATH_MAX];
    if (!is_of_folder(descriptor, path)) return REAL(flock)(descriptor, operation);
    enter();
    return (int)leave(fails("flock", 0) ? -1 : REAL(flock)(descriptor, operation));
}

/* It returns the error. */
int posix_fadvise(int descriptor, off_t at, off_t size, int advice) {
    char path[PATH_MAX];
    if (!is_of_folder(descriptor, path)) return REAL(posix_fadvise)(descriptor, at, size, advice);
    enter();
    return (int)leave(fails("posix_fadvise", 0) ? error : REAL(posix_fadvise)(descriptor, at, size, advice));
}

int posix_fadvise64(int descriptor, off_t at, off_t size, int advice) __attribute__((alias("posix_fadvise")));

static int sync_it(int descriptor, const char *name, int (*real)(int)) {
    char path[PATH_MAX];
    if (!is_of_folder(descriptor, path)) return real(descriptor);
    enter();
    if (fails(name, 1)) return (int)leave(-1);
    put(SYNCING, file_of(descriptor), 0, path, strlen(path));
    leave(0);
    int result = real(descriptor);
    enter();
    put(SYNCED, file_of(descriptor), result, path, strlen(path));
    return (int)leave(result);
}

int fsync(int descriptor) { return sync_it(descriptor, "fsync", REAL(fsync)); }

int fdatasync(int descriptor) { return sync_it(descriptor, "fdatasync", REAL(fdatasync)); }
