/* Loaded before a program, it writes a line for each call of it on a file to the file that WATCHED_CALLS names: the call, the name of
   the file, and whether it was done. Where WATCHED_BYTES names a file, each change that was done and each sync is kept there: a line
   `CALL NAME PLACE COUNT`, and behind it the bytes that were written, so many. PLACE is that of a write, -1 where it is the end of the
   file, or the size that a cut left. Where FAILING_CALL is `CALL NAME K ERROR`, the Kth such call, from 1 on, fails with that number of
   an error and does nothing; with `*` for the name, of any file. Standard output is called `-`. */
#define _GNU_SOURCE
#include <dlfcn.h>
#include <errno.h>
#include <fcntl.h>
#include <stdarg.h>
#include <stdio.h>
#include <stdlib.h>
#include <string.h>
#include <sys/file.h>
#include <sys/types.h>
#include <unistd.h>

static int watched = -1, kept_bytes = -1;
static char failing_call[16], failing_name[64];
static int failing_in, failing_error;

__attribute__((constructor)) static void begin(void) {
    const char *path = getenv("WATCHED_CALLS");
    const char *bytes_path = getenv("WATCHED_BYTES");
    const char *failing = getenv("FAILING_CALL");
    int (*real)(const char *, int, ...) = dlsym(RTLD_NEXT, "open");
    if (path != NULL && real != NULL) {
        watched = fcntl(real(path, O_WRONLY | O_CREAT | O_APPEND, 0600), F_DUPFD_CLOEXEC, 200);
    }
    if (bytes_path != NULL && real != NULL) {
        kept_bytes = fcntl(real(bytes_path, O_WRONLY | O_CREAT | O_APPEND, 0600), F_DUPFD_CLOEXEC, 200);
    }
    if (failing == NULL || sscanf(failing, "%15s %63s %d %d", failing_call, failing_name, &failing_in, &failing_error) != 4) {
        failing_in = 0;
    }
}

static const char *last_name(const char *path) {
    const char *slash = strrchr(path, '/');
    return slash != NULL && slash[1] != 0 ? slash + 1 : path;
}

/* The name of the file that a descriptor stands for. */
static const char *name_of(int file, char *into, size_t room) {
    char link[64];
    if (file == STDOUT_FILENO) {
        return "-";
    }
    snprintf(link, sizeof link, "/proc/self/fd/%d", file);
    ssize_t length = readlink(link, into, room - 1);
    if (length <= 0) {
        return "?";
    }
    into[length] = 0;
    return last_name(into);
}

static int fails(const char *call, const char *name) {
    if (failing_in > 0 && strcmp(call, failing_call) == 0 && (strcmp(failing_name, "*") == 0 || strcmp(name, failing_name) == 0)) {
        failing_in -= 1;
        if (failing_in == 0) {
            return 1;
        }
    }
    return 0;
}

static void tell(const char *call, const char *name, long answer) {
    char line[256];
    int kept = errno;
    int length = snprintf(line, sizeof line, "%s %s %s\n", call, name, answer < 0 ? "failed" : "done");
    if (watched >= 0 && length > 0) {
        ssize_t (*real)(int, const void *, size_t) = dlsym(RTLD_NEXT, "write");
        if (real(watched, line, (size_t)length) < 0) {
            _exit(99);
        }
    }
    errno = kept;
}

/* Keeps a change of a file, or a sync of it, with the bytes that were written. */
static void keep(const char *call, const char *name, long place, const void *bytes, long count) {
    char line[256];
    int kept = errno;
    if (kept_bytes < 0 || count < 0) {
        return;
    }
    ssize_t (*real)(int, const void *, size_t) = dlsym(RTLD_NEXT, "write");
    int length = snprintf(line, sizeof line, "%s %s %ld %ld\n", call, name, place, count);
    if (real(kept_bytes, line, (size_t)length) < 0 || (count > 0 && real(kept_bytes, bytes, (size_t)count) != count)) {
        _exit(99);
    }
    errno = kept;
}

#define WATCHED(call, name, answer_type, real_call) \
    do { \
        const char *watched_name = (name); \
        answer_type answer = -1; \
        if (fails(call, watched_name)) { \
            errno = failing_error; \
        } else { \
            answer = (real_call); \
        } \
        tell(call, watched_name, (long)answer); \
        return answer; \
    } while (0)

#define REAL(name, type) ((type)dlsym(RTLD_NEXT, name))

static ssize_t write_behind(const char *name, int file, const void *bytes, size_t count) {
    WATCHED("write", name, ssize_t, REAL("write", ssize_t (*)(int, const void *, size_t))(file, bytes, count));
}

ssize_t write(int file, const void *bytes, size_t count) {
    char path[4096];
    if (file == STDERR_FILENO) {
        return REAL("write", ssize_t (*)(int, const void *, size_t))(file, bytes, count);
    }
    const char *name = name_of(file, path, sizeof path);
    ssize_t written = write_behind(name, file, bytes, count);
    keep("write", name, -1, bytes, written);
    return written;
}

static ssize_t write_at(const char *name, int file, const void *bytes, size_t count, off64_t at) {
    WATCHED("write", name, ssize_t, REAL("pwrite64", ssize_t (*)(int, const void *, size_t, off64_t))(file, bytes, count, at));
}

ssize_t pwrite64(int file, const void *bytes, size_t count, off64_t at) {
    char path[4096];
    const char *name = name_of(file, path, sizeof path);
    ssize_t written = write_at(name, file, bytes, count, at);
    keep("write", name, at, bytes, written);
    return written;
}

ssize_t pwrite(int file, const void *bytes, size_t count, off_t at) {
    return pwrite64(file, bytes, count, at);
}

ssize_t pread64(int file, void *bytes, size_t count, off64_t at) {
    char path[4096];
    WATCHED("read", name_of(file, path, sizeof path), ssize_t,
        REAL("pread64", ssize_t (*)(int, void *, size_t, off64_t))(file, bytes, count, at));
}

ssize_t pread(int file, void *bytes, size_t count, off_t at) {
    return pread64(file, bytes, count, at);
}

static int cut(const char *name, int file, off64_t size) {
    WATCHED("cut", name, int, REAL("ftruncate64", int (*)(int, off64_t))(file, size));
}

int ftruncate64(int file, off64_t size) {
    char path[4096];
    const char *name = name_of(file, path, sizeof path);
    int answer = cut(name, file, size);
    keep("cut", name, size, NULL, answer);
    return answer;
}

int ftruncate(int file, off_t size) {
    return ftruncate64(file, size);
}

static int synced(const char *name, int file, const char *by) {
    WATCHED("sync", name, int, REAL(by, int (*)(int))(file));
}

static int sync_by(int file, const char *by) {
    char path[4096];
    const char *name = name_of(file, path, sizeof path);
    int answer = synced(name, file, by);
    keep("sync", name, 0, NULL, answer);
    return answer;
}

int fsync(int file) {
    return sync_by(file, "fsync");
}

int fdatasync(int file) {
    return sync_by(file, "fdatasync");
}

int flock(int file, int how) {
    char path[4096];
    WATCHED("lock", name_of(file, path, sizeof path), int, REAL("flock", int (*)(int, int))(file, how));
}

static mode_t mode_of(int flags, va_list more) {
    return (flags & (O_CREAT | O_TMPFILE)) != 0 ? va_arg(more, mode_t) : 0;
}

int open64(const char *path, int flags, ...) {
    va_list more;
    va_start(more, flags);
    mode_t mode = mode_of(flags, more);
    va_end(more);
    WATCHED((flags & O_CREAT) != 0 ? "make" : "open", last_name(path), int,
        REAL("open64", int (*)(const char *, int, ...))(path, flags, mode));
}

int open(const char *path, int flags, ...) {
    va_list more;
    va_start(more, flags);
    mode_t mode = mode_of(flags, more);
    va_end(more);
    WATCHED((flags & O_CREAT) != 0 ? "make" : "open", last_name(path), int,
        REAL("open", int (*)(const char *, int, ...))(path, flags, mode));
}

int openat(int folder, const char *path, int flags, ...) {
    va_list more;
    va_start(more, flags);
    mode_t mode = mode_of(flags, more);
    va_end(more);
    WATCHED((flags & O_CREAT) != 0 ? "make" : "open", last_name(path), int,
        REAL("openat", int (*)(int, const char *, int, ...))(folder, path, flags, mode));
}

int openat64(int folder, const char *path, int flags, ...) {
    va_list more;
    va_start(more, flags);
    mode_t mode = mode_of(flags, more);
    va_end(more);
    WATCHED((flags & O_CREAT) != 0 ? "make" : "open", last_name(path), int,
        REAL("openat64", int (*)(int, const char *, int, ...))(folder, path, flags, mode));
}
