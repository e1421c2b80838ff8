/* Loaded before a switch, it makes a kill a loss of power: what was written to the files of the journal and wasn't synced can be taken
   back. The file that UNSYNCED names is SIZE bytes long. It has two numbers of eight bytes in front, how many bytes of rows there are
   and how many syncs there were; and then a row for each change that wasn't synced: the number of the file, which is GONE once that was
   synced, the place of the change, how long the file was, how many bytes it takes the place of, and these.

   BROKEN_POWER says what is wrong on purpose: with `sync` no sync is done behind an open gate; with `gate` a gate is opened only
   with the next change of the journal, so what is behind it is said before. */
#define _GNU_SOURCE
#include <dlfcn.h>
#include <fcntl.h>
#include <pthread.h>
#include <stdint.h>
#include <stdio.h>
#include <stdlib.h>
#include <string.h>
#include <sys/mman.h>
#include <sys/stat.h>
#include <unistd.h>

#define SIZE ((uint64_t)1 << 30)
#define GONE (~(uint64_t)0)
#define OPEN_GATE 0x4F
/* Of so many descriptors it is kept which file of the journal they stand for. */
#define KNOWN 4096
#define UNKNOWN 0
#define NO_JOURNAL 1
#define FIRST 2

struct row {
    uint64_t file, place, size, count;
};

struct log {
    uint64_t used, syncs;
    unsigned char rows[];
};

static pthread_mutex_t turn = PTHREAD_MUTEX_INITIALIZER;
static struct log *unsynced;
static int leaves_out, holds_gates;
/* A gate that isn't opened yet: its descriptor, -1 where there is none, and its place. */
static int held = -1;
static off64_t held_at;
/* Whether the last change of the journal opened a gate. */
static int is_gate_last;
/* What each descriptor stands for, as far as that is known: nothing of the journal, or a file, whose number is FIRST less. */
static _Atomic signed char stands_for[KNOWN];
static ssize_t (*real_pwrite)(int, const void *, size_t, off64_t);
static int (*real_truncate)(int, off64_t), (*real_fsync)(int), (*real_fdatasync)(int), (*real_close)(int);

static void *real(const char *name) {
    return dlsym(RTLD_NEXT, name);
}

__attribute__((constructor)) static void begin(void) {
    const char *path = getenv("UNSYNCED"), *broken = getenv("BROKEN_POWER");
    int file = path == NULL ? -1 : open(path, O_RDWR | O_CLOEXEC);
    void *place = file < 0 ? MAP_FAILED : mmap(NULL, SIZE, PROT_READ | PROT_WRITE, MAP_SHARED, file, 0);
    real_pwrite = (ssize_t (*)(int, const void *, size_t, off64_t))real("pwrite64");
    real_truncate = (int (*)(int, off64_t))real("ftruncate64");
    real_fsync = (int (*)(int))real("fsync");
    real_fdatasync = (int (*)(int))real("fdatasync");
    real_close = (int (*)(int))real("close");
    unsynced = place == MAP_FAILED ? NULL : place;
    leaves_out = broken != NULL && strcmp(broken, "sync") == 0;
    holds_gates = broken != NULL && strcmp(broken, "gate") == 0;
    if (file >= 0) {
        close(file);
    }
}

/* The number of the journal's file that a descriptor stands for by its name; -1 where it is another file. */
static int looked_up(int file) {
    char link[64], path[4096];
    snprintf(link, sizeof link, "/proc/self/fd/%d", file);
    ssize_t length = unsynced == NULL ? -1 : readlink(link, path, sizeof path);
    return length > 10 && memcmp(path + length - 10, "/journal.", 9) == 0 ? path[length - 1] - '0' : -1;
}

/* The same, looked up once for each descriptor. */
static int number_of(int file) {
    if (file < 0 || file >= KNOWN) {
        return looked_up(file);
    }
    if (stands_for[file] == UNKNOWN) {
        int number = looked_up(file);
        stands_for[file] = number < 0 ? NO_JOURNAL : FIRST + number;
    }
    return stands_for[file] - FIRST < 0 ? -1 : stands_for[file] - FIRST;
}

int close(int file) {
    if (file >= 0 && file < KNOWN) {
        stands_for[file] = UNKNOWN;
    }
    return real_close == NULL ? ((int (*)(int))real("close"))(file) : real_close(file);
}

/* Keeps the bytes of a file from a place on, so many at most. */
static void keep(int file, int number, off64_t place, uint64_t count) {
    struct stat64 is;
    if (fstat64(file, &is) != 0) {
        _exit(99);
    }
    uint64_t left = place < is.st_size ? (uint64_t)(is.st_size - place) : 0;
    struct row row = {(uint64_t)number, (uint64_t)place, (uint64_t)is.st_size, count < left ? count : left};
    if (sizeof *unsynced + unsynced->used + sizeof row + row.count > SIZE) {
        _exit(99);
    }
    unsigned char *at = unsynced->rows + unsynced->used;
    memcpy(at, &row, sizeof row);
    if (row.count > 0 && pread64(file, at + sizeof row, row.count, place) != (ssize_t)row.count) {
        _exit(99);
    }
    unsynced->used += sizeof row + row.count;
}

/* The changes of a file are on the disk; where no other file has any, there are none left. */
static void has_synced(int number) {
    int others = 0;
    struct row row;
    for (uint64_t at = 0; at < unsynced->used; at += sizeof row + row.count) {
        memcpy(&row, unsynced->rows + at, sizeof row);
        others |= row.file != GONE && row.file != (uint64_t)number;
        if (row.file == (uint64_t)number) {
            row.file = GONE;
            memcpy(unsynced->rows + at, &row, sizeof row);
        }
    }
    if (!others) {
        unsynced->used = 0;
    }
}

static ssize_t put(int file, int number, const void *bytes, size_t count, off64_t at) {
    keep(file, number, at, count);
    return real_pwrite(file, bytes, count, at);
}

static void opens_held(void) {
    const unsigned char gate = OPEN_GATE;
    if (held >= 0) {
        put(held, number_of(held), &gate, 1, held_at);
        held = -1;
    }
}

static ssize_t change(int file, int number, const void *bytes, size_t count, off64_t at) {
    opens_held();
    is_gate_last = count == 1 && *(const unsigned char *)bytes == OPEN_GATE;
    if (is_gate_last && holds_gates) {
        held = file;
        held_at = at;
        return 1;
    }
    return put(file, number, bytes, count, at);
}

ssize_t pwrite64(int file, const void *bytes, size_t count, off64_t at) {
    int number = number_of(file);
    if (number < 0) {
        return real_pwrite(file, bytes, count, at);
    }
    pthread_mutex_lock(&turn);
    ssize_t written = change(file, number, bytes, count, at);
    pthread_mutex_unlock(&turn);
    return written;
}

ssize_t pwrite(int file, const void *bytes, size_t count, off_t at) {
    return pwrite64(file, bytes, count, at);
}

int ftruncate64(int file, off64_t size) {
    int number = number_of(file);
    pthread_mutex_lock(&turn);
    if (number >= 0) {
        opens_held();
        is_gate_last = 0;
        keep(file, number, size, SIZE);
    }
    int answer = real_truncate(file, size);
    pthread_mutex_unlock(&turn);
    return answer;
}

int ftruncate(int file, off_t size) {
    return ftruncate64(file, size);
}

static int sync_by(int file, int (*by)(int)) {
    int number = number_of(file);
    pthread_mutex_lock(&turn);
    int is_left_out = number >= 0 && leaves_out && is_gate_last;
    int answer = is_left_out ? 0 : by(file);
    if (unsynced != NULL && !is_left_out) {
        unsynced->syncs += 1;
    }
    if (number >= 0 && answer == 0 && !is_left_out) {
        has_synced(number);
    }
    pthread_mutex_unlock(&turn);
    return answer;
}

int fsync(int file) {
    return sync_by(file, real_fsync);
}

int fdatasync(int file) {
    return sync_by(file, real_fdatasync);
}
