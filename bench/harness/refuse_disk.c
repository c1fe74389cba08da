/* Laid under a program (LD_PRELOAD), this library lets calls on files fail, as a disk would.

   FAILED=5    the fifth call fails, and no other; without it, none
   UNTIL=9     with FAILED: and those behind it up to the ninth
   REASON=28   with this number of an error (ENOSPC); without it, 5 (EIO)
   SHORT=1     a write fails by taking half of its bytes
   KILLED=5    the program is killed in place of the fifth call
   ONLY=fsync  only calls of this name are counted
   NOTED=FILE  each call that is counted is told there, as a line: its name, and when it came, in seconds; so is each
               write to a socket, as "sent", which isn't counted

   Counted are writes to regular files, syncs of them, renames, and changes of a file's length. When the program ends, a
   last line on standard error says how many there were. */
#define _GNU_SOURCE
#include <dlfcn.h>
#include <errno.h>
#include <fcntl.h>
#include <signal.h>
#include <stdatomic.h>
#include <stdio.h>
#include <stdlib.h>
#include <string.h>
#include <sys/socket.h>
#include <sys/stat.h>
#include <sys/types.h>
#include <time.h>
#include <unistd.h>

static unsigned long wanted, until, killed;
static int reason, is_short, noted = -1;
static const char *only;
static atomic_ulong calls;

static unsigned long number(const char *name, unsigned long otherwise) {
    const char *text = getenv(name);
    return text ? strtoul(text, 0, 10) : otherwise;
}

__attribute__((constructor)) static void begin(void) {
    wanted = number("FAILED", 0);
    until = number("UNTIL", wanted);
    killed = number("KILLED", 0);
    reason = (int)number("REASON", EIO);
    is_short = (int)number("SHORT", 0);
    only = getenv("ONLY");
    if (getenv("NOTED"))
        noted = open(getenv("NOTED"), O_WRONLY | O_CREAT | O_APPEND, 0600);
}

__attribute__((destructor)) static void tell(void) {
    fprintf(stderr, "%lu calls on files\n", atomic_load(&calls));
}

static int is_file(int descriptor) {
    struct stat found;
    return fstat(descriptor, &found) == 0 && S_ISREG(found.st_mode);
}

static void *next(const char *name) {
    return dlsym(RTLD_NEXT, name);
}

static void note(const char *name) {
    ssize_t (*real)(int, const void *, size_t) = next("write");
    struct timespec now;
    char line[64];
    clock_gettime(CLOCK_MONOTONIC, &now);
    int length = snprintf(line, sizeof line, "%s %ld.%06ld\n", name, (long)now.tv_sec, now.tv_nsec / 1000);
    if (real(noted, line, (size_t)length) < 0)
        abort();
}

/* Whether this call is one that fails. */
static int fails(const char *name) {
    if (only && strcmp(only, name) != 0)
        return 0;
    if (noted >= 0)
        note(name);
    unsigned long count = atomic_fetch_add(&calls, 1) + 1;
    if (count == killed)
        raise(SIGKILL);
    return wanted != 0 && wanted <= count && count <= until;
}

static void note_socket(int descriptor) {
    struct stat found;
    if (noted >= 0 && fstat(descriptor, &found) == 0 && S_ISSOCK(found.st_mode))
        note("sent");
}

ssize_t send(int descriptor, const void *bytes, size_t count, int flags) {
    ssize_t (*real)(int, const void *, size_t, int) = next("send");
    note_socket(descriptor);
    return real(descriptor, bytes, count, flags);
}

ssize_t write(int descriptor, const void *bytes, size_t count) {
    ssize_t (*real)(int, const void *, size_t) = next("write");
    note_socket(descriptor);
    if (is_file(descriptor) && fails("write")) {
        if (is_short && count > 1)
            return real(descriptor, bytes, count / 2);
        errno = reason;
        return -1;
    }
    return real(descriptor, bytes, count);
}

ssize_t pwrite(int descriptor, const void *bytes, size_t count, off_t place) {
    ssize_t (*real)(int, const void *, size_t, off_t) = next("pwrite");
    if (is_file(descriptor) && fails("pwrite")) {
        if (is_short && count > 1)
            return real(descriptor, bytes, count / 2, place);
        errno = reason;
        return -1;
    }
    return real(descriptor, bytes, count, place);
}

ssize_t pwrite64(int descriptor, const void *bytes, size_t count, off_t place) {
    return pwrite(descriptor, bytes, count, place);
}

int fsync(int descriptor) {
    int (*real)(int) = next("fsync");
    if (is_file(descriptor) && fails("fsync")) {
        errno = reason;
        return -1;
    }
    return real(descriptor);
}

int fdatasync(int descriptor) {
    int (*real)(int) = next("fdatasync");
    if (is_file(descriptor) && fails("fdatasync")) {
        errno = reason;
        return -1;
    }
    return real(descriptor);
}

int ftruncate(int descriptor, off_t length) {
    int (*real)(int, off_t) = next("ftruncate");
    if (is_file(descriptor) && fails("ftruncate")) {
        errno = reason;
        return -1;
    }
    return real(descriptor, length);
}

int rename(const char *old, const char *new) {
    int (*real)(const char *, const char *) = next("rename");
    if (fails("rename")) {
        errno = reason;
        return -1;
    }
    return real(old, new);
}
