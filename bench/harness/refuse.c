/* Laid under a program (LD_PRELOAD), this library refuses requests for memory and threads, as a system that has none
   would.

   REFUSED=5   the fifth request is refused, and no other; without it, none
   UNTIL=9     with REFUSED: and those behind it up to the ninth
   EACH=7      each request is refused in turn: a child goes on with the refusal, and the program waits for it and then
               goes on without. What a process writes is told at its end, through the descriptor 7
   MARKED=1    all requests are refused between two calls of sched_yield; the first one begins
   PIECES=7    a read of standard input gives at most 7 bytes
   THREADS=2   the program may start two threads, and no more; without it, any number

   A request is a call of malloc, calloc, realloc or one of those for aligned memory, on any thread. When the program
   ends, a last line on standard error says how many there were, how many were refused, and how many marks there were.

   With EACH the program has one thread, and standard input is a file, which each process reads for itself. Told are for
   each process its request (0: none was refused), how it ended (the status that a wait gives), whether the request was
   met, and how many bytes it wrote on standard output and on standard error, then these bytes. */
#define _GNU_SOURCE
#include <dlfcn.h>
#include <errno.h>
#include <pthread.h>
#include <stdatomic.h>
#include <stddef.h>
#include <stdio.h>
#include <stdlib.h>
#include <string.h>
#include <sys/mman.h>
#include <sys/syscall.h>
#include <sys/uio.h>
#include <sys/wait.h>
#include <unistd.h>

extern void *__libc_malloc(size_t);
extern void *__libc_calloc(size_t, size_t);
extern void *__libc_realloc(void *, size_t);
extern void *__libc_memalign(size_t, size_t);

static unsigned long wanted, until;
static size_t piece;
static int has_marks;
static int each;          /* the descriptor, or 0 */
static int is_child;
static atomic_ulong requests, refusals, marks;
static int has_threads;   /* only so many may be started */
static atomic_long threads;
static int (*start)(pthread_t *, const pthread_attr_t *, void *(*)(void *), void *);

/* What a process has written, and how far it has read. */
struct bytes {
    char *at;
    size_t length, room;
};
static struct bytes written[3];
static off_t has_read;

static void end(int status, void *unused);

static unsigned long number(const char *name) {
    const char *text = getenv(name);
    return text ? strtoul(text, 0, 10) : 0;
}

__attribute__((constructor)) static void begin(void) {
    wanted = number("REFUSED");
    until = number("UNTIL") > wanted ? number("UNTIL") : wanted;
    each = (int)number("EACH");
    has_marks = number("MARKED") != 0;
    piece = number("PIECES");
    has_threads = getenv("THREADS") != 0;
    atomic_store(&threads, (long)number("THREADS"));
    start = dlsym(RTLD_NEXT, "pthread_create");
    on_exit(end, 0);
    atomic_store(&requests, 0);
}

static void send(int file, const char *from, size_t length) {
    while (length > 0) {
        ssize_t sent = syscall(SYS_write, file, from, length);
        if (sent < 0) {
            if (errno == EINTR) continue;
            return;
        }
        from += sent;
        length -= (size_t)sent;
    }
}

static void keep(struct bytes *to, const char *from, size_t length) {
    while (to->room - to->length < length) {
        size_t room = to->room ? 2 * to->room : 1 << 16;
        void *at = to->room ? mremap(to->at, to->room, room, MREMAP_MAYMOVE)
                            : mmap(0, room, PROT_READ | PROT_WRITE, MAP_PRIVATE | MAP_ANONYMOUS, -1, 0);
        if (at == MAP_FAILED) syscall(SYS_exit_group, 99);
        to->at = at;
        to->room = room;
    }
    memcpy(to->at + to->length, from, length);
    to->length += length;
}

/* Tells of this process, which ends so. */
static void tell_each(int status, unsigned long request) {
    char head[120];
    int length = snprintf(head, sizeof head, "%lu %d %lu %zu %zu\n", request, status, atomic_load(&refusals), written[1].length,
                          written[2].length);
    send(each, head, (size_t)length);
    send(each, written[1].at, written[1].length);
    send(each, written[2].at, written[2].length);
}

static void tell(void) {
    char line[120];
    int length = snprintf(line, sizeof line, "%lu requests, %lu refused, %lu marks\n", atomic_load(&requests),
                          atomic_load(&refusals), atomic_load(&marks));
    send(2, line, (size_t)length);
}

/* Where a program ends by `exit` or returns from its main, and where it ends at once. */
static void end(int status, void *unused) {
    (void)unused;
    if (each) tell_each(status << 8, is_child ? wanted : 0);
    else tell();
}

void _exit(int status) {
    end(status, 0);
    for (;;) syscall(SYS_exit_group, status);
}

/* Whether this process is the child in which the request is refused. The program waits for that child. */
static int goes_on_without(unsigned long request) {
    pid_t child = fork();
    if (child == 0) {
        is_child = 1;
        wanted = until = request;
        return 1;
    }
    int status = 0;
    while (child > 0 && waitpid(child, &status, 0) < 0 && errno == EINTR) {}
    /* it told of itself, unless something else ended it */
    if (child < 0 || WIFSIGNALED(status)) {
        char head[80];
        int length = snprintf(head, sizeof head, "%lu %d 1 0 0\n", request, child < 0 ? -1 : status);
        send(each, head, (size_t)length);
    }
    return 0;
}

static int refuses(void) {
    unsigned long request = atomic_fetch_add(&requests, 1) + 1;
    int is_refused = each ? !is_child && goes_on_without(request) : (request >= wanted && request <= until) || atomic_load(&marks) % 2 == 1;
    if (!is_refused) return 0;
    atomic_fetch_add(&refusals, 1);
    errno = ENOMEM;
    return 1;
}

void *malloc(size_t size) { return refuses() ? 0 : __libc_malloc(size); }
void *calloc(size_t count, size_t size) { return refuses() ? 0 : __libc_calloc(count, size); }
void *realloc(void *block, size_t size) { return refuses() ? 0 : __libc_realloc(block, size); }
void *memalign(size_t by, size_t size) { return refuses() ? 0 : __libc_memalign(by, size); }
void *aligned_alloc(size_t by, size_t size) { return refuses() ? 0 : __libc_memalign(by, size); }

int posix_memalign(void **to, size_t by, size_t size) {
    void *block = refuses() ? 0 : __libc_memalign(by, size);
    if (!block) return ENOMEM;
    *to = block;
    return 0;
}

int pthread_create(pthread_t *to, const pthread_attr_t *how, void *(*work)(void *), void *with) {
    if (has_threads && atomic_fetch_sub(&threads, 1) <= 0) return EAGAIN;
    return start(to, how, work, with);
}

/* The mark: nothing else of the programs that are run with MARKED calls it. */
int sched_yield(void) {
    if (!has_marks) return (int)syscall(SYS_sched_yield);
    atomic_fetch_add(&marks, 1);
    return 0;
}

ssize_t read(int file, void *to, size_t size) {
    if (file == 0 && piece && size > piece) size = piece;
    if (file != 0 || !each) return syscall(SYS_read, file, to, size);
    ssize_t got = syscall(SYS_pread64, file, to, size, has_read);
    if (got > 0) has_read += got;
    return got;
}

ssize_t write(int file, const void *from, size_t size) {
    if (!each || file < 1 || file > 2) return syscall(SYS_write, file, from, size);
    keep(&written[file], from, size);
    return (ssize_t)size;
}

ssize_t writev(int file, const struct iovec *parts, int count) {
    if (!each || file < 1 || file > 2) return syscall(SYS_writev, file, parts, count);
    ssize_t size = 0;
    for (int at = 0; at < count; at++) size += write(file, parts[at].iov_base, parts[at].iov_len);
    return size;
}
