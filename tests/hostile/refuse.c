/* Refuses memory, threads and devices to the program that it is loaded into by LD_PRELOAD, and counts what was asked for.

   REFUSE_PLAN=growth:N refuses the Nth growth, a call of malloc, calloc, realloc or an aligned one; thread:N the Nth call of
   pthread_create; read:N the Nth read; write:N the Nth write to standard output. A read or a write fails as one that was
   interrupted where N is odd. With .. behind N each one behind it is refused too. Without a plan nothing is refused. Where
   REFUSE_BYTE_BY_BYTE is set each read and each write moves one byte at most.
   REFUSE_COUNTS names a file of 48 bytes, in which six numbers of 8 bytes are kept: growths, threads, reads and writes that were
   asked for, refusals, and how many bytes the growth asks for that was refused last.

   A program can say itself what is refused, by asking for MARK bytes and some more, which nothing else asks for. MARK + 1 + N,
   with N below 2^20, refuses the Nth growth from then on, counted from 0; 2^20 more refuses each one from the Nth on; 2^21 more
   in place of that the Nth thread; 3 * 2^20 more each growth that asks for N bytes or more. MARK itself ends this: it is given where
   nothing was refused since, and else refused. MARK + 1 + 2^22 notes how many blocks the program holds, and one byte more is given
   where it holds as many as were noted. */
#define _GNU_SOURCE
#include <dlfcn.h>
#include <errno.h>
#include <fcntl.h>
#include <pthread.h>
#include <stdatomic.h>
#include <stdlib.h>
#include <string.h>
#include <sys/mman.h>
#include <sys/syscall.h>
#include <unistd.h>

#define MARK ((size_t)1 << 40)
#define STEP ((size_t)1 << 20)

extern void *__libc_malloc(size_t);
extern void *__libc_calloc(size_t, size_t);
extern void *__libc_realloc(void *, size_t);
extern void *__libc_memalign(size_t, size_t);
extern void __libc_free(void *);

typedef _Atomic unsigned long count;

enum kind { GROWTH, THREAD, READ, WRITE, REFUSED, BYTES, KINDS };

static const char *const names[] = {"growth:", "thread:", "read:", "write:"};

static count own_counts[KINDS];
static count *counts = own_counts;

/* Which of a kind are refused: from the first on, one of them or all; 0 refuses none. */
struct plan {
    count asked;
    count first;
    count goes_on;
};

static struct plan plans[REFUSED];
/* From how many bytes on each growth is refused, whatever its number; 0 if none is. */
static count large;
static count refused_since;
/* How many blocks were given and not yet taken back, and how many it were when that was noted. */
static count held, noted;
static int is_byte_by_byte;

static int is_planned(enum kind kind) {
    struct plan *plan = &plans[kind];
    unsigned long at = atomic_fetch_add(&plan->asked, 1) + 1, first = plan->first;
    atomic_fetch_add(&counts[kind], 1);
    return first != 0 && (plan->goes_on ? at >= first : at == first);
}

static int refuse(void) {
    atomic_fetch_add(&counts[REFUSED], 1);
    atomic_fetch_add(&refused_since, 1);
    return 1;
}

static int refuses(enum kind kind) {
    return is_planned(kind) && refuse();
}

static int refuses_growth(size_t size) {
    if (!is_planned(GROWTH) && (large == 0 || size < large))
        return 0;
    counts[BYTES] = size;
    return refuse();
}

static void set_plan(enum kind kind, unsigned long first, int goes_on) {
    plans[kind].asked = 0;
    plans[kind].goes_on = goes_on;
    plans[kind].first = first;
}

/* The block, which is counted if it is one. */
static void *counted(void *block) {
    if (block != NULL)
        atomic_fetch_add(&held, 1);
    return block;
}

/* What a program says by the size of a growth. */
static void *marked(size_t size) {
    size_t behind = size - MARK;
    set_plan(GROWTH, 0, 0);
    set_plan(THREAD, 0, 0);
    large = 0;
    if (behind == 0)
        return refused_since ? NULL : counted(__libc_malloc(1));
    refused_since = 0;
    behind -= 1;
    if (behind == 4 * STEP)
        noted = held;
    if (behind >= 4 * STEP)
        return behind > 4 * STEP && held == noted ? counted(__libc_malloc(1)) : NULL;
    if (behind < 2 * STEP)
        set_plan(GROWTH, behind % STEP + 1, behind >= STEP);
    else if (behind < 3 * STEP)
        set_plan(THREAD, behind % STEP + 1, 0);
    else
        large = behind % STEP;
    return NULL;
}

static int is_mark(size_t size) {
    return size >= MARK && size < MARK + 4 * STEP + 3;
}

/* The block, or none where this growth is refused. */
#define GROWN(size, block)           \
    do {                             \
        if (refuses_growth(size)) {  \
            errno = ENOMEM;          \
            return NULL;             \
        }                            \
        return counted(block);       \
    } while (0)

void *malloc(size_t size) {
    if (is_mark(size))
        return marked(size);
    GROWN(size, __libc_malloc(size));
}

void *calloc(size_t number, size_t size) {
    GROWN(number * size, __libc_calloc(number, size));
}

void *realloc(void *block, size_t size) {
    if (block == NULL)
        return malloc(size);
    if (refuses_growth(size)) {
        errno = ENOMEM;
        return NULL;
    }
    return __libc_realloc(block, size);
}

void free(void *block) {
    if (block != NULL)
        atomic_fetch_sub(&held, 1);
    __libc_free(block);
}

void *memalign(size_t align, size_t size) {
    GROWN(size, __libc_memalign(align, size));
}

void *aligned_alloc(size_t align, size_t size) {
    GROWN(size, __libc_memalign(align, size));
}

int posix_memalign(void **into, size_t align, size_t size) {
    void *block = refuses_growth(size) ? NULL : counted(__libc_memalign(align, size));
    if (block == NULL)
        return ENOMEM;
    *into = block;
    return 0;
}

int pthread_create(pthread_t *thread, const pthread_attr_t *attr, void *(*start)(void *), void *arg) {
    static int (*created)(pthread_t *, const pthread_attr_t *, void *(*)(void *), void *);
    if (refuses(THREAD))
        return EAGAIN;
    if (created == NULL)
        created = (int (*)(pthread_t *, const pthread_attr_t *, void *(*)(void *), void *))dlsym(RTLD_NEXT, "pthread_create");
    return created(thread, attr, start, arg);
}

static size_t one_byte_of(size_t size) {
    return is_byte_by_byte && size > 1 ? 1 : size;
}

ssize_t read(int file, void *into, size_t size) {
    if (refuses(READ)) {
        errno = plans[READ].first % 2 ? EINTR : EIO;
        return -1;
    }
    return syscall(SYS_read, file, into, one_byte_of(size));
}

ssize_t write(int file, const void *from, size_t size) {
    if (file == 1 && refuses(WRITE)) {
        errno = plans[WRITE].first % 2 ? EINTR : ENOSPC;
        return -1;
    }
    return syscall(SYS_write, file, from, one_byte_of(size));
}

ssize_t __write(int file, const void *from, size_t size) {
    return write(file, from, size);
}

static void read_plan(const char *plan) {
    for (int kind = 0; kind < REFUSED; kind++) {
        size_t length = strlen(names[kind]);
        char *rest;
        if (strncmp(plan, names[kind], length) != 0)
            continue;
        unsigned long first = strtoul(plan + length, &rest, 10);
        set_plan(kind, first, strcmp(rest, "..") == 0);
    }
}

__attribute__((constructor)) static void begin(void) {
    const char *file = getenv("REFUSE_COUNTS"), *plan = getenv("REFUSE_PLAN");
    if (file != NULL) {
        int opened = open(file, O_RDWR);
        void *shared = mmap(NULL, KINDS * sizeof(count), PROT_READ | PROT_WRITE, MAP_SHARED, opened, 0);
        close(opened);
        if (shared == MAP_FAILED)
            abort();
        counts = shared;
    }
    for (int kind = 0; kind < KINDS; kind++)
        counts[kind] = 0;
    is_byte_by_byte = getenv("REFUSE_BYTE_BY_BYTE") != NULL;
    if (plan != NULL)
        read_plan(plan);
}
