/* A library for LD_PRELOAD that refuses one allocation of the program.
 *
 * The allocations of the program are counted from 1, from the start of its main. The one with the
 * number in the environment's FAIL_AT fails as if there were no memory. An empty file is then
 * created at the path in REFUSED_MARK, so that a caller that tries one number after the other knows
 * where to end.
 *
 * If the environment has ASKED_FOR, then the number of allocations, their bytes in all, and the
 * number of blocks that were not freed are written to that file as the program exits. */
#define _GNU_SOURCE
#include <dlfcn.h>
#include <errno.h>
#include <fcntl.h>
#include <stdatomic.h>
#include <stddef.h>
#include <stdio.h>
#include <stdlib.h>
#include <sys/syscall.h>
#include <unistd.h>

extern void *__libc_malloc(size_t size);
extern void *__libc_calloc(size_t count, size_t size);
extern void *__libc_realloc(void *old, size_t size);
extern void *__libc_memalign(size_t alignment, size_t size);
extern void __libc_free(void *block);

typedef int Main(int argc, char **argv, char **environment);

static atomic_long calls;
static atomic_ulong asked;
static atomic_long held;
static long fail_at;
static const char *mark;
static Main *program;

/* Returns whether this call, which asks for this many bytes, is the one that is refused. Until
 * the program's main begins, none is counted. */
static int refuses(size_t size) {
    atomic_fetch_add(&asked, size);
    if (atomic_fetch_add(&calls, 1) + 1 != fail_at) {
        return 0;
    }
    int file = mark ? open(mark, O_WRONLY | O_CREAT, 0600) : -1;
    if (file >= 0) {
        close(file);
    }
    errno = ENOMEM;
    return 1;
}

/* Counts a new block; there is none if memory ran out. */
static void *hold(void *block) {
    atomic_fetch_add(&held, block != NULL);
    return block;
}

void *malloc(size_t size) { return refuses(size) ? NULL : hold(__libc_malloc(size)); }

void *calloc(size_t count, size_t size) {
    return refuses(count * size) ? NULL : hold(__libc_calloc(count, size));
}

/* A block that only moves is counted as before; one of no bytes is freed. */
void *realloc(void *old, size_t size) {
    if (!old) {
        return malloc(size);
    }
    if (refuses(size)) {
        return NULL;
    }
    void *block = __libc_realloc(old, size);
    atomic_fetch_sub(&held, size == 0 && block == NULL);
    return block;
}

void free(void *block) {
    atomic_fetch_sub(&held, block != NULL);
    __libc_free(block);
}

void *aligned_alloc(size_t alignment, size_t size) {
    return refuses(size) ? NULL : hold(__libc_memalign(alignment, size));
}

int posix_memalign(void **answer, size_t alignment, size_t size) {
    if (alignment % sizeof(void *) != 0 || (alignment & (alignment - 1)) != 0 || alignment == 0) {
        return EINVAL;
    }
    void *room = aligned_alloc(alignment, size);
    if (!room) {
        return ENOMEM;
    }
    *answer = room;
    return 0;
}

static int main_that_counts(int argc, char **argv, char **environment) {
    const char *given = getenv("FAIL_AT");
    mark = getenv("REFUSED_MARK");
    atomic_store(&calls, 0);
    atomic_store(&asked, 0);
    atomic_store(&held, 0);
    fail_at = given ? atol(given) : 0;
    return program(argc, argv, environment);
}

/* Frees what the C library retains for itself, such as the stacks of ended threads. */
static void free_own(void) {
    void (*free_all)(void) = (void (*)(void))dlsym(RTLD_DEFAULT, "__libc_freeres");
    if (free_all) {
        free_all();
    }
}

static __attribute__((destructor)) void tell_asked(void) {
    const char *path = getenv("ASKED_FOR");
    int file = path ? open(path, O_WRONLY | O_CREAT | O_TRUNC, 0600) : -1;
    if (file < 0) {
        return;
    }
    long number = atomic_load(&calls);
    unsigned long bytes = atomic_load(&asked);
    free_own();
    dprintf(file, "%ld %lu %ld\n", number, bytes, atomic_load(&held));
    close(file);
}

/* The program may end here, and then no destructor runs. */
void _exit(int status) {
    tell_asked();
    syscall(SYS_exit_group, status);
    __builtin_unreachable();
}

/* What a program's first instructions call; its argument is the program's main. */
int __libc_start_main(Main *given, int argc, char **argv, void (*init)(void), void (*fini)(void),
                      void (*loader_fini)(void), void *stack_end) {
    typedef int Start(Main *, int, char **, void (*)(void), void (*)(void), void (*)(void), void *);
    Start *start = (Start *)dlsym(RTLD_NEXT, "__libc_start_main");
    program = given;
    return start(main_that_counts, argc, argv, init, fini, loader_fini, stack_end);
}
