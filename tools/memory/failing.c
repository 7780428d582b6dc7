// The C library's malloc and its kin, of which a chosen request fails. Linked into a program, it takes the choice from
// calls (failing.h). Preloaded before one, it takes it from the environment: FAILING_FIRST and, for every later request
// too, FAILING_ONWARD. What it counts then stands in the file that FAILING_COUNTS names, however the program ends. A
// block that is given back or asked to grow has to be out, or the program is stopped.
#include "failing.h"
#include <errno.h>
#include <fcntl.h>
#include <stdint.h>
#include <stdlib.h>
#include <sys/mman.h>
#include <unistd.h>

void *__libc_malloc(size_t size);
void *__libc_calloc(size_t count, size_t size);
void *__libc_realloc(void *block, size_t size);
void *__libc_memalign(size_t align, size_t size);
void __libc_free(void *block);

enum { ROOM = 1 << 14 };

static struct failing_counts own;
static struct failing_counts *counts = &own;
static bool counting;
static long first_to_fail;
static bool fails_onward;

// The blocks that are out, each at a place that its address gives, or behind it.
static void *blocks[ROOM];

static void stop(const char *why, size_t length)
{
    if (write(STDERR_FILENO, why, length) < 0)
        _exit(99);
    abort();
}

static size_t place_of(const void *block)
{
    size_t place = ((uintptr_t)block >> 4) % ROOM;
    while (blocks[place] != NULL && blocks[place] != block)
        place = (place + 1) % ROOM;
    return place;
}

static void *taken(void *block)
{
    static const char full[] = "failing: too many blocks\n";
    if (block == NULL)
        return NULL;
    if (counts->live >= ROOM / 2)
        stop(full, sizeof full - 1);
    blocks[place_of(block)] = block;
    counts->live++;
    return block;
}

// Blocks behind the one that goes move up, so that each is still found.
static void given_back(void *block)
{
    static const char wrong[] = "failing: a block that is not out\n";
    size_t place = place_of(block);
    if (blocks[place] == NULL)
        stop(wrong, sizeof wrong - 1);
    blocks[place] = NULL;
    counts->live--;
    for (place = (place + 1) % ROOM; blocks[place] != NULL; place = (place + 1) % ROOM) {
        void *moved = blocks[place];
        blocks[place] = NULL;
        blocks[place_of(moved)] = moved;
    }
}

// Counts a request, and tells whether it fails.
static bool fails(void)
{
    if (!counting)
        return false;
    counts->asked++;
    if (first_to_fail == 0 || counts->asked < first_to_fail)
        return false;
    if (counts->asked > first_to_fail && !fails_onward)
        return false;
    counts->failed++;
    errno = ENOMEM;
    return true;
}

void *malloc(size_t size)
{
    return fails() ? NULL : taken(__libc_malloc(size));
}

void *calloc(size_t count, size_t size)
{
    return fails() ? NULL : taken(__libc_calloc(count, size));
}

void *realloc(void *block, size_t size)
{
    if (block == NULL)
        return malloc(size);
    if (fails())
        return NULL;
    given_back(block);
    void *moved = __libc_realloc(block, size);
    if (moved == NULL && size > 0)
        taken(block);
    return taken(moved);
}

void *memalign(size_t align, size_t size)
{
    return fails() ? NULL : taken(__libc_memalign(align, size));
}

void *aligned_alloc(size_t align, size_t size)
{
    return memalign(align, size);
}

int posix_memalign(void **block, size_t align, size_t size)
{
    void *made = memalign(align, size);
    if (made == NULL)
        return ENOMEM;
    *block = made;
    return 0;
}

void free(void *block)
{
    if (block == NULL)
        return;
    given_back(block);
    __libc_free(block);
}

void failing_from(long first, bool onward)
{
    counts->asked = 0;
    counts->failed = 0;
    first_to_fail = first;
    fails_onward = onward;
    counting = true;
}

struct failing_counts failing_end(void)
{
    counting = false;
    return *counts;
}

// Lets the counts stand in a file, where they outlive the program.
static void keep_in(const char *path)
{
    static const char none[] = "failing: no file for the counts\n";
    int file = open(path, O_RDWR | O_CLOEXEC);
    void *kept = file < 0 ? MAP_FAILED : mmap(NULL, sizeof own, PROT_READ | PROT_WRITE, MAP_SHARED, file, 0);
    if (kept == MAP_FAILED)
        stop(none, sizeof none - 1);
    close(file);
    counts = kept;
    *counts = own;
}

__attribute__((constructor)) static void start(void)
{
    const char *path = getenv("FAILING_COUNTS");
    if (path == NULL)
        return;
    const char *first = getenv("FAILING_FIRST");
    keep_in(path);
    failing_from(first == NULL ? 0 : atol(first), getenv("FAILING_ONWARD") != NULL);
}
