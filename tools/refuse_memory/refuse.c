/* A preloaded allocator that counts requests for memory and refuses some of them.
 *
 * Needs glibc, which does the allocating (__libc_malloc and its like). Compiled and used by run.py beside it:
 *     cc -shared -fPIC -O2 -o refuse.so refuse.c
 *     LD_PRELOAD=./refuse.so REFUSE_AT=7 PROGRAM WORD ..
 *
 * A request is a call of malloc, calloc, realloc, posix_memalign, aligned_alloc or memalign, counted from 1 once the program's own
 * libraries are loaded. realloc to no size at all is a release and no request.
 *     REFUSE_AT=N    the N-th request is refused (0 or unset: none)
 *     REFUSE_ON=1    and so is each one after it
 *     REFUSE_TOLD=F  the file F gets two numbers of 8 bytes, as the machine writes them: how many requests there were, and how many
 *                    of them were refused. It is mapped, so it is right however the program ends.
 */
#include <errno.h>
#include <fcntl.h>
#include <stddef.h>
#include <stdint.h>
#include <stdlib.h>
#include <sys/mman.h>
#include <unistd.h>

extern void *__libc_malloc(size_t size);
extern void *__libc_calloc(size_t count, size_t size);
extern void *__libc_realloc(void *old, size_t size);
extern void *__libc_memalign(size_t alignment, size_t size);

struct told {
    uint64_t requests;
    uint64_t refused;
};

static struct told here;
static struct told *told = &here;
static uint64_t refused_at;
static int from_there_on;
static int counting;

static uint64_t number_of(const char *name)
{
    const char *text = getenv(name);
    return text == NULL ? 0 : strtoull(text, NULL, 10);
}

__attribute__((constructor)) static void begin(void)
{
    refused_at = number_of("REFUSE_AT");
    from_there_on = number_of("REFUSE_ON") != 0;
    const char *file = getenv("REFUSE_TOLD");
    if (file != NULL) {
        int at = open(file, O_RDWR | O_CREAT | O_CLOEXEC, 0600);
        if (at >= 0 && ftruncate(at, sizeof here) == 0) {
            void *map = mmap(NULL, sizeof here, PROT_READ | PROT_WRITE, MAP_SHARED, at, 0);
            if (map != MAP_FAILED) {
                told = map;
                told->requests = 0;
                told->refused = 0;
            }
        }
        if (at >= 0) {
            close(at);
        }
    }
    counting = 1;
}

/* Counts a request, and says whether it is refused. */
static int refuses(void)
{
    if (!counting) {
        return 0;
    }
    uint64_t number = __atomic_add_fetch(&told->requests, 1, __ATOMIC_RELAXED);
    if (refused_at == 0 || number < refused_at || (number > refused_at && !from_there_on)) {
        return 0;
    }
    __atomic_add_fetch(&told->refused, 1, __ATOMIC_RELAXED);
    return 1;
}

static void *nothing(void)
{
    errno = ENOMEM;
    return NULL;
}

void *malloc(size_t size)
{
    return refuses() ? nothing() : __libc_malloc(size);
}

void *calloc(size_t count, size_t size)
{
    return refuses() ? nothing() : __libc_calloc(count, size);
}

void *realloc(void *old, size_t size)
{
    if (old != NULL && size == 0) {
        return __libc_realloc(old, size);
    }
    return refuses() ? nothing() : __libc_realloc(old, size);
}

void *memalign(size_t alignment, size_t size)
{
    return refuses() ? nothing() : __libc_memalign(alignment, size);
}

void *aligned_alloc(size_t alignment, size_t size)
{
    return refuses() ? nothing() : __libc_memalign(alignment, size);
}

int posix_memalign(void **into, size_t alignment, size_t size)
{
    if (alignment % sizeof(void *) != 0 || (alignment & (alignment - 1)) != 0 || alignment == 0) {
        return EINVAL;
    }
    if (refuses()) {
        return ENOMEM;
    }
    void *made = __libc_memalign(alignment, size);
    if (made == NULL) {
        return ENOMEM;
    }
    *into = made;
    return 0;
}
