/* A library to be preloaded, for bench/refused_memory.py: it refuses allocations of a program that was built as ever.
 *
 * REFUSE_AT is the number of the allocation that is refused, from 1 on; 0 refuses none. REFUSE_ON set to 1 refuses all
 * behind it too. REFUSE_TOLD is a file of eight bytes, which hold the count of allocations that were asked, at any moment. */
#include <errno.h>
#include <fcntl.h>
#include <stdatomic.h>
#include <stddef.h>
#include <stdlib.h>
#include <sys/mman.h>
#include <unistd.h>

extern void *__libc_malloc(size_t);
extern void *__libc_calloc(size_t, size_t);
extern void *__libc_realloc(void *, size_t);
extern void *__libc_memalign(size_t, size_t);

static atomic_long own;
static atomic_long *asked = &own;
static long refused_at;
static int refuses_on;
static int counts;

/* Counting begins with the program's own code, behind the loader's. */
__attribute__((constructor)) static void begin(void)
{
    const char *at = getenv("REFUSE_AT");
    const char *on = getenv("REFUSE_ON");
    const char *told = getenv("REFUSE_TOLD");
    int file = told ? open(told, O_RDWR) : -1;
    if (file >= 0) {
        void *shared = mmap(NULL, sizeof *asked, PROT_READ | PROT_WRITE, MAP_SHARED, file, 0);
        if (shared != MAP_FAILED)
            asked = shared;
        close(file);
    }
    refused_at = at ? atol(at) : 0;
    refuses_on = on && *on == '1';
    counts = 1;
}

static int is_refused(void)
{
    if (!counts)
        return 0;
    long number = atomic_fetch_add(asked, 1) + 1;
    if (refused_at == 0 || number < refused_at || (number > refused_at && !refuses_on))
        return 0;
    errno = ENOMEM;
    return 1;
}

void *malloc(size_t size)
{
    return is_refused() ? NULL : __libc_malloc(size);
}

void *calloc(size_t count, size_t size)
{
    return is_refused() ? NULL : __libc_calloc(count, size);
}

void *realloc(void *old, size_t size)
{
    return is_refused() ? NULL : __libc_realloc(old, size);
}

void *memalign(size_t alignment, size_t size)
{
    return is_refused() ? NULL : __libc_memalign(alignment, size);
}

void *aligned_alloc(size_t alignment, size_t size)
{
    return is_refused() ? NULL : __libc_memalign(alignment, size);
}

int posix_memalign(void **place, size_t alignment, size_t size)
{
    if (is_refused())
        return ENOMEM;
    *place = __libc_memalign(alignment, size);
    return *place ? 0 : ENOMEM;
}
