// Refuses one allocation of a built program or test that this is preloaded into: the one whose
// number REFUSE_NTH says, counted from 1 over malloc, calloc, realloc and the aligned allocations.
// To the file that REFUSE_REPORT names it adds one byte when it is loaded, and one at the refusal.
#include <errno.h>
#include <fcntl.h>
#include <stdatomic.h>
#include <stddef.h>
#include <stdlib.h>
#include <unistd.h>

extern void *__libc_malloc(size_t size);
extern void *__libc_calloc(size_t count, size_t size);
extern void *__libc_realloc(void *old, size_t size);
extern void *__libc_memalign(size_t align, size_t size);

// How many allocations were asked for, by any thread.
static atomic_long asked;

static void report(char what)
{
    const char *path = getenv("REFUSE_REPORT");
    int file = path ? open(path, O_WRONLY | O_CREAT | O_APPEND, 0600) : -1;
    if (file < 0 || write(file, &what, 1) != 1)
        _exit(99);
    close(file);
}

__attribute__((constructor)) static void loaded(void) { report('L'); }

static int is_refused(void)
{
    const char *nth = getenv("REFUSE_NTH");
    if (atomic_fetch_add(&asked, 1) + 1 != (nth ? atol(nth) : 0))
        return 0;
    report('R');
    errno = ENOMEM; // as malloc does: the C library's own threads look at it
    return 1;
}

void *malloc(size_t size) { return is_refused() ? NULL : __libc_malloc(size); }

void *calloc(size_t count, size_t size) { return is_refused() ? NULL : __libc_calloc(count, size); }

void *realloc(void *old, size_t size) { return is_refused() ? NULL : __libc_realloc(old, size); }

void *memalign(size_t align, size_t size) { return is_refused() ? NULL : __libc_memalign(align, size); }

void *aligned_alloc(size_t align, size_t size) { return memalign(align, size); }

int posix_memalign(void **result, size_t align, size_t size)
{
    void *memory = memalign(align, size);
    if (memory == NULL)
        return ENOMEM;
    *result = memory;
    return 0;
}
