/* Memory functions of the library: malloc, realloc and free, under the names that the toolchain's code calls. On Linux
 * they save page faults of large lists. */
#ifdef __linux__
#define _DEFAULT_SOURCE
#include <stdatomic.h>
#include <sys/mman.h>
#endif
#include <stddef.h>
#include <stdint.h>
#include <stdlib.h>

/* The answer to a request: whether there is memory, and a pointer that is never null. */
struct answer {
    uint64_t is_there;
    void *at;
};

static char nothing;

static struct answer told(void *at) {
    struct answer it = {at != NULL, at != NULL ? at : &nothing};
    return it;
}

#ifdef __linux__
/* The sizes in bytes: of a list for which freed memory is kept, of the block that is freed for that, of a list for
 * which large pages are asked, and of a small page. */
enum { LARGE = 1 << 15, KEPT = (1 << 24) - (1 << 12), HUGE = 1 << 22, PAGE = 1 << 12 };

/* Frees one block that nothing was written to, once. From then on glibc's malloc makes lists up to its size of memory
 * that it keeps, up to twice its size, where before it took each from the system and gave it back. */
static void keep_freed(void) {
    static atomic_flag is_done = ATOMIC_FLAG_INIT;
    if (!atomic_flag_test_and_set(&is_done)) {
        void *volatile block = malloc(KEPT);
        free(block);
    }
}

/* Takes memory as malloc does, and asks for large pages where there is much. */
static void *taken(size_t size) {
    if (size >= LARGE) {
        keep_freed();
    }
    char *at = malloc(size);
    if (at != NULL && size >= HUGE) {
        size_t gap = (PAGE - (uintptr_t)at % PAGE) % PAGE;
        /* (where the system has none, nothing changes) */
        (void)madvise(at + gap, size - gap, MADV_HUGEPAGE);
    }
    return at;
}
#else
static void *taken(size_t size) {
    return malloc(size);
}
#endif

struct answer rattle_alloc(size_t size, size_t align) {
    return told(taken(size != 0 ? size : align));
}

struct answer rattle_realloc(void *old, size_t old_size, size_t size, size_t align) {
    (void)old_size;
    return told(realloc(old, size != 0 ? size : align));
}

void rattle_dealloc(void *at) {
    free(at);
}
