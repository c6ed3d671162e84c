/* Tests of the calls for C with many edges, at both widths. Memory is there, so no call may say that it was refused.
 * They run on a small stack. */
#include <pthread.h>
#include <stdlib.h>

#define AT_WIDTH "tests_of_sizes.h"
#include "tests_of_both_widths.h"

/* A stack that suffices for all calls, in bytes: docs/C.md says so. */
enum { STACK = 64 * 1024 };

static void *sizes(void *nothing) {
    sizes_at_64();
    sizes_at_32();
    return nothing;
}

int main(void) {
    pthread_attr_t small;
    pthread_t thread;
    if (pthread_attr_init(&small) || pthread_attr_setstacksize(&small, STACK) ||
        pthread_create(&thread, &small, sizes, NULL) || pthread_join(thread, NULL)) {
        abort();
    }
    return told("c, many edges");
}
