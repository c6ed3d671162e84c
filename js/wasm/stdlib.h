/* What the part of the library that is C (../../c) takes of C's own: memory.c has it. */
#include <stddef.h>

void *malloc(size_t size);
void *realloc(void *at, size_t size);
void free(void *at);
