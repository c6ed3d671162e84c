/* The part of the library in C that tells of which version it is, and what it is made of. The module itself says the
 * latter (scripts/assembly.py). */
#include "polyover.h"

/* 1 in the proved module, else 0. */
extern const uint8_t polyover_is_proved;

const char *polyover_version(void) {
    return POLYOVER_VERSION;
}

uint32_t polyover_built(void) {
    return polyover_is_proved;
}
