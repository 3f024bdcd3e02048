/* Pseudo-random calls of every function of the archive, for machines whose answers are to be compared. */
#ifndef DIFFERENTIAL_H
#define DIFFERENTIAL_H

#include <stdint.h>

#define ANSWERS 24
#define TRAP_KINDS 6

/* A region's handlers, and the unknown codes, which count as one. */
#define HANDLERS 4

/* How often each answer, each of an import and of a release, each kind of trap, each kind with the hint, and each kind
   of an access to a region by its handler was met, and a hash of everything that calls returned, wrote and left. */
struct outcome {
    uint64_t answers[ANSWERS];
    uint64_t import_answers[ANSWERS];
    uint64_t release_answers[ANSWERS];
    /* How often a range was released, and a region. */
    uint64_t released[2];
    uint64_t trap_kinds[TRAP_KINDS];
    uint64_t hinted_kinds[TRAP_KINDS];
    uint64_t handler_kinds[HANDLERS][TRAP_KINDS];
    uint64_t hash;
    /* How often a byte beside a buffer was changed. */
    uint64_t changed_beside;
};

/* Makes calls on buffers that stand at multiples of 16, all but blobs, or anywhere. That changes no call. */
struct outcome make_random_calls(uint64_t seed, uint64_t calls, int aligned);

#endif
