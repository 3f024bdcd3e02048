/*
 * Prints the outcome of pseudo-random calls, on buffers that stand anywhere.
 *
 *   differential SEED CALLS
 */
#include <inttypes.h>
#include <stdio.h>
#include <stdlib.h>

#include "differential.h"
#include "ritm.h"

/* What accesses by each handler come to; the last stands for the unknown codes. */
static void print_handler_kinds(const struct outcome *outcome)
{
    static const struct {
        uint64_t handler;
        uint64_t kind;
    } met[] = {
        {RITM_HANDLER_ABSENT, RITM_TRAP_LOAD_HANDLED},
        {RITM_HANDLER_ABSENT, RITM_TRAP_STORE_HANDLED},
        {RITM_HANDLER_FILTERED_MMIO, RITM_TRAP_LOAD_HANDLED},
        {RITM_HANDLER_FILTERED_MMIO, RITM_TRAP_STORE_HANDLED},
        {RITM_HANDLER_FILTERED_MMIO, RITM_TRAP_ABORT_INJECTED},
        {RITM_HANDLER_FAULT, RITM_TRAP_ABORT_INJECTED},
        {HANDLERS - 1, RITM_TRAP_ABORT_INJECTED},
    };
    for (size_t i = 0; i < sizeof met / sizeof met[0]; i++) {
        printf("trap kind %" PRIu64 " by handler %" PRIu64 ": %" PRIu64 "\n", met[i].kind, met[i].handler,
               outcome->handler_kinds[met[i].handler][met[i].kind]);
    }
}

/* The answers of an import and of a release. */
static void print_answers_of_changes(const struct outcome *outcome)
{
    for (size_t answer = 0; answer < ANSWERS; answer++) {
        if (answer <= RITM_ALLOWED_RANGE_OVERLAPS_MEMORY_ACCESS_HANDLER || answer == RITM_INVALID_DEVICETREE ||
            answer == RITM_UNSUPPORTED_CELL_COUNTS) {
            printf("import's answer %zu: %" PRIu64 "\n", answer, outcome->import_answers[answer]);
        }
        if (answer <= RITM_RANGE_END_OVERFLOW || answer == RITM_RANGE_NOT_HELD) {
            printf("release's answer %zu: %" PRIu64 "\n", answer, outcome->release_answers[answer]);
        }
    }
    printf("ranges released: %" PRIu64 "\nregions released: %" PRIu64 "\n", outcome->released[0], outcome->released[1]);
}

int main(int argc, char **argv)
{
    if (argc != 3) {
        fputs("usage: differential SEED CALLS\n", stderr);
        return 2;
    }
    const uint64_t seed = strtoull(argv[1], 0, 0);
    const uint64_t calls = strtoull(argv[2], 0, 0);
    const struct outcome outcome = make_random_calls(seed, calls, 0);
    for (size_t answer = 0; answer < ANSWERS; answer++) {
        printf("answer %zu: %" PRIu64 "\n", answer, outcome.answers[answer]);
    }
    print_answers_of_changes(&outcome);
    for (size_t kind = 0; kind < TRAP_KINDS; kind++) {
        printf("trap kind %zu: %" PRIu64 "\n", kind, outcome.trap_kinds[kind]);
        if (kind == RITM_TRAP_TO_FIRMWARE || kind == RITM_TRAP_TO_PLATFORM) {
            printf("trap kind %zu with the hint: %" PRIu64 "\n", kind, outcome.hinted_kinds[kind]);
        }
    }
    print_handler_kinds(&outcome);
    printf("seed %" PRIu64 ", calls %" PRIu64 ", hash 0x%" PRIx64 "\n", seed, calls, outcome.hash);
    if (outcome.changed_beside != 0) {
        puts("a byte beside a buffer was changed");
        return 1;
    }
    return 0;
}
