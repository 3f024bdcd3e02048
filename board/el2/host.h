/* The parts of the host at EL2. */
#ifndef HOST_H
#define HOST_H

#include "board.h"
#include "console.h"
#include "ritm.h"

/* What the processor says of a trap. */
struct trap {
    uint64_t core;
    uint64_t esr;
    uint64_t fipa;
    uint64_t far;
    uint64_t vbar;
};

/* stage2_tables.c: maps what the policy allows, and gives how many tables that took; maps a range that is allowed
   later, and takes back one that is released; where the walk begins. */
uint64_t map_allowed_ranges(const struct ritm_policy *policy);
void map_range(uint64_t start, uint64_t end, uint64_t attributes);
void unmap_range(uint64_t start, uint64_t end);
uint64_t stage2_root(void);

/* checks.c: what the run tests besides the guest's own checks. */
void expect(const char *what, uint64_t got, uint64_t expected);
void compare_with_instruction(const struct trap *trap, const struct ritm_registers *frame);
void compare_with_registers(const struct ritm_registers *frame, const uint64_t *core_words,
                            const struct ritm_trap_result *trapped);
int is_within_limit(void);
void take_verdict(uint64_t failures);
void print_verdict(void);

#endif
