/*
 * Pseudo-random calls of every function at EL2, where start.S has alignment checks on: an access that is not aligned
 * ends the run. RANDOM_SEED, RANDOM_CALLS and ALIGNED are given on the compiler's command line.
 */
#include "board.h"
#include "console.h"
#include "differential.h"

void handle_unexpected(void)
{
    print_el2_exception();
    turn_off();
}

/* There is no guest. */
void handle_sync_lower(void)
{
    handle_unexpected();
}

void start_core(void)
{
    struct line line = {.length = 0};
    const struct outcome outcome = make_random_calls(RANDOM_SEED, RANDOM_CALLS, ALIGNED);
    add_decimal(&line, "seed ", RANDOM_SEED);
    add_decimal(&line, ", calls ", RANDOM_CALLS);
    add_hex(&line, ", hash ", outcome.hash);
    print_line(&line);
    if (outcome.changed_beside != 0) {
        print("a byte beside a buffer was changed");
    }
    turn_off();
}
