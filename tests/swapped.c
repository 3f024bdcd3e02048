/*
 * Calls with one buffer in place of another, none of which compiles: in C++, and in C where a pointer to another type
 * is an error (-Werror=incompatible-pointer-types; from GCC 14 on by default, before that a warning). tests/run
 * compiles the file for each number of SWAPPED; with 0 every buffer stands in its place.
 */
#include "ritm.h"

#define LAST_SWAPPED 8

static struct ritm_policy policy;
static struct ritm_cores cores;
static struct ritm_registers registers;
static struct ritm_values values;
static struct ritm_find_result found;
static struct ritm_entry_result entry;
static struct ritm_suspend_map map;
static struct ritm_trap_result trapped;
static uint64_t blob[8];

uint64_t make_call(void);
uint64_t make_call(void)
{
#if SWAPPED == 0
    return ritm_trap(&policy, &cores, 0, 0, 0, 0, 0, &trapped) + ritm_find(&policy, 0, &found) +
           ritm_get(&map, 0, &entry) + ritm_save(&cores, 0, &registers) + ritm_reply(&cores, 0, 0, &values, 0) +
           ritm_import_memory(&policy, blob, sizeof blob, 0) + ritm_release_range(&policy, 0, 0);
#elif SWAPPED == 1
    return ritm_trap(&cores, &policy, 0, 0, 0, 0, 0, &trapped);
#elif SWAPPED == 2
    return ritm_find(&policy, 0, &entry);
#elif SWAPPED == 3
    return ritm_get(&map, 0, &found);
#elif SWAPPED == 4
    return ritm_save(&cores, 0, &values);
#elif SWAPPED == 5
    return ritm_reply(&cores, 0, 0, &registers, 0);
#elif SWAPPED == 6
    return ritm_fresh_cores(&map);
#elif SWAPPED == 7
    return ritm_import_memory(blob, &policy, sizeof blob, 0);
#elif SWAPPED == 8
    return ritm_release_range(&map, 0, 0);
#endif
}
