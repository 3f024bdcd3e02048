/* Stage-2 tables for what a policy allows (Arm DDI 0487): 4 KiB granule, from level 0. */
#include "host.h"

#define TABLES 16
#define TABLE_ENTRIES 512
#define TABLE_DESCRIPTOR UINT64_C(3)
#define BLOCK_DESCRIPTOR UINT64_C(1)
#define PAGE_DESCRIPTOR UINT64_C(3)

/* What maps addresses to nothing. */
#define NO_ATTRIBUTES 0

static _Alignas(4096) uint64_t tables[TABLES][TABLE_ENTRIES];
static uint64_t tables_added;

uint64_t stage2_root(void)
{
    return (uint64_t)tables[0];
}

/* The table that an entry leads to, a new one where it leads to none. */
static uint64_t *next_table(uint64_t *entry)
{
    if (*entry == 0) {
        expect("room for a table", ++tables_added < TABLES, 1);
        *entry = (uint64_t)tables[tables_added % TABLES] | TABLE_DESCRIPTOR;
    }
    return (uint64_t *)(*entry & -PAGE_SIZE);
}

/* The entry of a block or a page, or none. */
static uint64_t descriptor(uint64_t level, uint64_t at, uint64_t attributes)
{
    return attributes == NO_ATTRIBUTES ? 0 : at | attributes | (level == 3 ? PAGE_DESCRIPTOR : BLOCK_DESCRIPTOR);
}

/* Maps addresses to themselves in a table of this level. Level 0 has no blocks, level 3 has pages. */
static void map(uint64_t *table, uint64_t level, uint64_t start, uint64_t end, uint64_t attributes)
{
    const uint64_t shift = 39 - 9 * level;
    const uint64_t size = UINT64_C(1) << shift;
    for (uint64_t at = start & -size; at < end; at += size) {
        uint64_t *entry = &table[at >> shift & (TABLE_ENTRIES - 1)];
        if (level > 0 && start <= at && at + size <= end) {
            *entry = descriptor(level, at, attributes);
        } else {
            map(next_table(entry), level + 1, start > at ? start : at, end < at + size ? end : at + size, attributes);
        }
    }
}

void map_range(uint64_t start, uint64_t end, uint64_t attributes)
{
    map(tables[0], 0, start, end, attributes);
    __asm__ volatile("dsb ish\n\tisb" : : : "memory");
}

/* The range goes as it came, whole. No core may keep a translation that it made of these entries. */
void unmap_range(uint64_t start, uint64_t end)
{
    map(tables[0], 0, start, end, NO_ATTRIBUTES);
    __asm__ volatile("dsb ish\n\ttlbi vmalls12e1is\n\tdsb ish\n\tisb" : : : "memory");
}

uint64_t map_allowed_ranges(const struct ritm_policy *policy)
{
    for (uint64_t k = 0; k < policy->words[RITM_POLICY_ALLOWED_COUNT]; k++) {
        const uint64_t *range = &policy->words[RITM_POLICY_ALLOWED + k * RITM_ALLOWED_WORDS];
        expect("a range within 40 bits of address", range[RITM_ALLOWED_END] <= UINT64_C(1) << 40, 1);
        map(tables[0], 0, range[RITM_ALLOWED_BASE], range[RITM_ALLOWED_END], range[RITM_ALLOWED_ATTRIBUTES]);
    }
    return 1 + tables_added;
}
