/* Calls between two calls of mark, so that board/instructions can count what is executed between. The rows are those of
   docs/PERFORMANCE.md: each has its state prepared first. Its argument is the blob that is imported. */
#include <stdio.h>

#include "ritm.h"

#define PAGE UINT64_C(0x1000)
#define FILTERED_MMIO_BASE UINT64_C(0x0f000000)
#define ESR_LOAD UINT64_C(0x93c58007)
#define ESR_STORE UINT64_C(0x93c58047)
#define ESR_HVC UINT64_C(0x5a000000)
#define ESR_SMC UINT64_C(0x5e000000)
#define ISS(esr) ((uint32_t)(esr)&0x1ffffff)
#define VBAR UINT64_C(0x80000)
#define STORE_VALUE UINT64_C(0x123456789abcdef0)
#define PLATFORM_CALL UINT64_C(0xff000000)
#define FIRMWARE_CALL UINT64_C(0x84000000)

static struct ritm_policy policy;
static struct ritm_cores cores;
static struct ritm_suspend_map map;
static struct ritm_registers registers;
static struct ritm_values values;
static struct ritm_trap_result trapped;
static struct ritm_find_result found;
static struct ritm_entry_result entry;
static struct ritm_access_result access_result;
static struct ritm_word_result word;
static uint64_t blob[65536 / 8];

__attribute__((noinline)) void mark(void)
{
    __asm__ volatile("" : : : "memory");
}

#define COUNT(name, call)                                                                                              \
    do {                                                                                                               \
        puts(name);                                                                                                    \
        mark();                                                                                                        \
        (call);                                                                                                        \
        mark();                                                                                                        \
    } while (0)

/* As many regions, the last of which is the filtered MMIO page, and as many allowed ranges. */
static void fill_policy(uint64_t regions, uint64_t allowed)
{
    ritm_fresh_policy(&policy);
    for (uint64_t k = 1; k < regions; k++) {
        ritm_handle_range(&policy, PAGE * k, PAGE, 1, 1);
    }
    ritm_handle_range(&policy, FILTERED_MMIO_BASE, PAGE, 1, 1);
    for (uint64_t k = 0; k < allowed; k++) {
        ritm_allow_range(&policy, 2 * FILTERED_MMIO_BASE + PAGE * k, PAGE, 0);
    }
}

static uint64_t trap(uint64_t esr, uint64_t address)
{
    return ritm_trap(&policy, &cores, 0, esr, address / PAGE, address, VBAR, &trapped);
}

static uint64_t reply(uint64_t kind)
{
    return ritm_reply(&cores, 0, kind, &values, 0);
}

static void count_traps(void)
{
    fill_policy(1, 0);
    COUNT("trap_load_1", trap(ESR_LOAD, FILTERED_MMIO_BASE + 24));
    COUNT("trap_load_counter_1", trap(ESR_LOAD, FILTERED_MMIO_BASE + 16));
    ritm_write_gpr(&cores, 0, 5, STORE_VALUE);
    COUNT("trap_store_1", trap(ESR_STORE, FILTERED_MMIO_BASE + 8));
    COUNT("trap_injected_1", trap(ESR_LOAD, FILTERED_MMIO_BASE + PAGE));
    fill_policy(16, 0);
    COUNT("trap_load_16", trap(ESR_LOAD, FILTERED_MMIO_BASE + 24));
    COUNT("trap_injected_16", trap(ESR_LOAD, FILTERED_MMIO_BASE + PAGE));
    ritm_fresh_policy(&policy);
    ritm_handle_range(&policy, FILTERED_MMIO_BASE, PAGE, RITM_HANDLER_ABSENT, RITM_HANDLER_ABSENT);
    COUNT("trap_quiet_load", trap(ESR_LOAD, FILTERED_MMIO_BASE + 24));
    COUNT("trap_quiet_store", trap(ESR_STORE, FILTERED_MMIO_BASE + 8));
}

static void count_calls(void)
{
    ritm_write_gpr(&cores, 0, 0, PLATFORM_CALL);
    COUNT("trap_platform", trap(ESR_HVC, 0));
    COUNT("reply_4", reply(RITM_REPLY_SUCCESS));
    ritm_write_gpr(&cores, 0, 0, PLATFORM_CALL);
    trap(ESR_HVC, 0);
    COUNT("reply_18", reply(RITM_REPLY_SUCCESS_LARGE));
    ritm_write_gpr(&cores, 0, 0, FIRMWARE_CALL);
    COUNT("trap_firmware", trap(ESR_SMC, 0));
    COUNT("reply_1", reply(RITM_REPLY_VALUE));
    COUNT("save", ritm_save(&cores, 0, &registers));
    COUNT("read_gpr_5", ritm_read_gpr(&cores, 0, 5, &word));
    COUNT("write_gpr_5", ritm_write_gpr(&cores, 0, 5, 1));
}

static void count_policy(void)
{
    fill_policy(16, 0);
    COUNT("find_last_16", ritm_find(&policy, FILTERED_MMIO_BASE, &found));
    fill_policy(1, 0);
    COUNT("find_last_1", ritm_find(&policy, FILTERED_MMIO_BASE, &found));
    COUNT("handle_below_1", ritm_handle_range(&policy, 8 * PAGE, PAGE, 1, 1));
    fill_policy(16, 31);
    COUNT("allow_31_16", ritm_allow_range(&policy, 4 * FILTERED_MMIO_BASE, PAGE, 0));
    fill_policy(16, 32);
    COUNT("release_none", ritm_release_range(&policy, 4 * FILTERED_MMIO_BASE, PAGE));
    COUNT("release_range", ritm_release_range(&policy, 2 * FILTERED_MMIO_BASE, PAGE));
    fill_policy(16, 32);
    COUNT("release_region", ritm_release_range(&policy, PAGE, PAGE));
    COUNT("fresh_policy", ritm_fresh_policy(&policy));
    ritm_allow_range(&policy, PAGE, PAGE, 0);
    COUNT("allow_1", ritm_allow_range(&policy, 4 * PAGE, PAGE, 0));
}

static void count_map_and_parts(void)
{
    ritm_insert(&map, 1, 2, 3);
    COUNT("insert_1", ritm_insert(&map, 2, 3, 4));
    COUNT("get_1", ritm_get(&map, 1, &entry));
    COUNT("remove_1", ritm_remove(&map, 1, &entry));
    COUNT("fresh_map", ritm_fresh_map(&map));
    COUNT("decode", ritm_decode(ISS(ESR_LOAD), 0xf000, 0x10, &access_result));
    COUNT("extend", ritm_extend_read_result(ISS(ESR_LOAD), 1, &word));
    COUNT("align_down", ritm_align_down_to_page(4097, &word));
    COUNT("align_up", ritm_align_up_to_page(4097, &word));
}

static int count_import(const char *name)
{
    FILE *file = fopen(name, "rb");
    if (file == NULL) {
        perror(name);
        return 1;
    }
    const size_t length = fread(blob, 1, sizeof blob, file);
    fclose(file);
    uint64_t number = 0;
    ritm_fresh_policy(&policy);
    COUNT("import", number = ritm_import_memory(&policy, blob, length, 0));
    return number != RITM_ACCEPTED;
}

int main(int argc, char **argv)
{
    count_traps();
    count_calls();
    count_policy();
    count_map_and_parts();
    COUNT("fresh_cores", ritm_fresh_cores(&cores));
    return count_import(argc > 1 ? argv[1] : "");
}
