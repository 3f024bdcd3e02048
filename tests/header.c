/*
 * Compares the numbers of include/ritm.h with what the archive does. Each row of the table below has a number of the
 * header, or a sum of such numbers where a word is placed by it, and an observation of the same number in the archive:
 * what a call returns, or where it leaves a word that is known.
 */
#include <inttypes.h>
#include <stdio.h>
#include <string.h>

#include "ritm.h"

#define PAGE UINT64_C(0x1000)

/* A buffer of a struct type has its size, and stands at a multiple of 8. */
#define IS_A_BUFFER(type, size) _Static_assert(sizeof(struct type) == (size) && _Alignof(struct type) == 8, #type)
IS_A_BUFFER(ritm_policy, RITM_POLICY_SIZE);
IS_A_BUFFER(ritm_cores, RITM_CORES_SIZE);
IS_A_BUFFER(ritm_suspend_map, RITM_MAP_SIZE);
IS_A_BUFFER(ritm_registers, RITM_REGISTERS_SIZE);
IS_A_BUFFER(ritm_values, RITM_VALUES_SIZE);
IS_A_BUFFER(ritm_trap_result, RITM_TRAP_RESULT_SIZE);
IS_A_BUFFER(ritm_find_result, RITM_FIND_RESULT_SIZE);
IS_A_BUFFER(ritm_entry_result, RITM_ENTRY_RESULT_SIZE);
IS_A_BUFFER(ritm_access_result, RITM_ACCESS_RESULT_SIZE);
IS_A_BUFFER(ritm_word_result, RITM_WORD_RESULT_SIZE);

/* What an observation gives where there is nothing to see. */
#define NOT_SEEN UINT64_MAX

/* A number, and how to observe it. */
struct row {
    const char *name;
    uint64_t number;
    uint64_t (*observe)(const uint64_t *arguments);
    uint64_t arguments[6];
};

/* The name and the number of a row. */
#define NAMED(number) #number, number

/* The place of a word among the words of a buffer. */
static uint64_t place_of(uint64_t word, const void *buffer, size_t size)
{
    for (size_t k = 0; k < size / 8; k++) {
        if (ritm_get_word(buffer, k) == word) {
            return k;
        }
    }
    return NOT_SEEN;
}

/* The size of a buffer by its number. */
static uint64_t size(const uint64_t *a)
{
    return ritm_buffer_size(a[0]);
}

/*
 * The policy. Allowed ranges and regions stand with a page between them.
 */

#define ALLOWED(k) (UINT64_C(0x100000) + 2 * PAGE * (k))
#define ATTRIBUTES(k) (UINT64_C(0xa00) + (k))
#define REGION(k) (UINT64_C(0x200000) + 4 * PAGE * (k))
#define REGION_SIZE (3 * PAGE)
#define APART UINT64_C(0x300000)

static void make_policy(struct ritm_policy *policy, uint64_t allowed, uint64_t regions, uint64_t read, uint64_t write)
{
    ritm_fresh_policy(policy);
    for (uint64_t k = 0; k < allowed; k++) {
        ritm_allow_range(policy, ALLOWED(k), PAGE, ATTRIBUTES(k));
    }
    for (uint64_t k = 0; k < regions; k++) {
        ritm_handle_range(policy, REGION(k), REGION_SIZE, read, write);
    }
}

/* Allows a range. Arguments: ranges and regions held, base, size. */
static uint64_t allow(const uint64_t *a)
{
    struct ritm_policy policy;
    make_policy(&policy, a[0], a[1], 0, 0);
    return ritm_allow_range(&policy, a[2], a[3], 0);
}

/* Handles a range. Arguments: ranges and regions held, base, size, handlers. */
static uint64_t handle(const uint64_t *a)
{
    struct ritm_policy policy;
    make_policy(&policy, a[0], a[1], 0, 0);
    return ritm_handle_range(&policy, a[2], a[3], a[4], a[5]);
}

/* Releases a range. Arguments: ranges and regions held, base, size. */
static uint64_t release(const uint64_t *a)
{
    struct ritm_policy policy;
    make_policy(&policy, a[0], a[1], 0, 0);
    return ritm_release_range(&policy, a[2], a[3]);
}

/* Puts the words of a devicetree, and gives the place after them. */
static uint8_t *put_big_endian(uint8_t *bytes, const uint32_t *words, size_t count)
{
    for (size_t i = 0; i < 4 * count; i++) {
        bytes[i] = (uint8_t)(words[i / 4] >> (24 - 8 * (i % 4)));
    }
    return bytes + 4 * count;
}

/* Imports memory of one pair. Arguments: ranges and regions held, base, size, the count of address cells. */
static uint64_t import(const uint64_t *a)
{
    /* The header with the reservations' end; the root with its cell counts; a node "m" with its type and its pair. */
    const uint32_t cells = (uint32_t)a[4];
    const uint32_t pair[] = {(uint32_t)(a[2] >> 32), (uint32_t)a[2], (uint32_t)(a[3] >> 32), (uint32_t)a[3]};
    const uint32_t header[] = {0xd00dfeed, 207, 56, 164, 40, 17, 16, 0, 43, 108, 0, 0, 0, 0};
    const uint32_t root[] = {1, 0, 3, 4, 0, cells, 3, 4, 15, 2};
    const uint32_t memory[] = {1, 0x6d000000, 3, 7, 27, 0x6d656d6f, 0x72790000};
    const uint32_t reg[] = {3, 16, 39, pair[0], pair[1], pair[2], pair[3]};
    const uint32_t ends[] = {2, 2, 9};
    static const char strings[] = "#address-cells\0#size-cells\0device_type\0reg";
    uint8_t blob[207];
    uint8_t *next = blob;
    struct ritm_policy policy;
    next = put_big_endian(next, header, 14);
    next = put_big_endian(next, root, 10);
    next = put_big_endian(next, memory, 7);
    next = put_big_endian(next, reg, 7);
    next = put_big_endian(next, ends, 3);
    memcpy(next, strings, sizeof strings);
    make_policy(&policy, a[0], a[1], 0, 0);
    return ritm_import_memory(&policy, blob, sizeof blob, 0);
}

/* How many numbers name a handler: the first that does not. */
static uint64_t known_handlers(const uint64_t *a)
{
    uint64_t number = 0;
    (void)a;
    while (handle((uint64_t[]){0, 0, APART, PAGE, number, number}) == RITM_ACCEPTED) {
        number++;
    }
    return number;
}

/* How much a policy holds when it is asked to hold this much, by the word of the count. */
static uint64_t held(const uint64_t *a)
{
    struct ritm_policy policy;
    make_policy(&policy, a[0], a[1], 0, 0);
    return ritm_get_word(&policy, (size_t)a[2]);
}

/* Where a policy of 3 ranges and 2 regions holds a word. Arguments: the word, the regions' handlers. */
static uint64_t policy_place(const uint64_t *a)
{
    struct ritm_policy policy;
    make_policy(&policy, 3, 2, a[1], a[2]);
    return place_of(a[0], &policy, sizeof policy);
}

/* Where the result of a search holds a word, for the address 5 above region 2. */
static uint64_t find_place(const uint64_t *a)
{
    struct ritm_policy policy;
    struct ritm_find_result found;
    make_policy(&policy, 0, 3, 0, 0);
    ritm_find(&policy, REGION(2) + 5, &found);
    return place_of(a[0], &found, sizeof found);
}

/*
 * The cores. Core 1 takes one trap after a save in which register word k holds SAVED(k), but for x0 where a call is
 * named, and 5, the register of loads and stores, where one is to be stored. SAVED(32), the SPSR, has the mode of EL1
 * on its own stack, 5, in bits 4:0. SAVED(0) is a yielding call, in which bit 16 is no hint: its identifier is its low
 * 32 bits. What the trap's result holds before is STALE.
 */

#define SAVED(k) (UINT64_C(0xf000000001010005) + (k))
#define SAVED_IDENTIFIER UINT64_C(0x01010005)
#define STALE 0xa5

/* Function identifiers, the last of a yielding call; and what may stand in x0 beside one: a bit of the upper half, and
   bit 16, a fast call's hint. */
#define FIRMWARE_CALL UINT64_C(0x84000000)
#define PLATFORM_CALL UINT64_C(0xff000000)
#define YIELDING_CALL UINT64_C(0x04000000)
#define UPPER_HALF UINT64_C(0x100000000)
#define SVE_HINT UINT64_C(0x10000)
#define HINTED (FIRMWARE_CALL | UPPER_HALF | SVE_HINT)
#define VBAR UINT64_C(0x80000)
#define FAR UINT64_C(0x7654000)

#define EC(ec) (UINT64_C(ec) << 26)
#define HVC EC(0x16)
#define SMC EC(0x17)
#define UNKNOWN EC(0x25)
#define LOAD_ISS UINT64_C(0x01c58000)
#define STORE_ISS (LOAD_ISS | UINT64_C(0x40))
#define LOAD (EC(0x24) | LOAD_ISS)
#define STORE (EC(0x24) | STORE_ISS)
#define WITHOUT_SYNDROME EC(0x24)
#define NO_TRAP UINT64_C(0)

/* Offsets in the filtered MMIO page: a word, with what it holds; the counter, where a store is taken, and where nothing
   is. */
#define WORD 0
#define FIRST_WORD UINT64_C(0xfeedfacecafebeef)
#define COUNTER 16
#define STORED 8
#define NO_WORD 48

struct machine {
    struct ritm_policy policy;
    struct ritm_cores cores;
    struct ritm_trap_result trapped;
};

static uint64_t trap_on(struct machine *machine, uint64_t core, uint64_t esr, uint64_t offset, uint64_t vbar)
{
    return ritm_trap(&machine->policy, &machine->cores, core, esr, REGION(0) / PAGE, FAR + offset, vbar,
                     &machine->trapped);
}

/* Core 1 after a trap. Arguments, here and below: its ESR, its offset in the filtered MMIO page, x0 or 0. */
static void make_machine(struct machine *machine, const uint64_t *trap)
{
    struct ritm_registers registers;
    memset(&machine->trapped, STALE, sizeof machine->trapped);
    for (size_t k = 0; k < RITM_REGISTERS_SIZE / 8; k++) {
        ritm_put_word(&registers, k, SAVED(k));
    }
    ritm_put_word(&registers, 0, trap[2] != 0 ? trap[2] : SAVED(0));
    if (trap[0] == STORE) {
        ritm_put_word(&registers, 5, UINT64_C(0x123456789abcdef0));
    }
    make_policy(&machine->policy, 0, 1, RITM_HANDLER_FILTERED_MMIO, RITM_HANDLER_FILTERED_MMIO);
    ritm_fresh_cores(&machine->cores);
    ritm_save(&machine->cores, 1, &registers);
    if (trap[0] != NO_TRAP) {
        trap_on(machine, 1, trap[0], trap[1], VBAR);
    }
}

/* A word of a trap's result. */
static uint64_t trap_word(const uint64_t *a, size_t word)
{
    struct machine machine;
    make_machine(&machine, a);
    return ritm_get_word(&machine.trapped, word);
}

/* A trap's kind. */
static uint64_t trap_kind(const uint64_t *a)
{
    return trap_word(a, RITM_TRAP_KIND);
}

/* The first value of a trap's result: a call's function identifier. */
static uint64_t identifier(const uint64_t *a)
{
    return trap_word(a, RITM_TRAP_VALUES);
}

/* A trap's hint. */
static uint64_t hint(const uint64_t *a)
{
    return trap_word(a, RITM_TRAP_HINT);
}

/* What core 1 waits for after a trap. */
static uint64_t wait_code(const uint64_t *a)
{
    struct machine machine;
    make_machine(&machine, a);
    return ritm_get_word(&machine.cores, RITM_CORE_WORDS + RITM_CORE_WAIT);
}

/* Where a trap's result holds a word. The fourth argument is the word. */
static uint64_t trap_place(const uint64_t *a)
{
    struct machine machine;
    make_machine(&machine, a);
    return place_of(a[3], &machine.trapped, sizeof machine.trapped);
}

/* Where the cores hold a word after a trap. The fourth argument is the word. */
static uint64_t core_place(const uint64_t *a)
{
    struct machine machine;
    make_machine(&machine, a);
    return place_of(a[3], &machine.cores, sizeof machine.cores);
}

/* Which word of a save's registers a word of core 1 came from. */
static uint64_t saved_place(const uint64_t *a)
{
    struct machine machine;
    make_machine(&machine, (uint64_t[]){NO_TRAP, 0, 0});
    return ritm_get_word(&machine.cores, (size_t)a[0]) - SAVED(0);
}

/* A second trap, a load where there is no word. The other arguments are its core, its ESR, its VBAR. */
static uint64_t second_trap(const uint64_t *a)
{
    struct machine machine;
    make_machine(&machine, a);
    return trap_on(&machine, a[3], a[4], NO_WORD, a[5]);
}

/* The hint in the result of a second trap, which is refused. Arguments as of second_trap. */
static uint64_t refused_hint(const uint64_t *a)
{
    struct machine machine;
    make_machine(&machine, a);
    return trap_on(&machine, a[3], a[4], NO_WORD, a[5]) == RITM_ACCEPTED
               ? NOT_SEEN
               : ritm_get_word(&machine.trapped, RITM_TRAP_HINT);
}

/* A reply after a trap. The other arguments are its core and its kind. */
static uint64_t reply(const uint64_t *a)
{
    static const struct ritm_values values;
    struct machine machine;
    make_machine(&machine, a);
    return ritm_reply(&machine.cores, a[3], a[4], &values, 0);
}

/* A reply with VALUE(k) and the error -7 leaves these in x0, x1, x4 and x17. */
#define VALUE(k) (UINT64_C(0x500) + (k))
#define ERROR_REGISTER UINT64_C(0xfffffffffffffff9)

/* The kind of reply to the platform's call that leaves these words in x0, x1, x4 and x17. */
static uint64_t reply_kind(const uint64_t *a)
{
    static const size_t places[] = {0, 1, 4, 17};
    struct ritm_values values;
    for (size_t k = 0; k < RITM_VALUES_COUNT; k++) {
        ritm_put_word(&values, k, VALUE(k));
    }
    for (uint64_t kind = 0; kind < 5; kind++) {
        struct machine machine;
        size_t equal = 0;
        make_machine(&machine, (uint64_t[]){HVC, 0, 0});
        ritm_reply(&machine.cores, 1, kind, &values, -7);
        for (size_t k = 0; k < 4; k++) {
            equal += ritm_get_word(&machine.cores, RITM_CORE_WORDS + places[k]) == a[k];
        }
        if (equal == 4) {
            return kind;
        }
    }
    return NOT_SEEN;
}

/* How many values a reply of this kind to the platform's call uses: those on which the cores then depend. */
static uint64_t values_used(const uint64_t *a)
{
    static const uint64_t call[] = {HVC, 0, 0};
    struct ritm_values values = {{0}};
    struct machine zeros;
    uint64_t used = 0;
    make_machine(&zeros, call);
    ritm_reply(&zeros.cores, 1, a[0], &values, 0);
    for (size_t k = 0; k < RITM_VALUES_COUNT; k++) {
        struct machine machine;
        make_machine(&machine, call);
        ritm_put_word(&values, k, VALUE(k));
        ritm_reply(&machine.cores, 1, a[0], &values, 0);
        ritm_put_word(&values, k, 0);
        used += memcmp(&machine.cores, &zeros.cores, sizeof zeros.cores) != 0;
    }
    return used;
}

/* The handler's code, as the policy's bytes hold it, whose region answers a load with this kind and leaves this word in
   its register. */
static uint64_t handler_code(const uint64_t *a)
{
    for (uint64_t code = 0; code < RITM_HANDLER_COUNT; code++) {
        struct machine machine;
        make_machine(&machine, (uint64_t[]){NO_TRAP, 0, 0});
        make_policy(&machine.policy, 0, 1, code, code);
        trap_on(&machine, 1, LOAD, WORD, VBAR);
        if (ritm_get_word(&machine.trapped, RITM_TRAP_KIND) == a[0] &&
            ritm_get_word(&machine.cores, RITM_CORE_WORDS + RITM_CORE_X + 5) == a[1]) {
            return ritm_get_word(&machine.policy, RITM_POLICY_REGIONS + RITM_REGION_READ);
        }
    }
    return NOT_SEEN;
}

/* Core 1's access where the filtered MMIO page has no word, through a region whose handlers have this code in the
   policy's bytes. Arguments, here and in the two below: the code, the ESR, VBAR. */
static uint64_t trap_through(struct machine *machine, const uint64_t *a)
{
    make_machine(machine, (uint64_t[]){NO_TRAP, 0, 0});
    ritm_put_word(&machine->policy, RITM_POLICY_REGIONS + RITM_REGION_READ, a[0]);
    ritm_put_word(&machine->policy, RITM_POLICY_REGIONS + RITM_REGION_WRITE, a[0]);
    return trap_on(machine, 1, a[1], NO_WORD, a[2]);
}

/* What such an access returns. */
static uint64_t through(const uint64_t *a)
{
    struct machine machine;
    return trap_through(&machine, a);
}

/* What it came to. */
static uint64_t kind_through(const uint64_t *a)
{
    struct machine machine;
    trap_through(&machine, a);
    return ritm_get_word(&machine.trapped, RITM_TRAP_KIND);
}

/* Reads a register. Arguments: core, index. */
static uint64_t read_gpr(const uint64_t *a)
{
    struct ritm_cores cores;
    struct ritm_word_result word;
    ritm_fresh_cores(&cores);
    return ritm_read_gpr(&cores, a[0], a[1], &word);
}

/* The first core that there is not. */
static uint64_t first_missing_core(const uint64_t *a)
{
    uint64_t core = a[0];
    while (read_gpr((uint64_t[]){core, 0}) == RITM_ACCEPTED) {
        core++;
    }
    return core;
}

/*
 * The suspend map: entry k has the key KEY(k).
 */

#define KEY(k) (UINT64_C(0x100) + (k))
#define ENTRY_POINT(k) (UINT64_C(0x200) + (k))
#define CONTEXT_ID(k) (UINT64_C(0x300) + (k))

/* Inserts as many entries as this, and gives the number of the first refusal or 0. */
static uint64_t fill_map(struct ritm_suspend_map *map, uint64_t entries)
{
    uint64_t number = RITM_ACCEPTED;
    ritm_fresh_map(map);
    for (uint64_t k = 0; k < entries && number == RITM_ACCEPTED; k++) {
        number = ritm_insert(map, KEY(k), ENTRY_POINT(k), CONTEXT_ID(k));
    }
    return number;
}

static uint64_t insert(const uint64_t *a)
{
    struct ritm_suspend_map map;
    return fill_map(&map, a[0]);
}

/* Where a map of two entries holds a word. */
static uint64_t map_place(const uint64_t *a)
{
    struct ritm_suspend_map map;
    fill_map(&map, 2);
    return place_of(a[0], &map, sizeof map);
}

/* Where the result of a look-up holds a word. */
static uint64_t entry_place(const uint64_t *a)
{
    struct ritm_suspend_map map;
    struct ritm_entry_result entry;
    fill_map(&map, 1);
    ritm_get(&map, KEY(0), &entry);
    return place_of(a[0], &entry, sizeof entry);
}

/*
 * Their parts.
 */

/* Where a decoded access holds a word. Arguments: the word, the ISS. */
static uint64_t access_place(const uint64_t *a)
{
    struct ritm_access_result access;
    ritm_decode((uint32_t)a[1], 1, 0, &access);
    return place_of(a[0], &access, sizeof access);
}

static uint64_t decode(const uint64_t *a)
{
    struct ritm_access_result access;
    return ritm_decode((uint32_t)a[0], 0, 0, &access);
}

static uint64_t align_up(const uint64_t *a)
{
    struct ritm_word_result word;
    return ritm_align_up_to_page(a[0], &word);
}

/* More than any list holds. */
#define MANY 40

/* ISV alone, and with WnR, with Rt 31, with SSE, with SF. */
#define ISV UINT64_C(0x01000000)
#define ISV_WNR (ISV | UINT64_C(0x40))
#define ISV_RT (ISV | UINT64_C(0x1f0000))
#define ISV_SSE (ISV | UINT64_C(0x200000))
#define ISV_SF (ISV | UINT64_C(0x8000))

static const struct row rows[] = {
    {NAMED(RITM_POLICY_SIZE), size, {RITM_BUFFER_POLICY}},
    {NAMED(RITM_CORES_SIZE), size, {RITM_BUFFER_CORES}},
    {NAMED(RITM_MAP_SIZE), size, {RITM_BUFFER_MAP}},
    {NAMED(RITM_REGISTERS_SIZE), size, {RITM_BUFFER_REGISTERS}},
    {NAMED(RITM_VALUES_SIZE), size, {RITM_BUFFER_VALUES}},
    {NAMED(RITM_TRAP_RESULT_SIZE), size, {RITM_BUFFER_TRAP_RESULT}},
    {NAMED(RITM_FIND_RESULT_SIZE), size, {RITM_BUFFER_FIND_RESULT}},
    {NAMED(RITM_ENTRY_RESULT_SIZE), size, {RITM_BUFFER_ENTRY_RESULT}},
    {NAMED(RITM_ACCESS_RESULT_SIZE), size, {RITM_BUFFER_ACCESS_RESULT}},
    {NAMED(RITM_WORD_RESULT_SIZE), size, {RITM_BUFFER_WORD_RESULT}},

    {NAMED(RITM_MAX_ALLOWED_RANGES), held, {MANY, 0, RITM_POLICY_ALLOWED_COUNT}},
    {NAMED(RITM_MAX_MEMORY_ACCESS_HANDLERS), held, {0, MANY, RITM_POLICY_REGION_COUNT}},
    {NAMED(RITM_MAX_CORES), first_missing_core, {0}},
    {NAMED(RITM_ACCEPTED), insert, {RITM_MAX_SUSPENDED_CORES}},
    {NAMED(RITM_CAPACITY_EXCEEDED), insert, {RITM_MAX_SUSPENDED_CORES + 1}},

    {NAMED(RITM_RANGE_BASE_NOT_PAGE_ALIGNED), allow, {0, 0, 1, 0}},
    {NAMED(RITM_EMPTY_RANGE), allow, {0, 0, APART, 0}},
    {NAMED(RITM_RANGE_SIZE_NOT_PAGE_MULTIPLE), allow, {0, 0, APART, 1}},
    {NAMED(RITM_RANGE_END_OVERFLOW), allow, {0, 0, UINT64_MAX - 0xfff, PAGE}},
    {NAMED(RITM_TOO_MANY_ALLOWED_RANGES), allow, {MANY, 0, APART, PAGE}},
    {NAMED(RITM_ALLOWED_RANGE_OVERLAP), allow, {2, 0, ALLOWED(1), PAGE}},
    {NAMED(RITM_ALLOWED_RANGE_OVERLAPS_MEMORY_ACCESS_HANDLER), allow, {2, 2, REGION(1), PAGE}},
    {NAMED(RITM_TOO_MANY_MEMORY_ACCESS_HANDLER_REGIONS), handle, {0, MANY, APART, PAGE, 1, 1}},
    {NAMED(RITM_MEMORY_ACCESS_HANDLER_RANGE_OVERLAP), handle, {2, 2, REGION(1), PAGE, 1, 1}},
    {NAMED(RITM_NO_SUCH_CORE), second_trap, {NO_TRAP, 0, 0, 8, LOAD, VBAR}},
    {NAMED(RITM_CORE_WAITING), second_trap, {HVC, 0, 0, 1, LOAD, VBAR}},
    {NAMED(RITM_UNEXPECTED_EXCEPTION_CLASS), second_trap, {NO_TRAP, 0, 0, 1, UNKNOWN, VBAR}},
    {NAMED(RITM_NO_GUEST_VECTOR), second_trap, {NO_TRAP, 0, 0, 1, LOAD, 0}},
    {NAMED(RITM_NOTHING_WAITING), reply, {LOAD, WORD, 0, 1, RITM_REPLY_VALUE}},
    {NAMED(RITM_UNKNOWN_REPLY_KIND), reply, {SMC, 0, FIRMWARE_CALL, 1, RITM_REPLY_SUCCESS}},
    {NAMED(RITM_UNKNOWN_REPLY_KIND), reply, {SMC, 0, FIRMWARE_CALL | UPPER_HALF, 1, RITM_REPLY_SUCCESS}},
    {NAMED(RITM_ACCEPTED), reply, {SMC, 0, FIRMWARE_CALL | UPPER_HALF, 1, RITM_REPLY_VALUE}},
    {NAMED(RITM_NO_SUCH_REGISTER), read_gpr, {0, 32}},
    {NAMED(RITM_NO_PAGE_ABOVE), align_up, {UINT64_MAX}},
    {NAMED(RITM_NO_SYNDROME), decode, {0}},
    {NAMED(RITM_UNKNOWN_MEMORY_HANDLER), handle, {0, 0, APART, PAGE, 1, RITM_HANDLER_COUNT}},
    {NAMED(RITM_UNKNOWN_MEMORY_HANDLER), handle, {0, 0, APART, PAGE, RITM_HANDLER_COUNT, 1}},
    {NAMED(RITM_UNKNOWN_MEMORY_HANDLER), handle, {0, 0, 1, 0, 0, UINT64_MAX}},
    {NAMED(RITM_RANGE_BASE_NOT_PAGE_ALIGNED), handle, {0, 0, 1, 0, RITM_HANDLER_FAULT, RITM_HANDLER_FAULT}},

    {NAMED(RITM_ACCEPTED), import, {0, 0, APART, PAGE, 2}},
    {NAMED(RITM_RANGE_BASE_NOT_PAGE_ALIGNED), import, {0, 0, 1, 0, 2}},
    {NAMED(RITM_EMPTY_RANGE), import, {0, 0, APART, 0, 2}},
    {NAMED(RITM_RANGE_SIZE_NOT_PAGE_MULTIPLE), import, {0, 0, APART, 1, 2}},
    {NAMED(RITM_RANGE_END_OVERFLOW), import, {0, 0, UINT64_MAX - 0xfff, PAGE, 2}},
    {NAMED(RITM_TOO_MANY_ALLOWED_RANGES), import, {MANY, 0, APART, PAGE, 2}},
    {NAMED(RITM_ALLOWED_RANGE_OVERLAP), import, {2, 0, ALLOWED(1), PAGE, 2}},
    {NAMED(RITM_ALLOWED_RANGE_OVERLAPS_MEMORY_ACCESS_HANDLER), import, {2, 2, REGION(1), PAGE, 2}},
    {NAMED(RITM_INVALID_DEVICETREE), import, {0, 0, APART, PAGE, 1}},
    {NAMED(RITM_UNSUPPORTED_CELL_COUNTS), import, {0, 0, APART, PAGE, 3}},

    {NAMED(RITM_ACCEPTED), release, {2, 2, ALLOWED(1), PAGE}},
    {NAMED(RITM_ACCEPTED), release, {2, 2, REGION(1), REGION_SIZE}},
    {NAMED(RITM_RANGE_BASE_NOT_PAGE_ALIGNED), release, {0, 0, 1, 0}},
    {NAMED(RITM_EMPTY_RANGE), release, {0, 0, APART, 0}},
    {NAMED(RITM_RANGE_SIZE_NOT_PAGE_MULTIPLE), release, {0, 0, APART, 1}},
    {NAMED(RITM_RANGE_END_OVERFLOW), release, {0, 0, UINT64_MAX - 0xfff, PAGE}},
    {NAMED(RITM_RANGE_NOT_HELD), release, {2, 2, APART, PAGE}},
    {NAMED(RITM_RANGE_NOT_HELD), release, {2, 2, REGION(1), PAGE}},

    {NAMED(RITM_HANDLER_COUNT), known_handlers, {0}},
    {NAMED(RITM_HANDLER_ABSENT), handler_code, {RITM_TRAP_LOAD_HANDLED, 0}},
    {NAMED(RITM_HANDLER_FILTERED_MMIO), handler_code, {RITM_TRAP_LOAD_HANDLED, FIRST_WORD}},
    {NAMED(RITM_HANDLER_FAULT), handler_code, {RITM_TRAP_ABORT_INJECTED, SAVED(5)}},

    {NAMED(RITM_ACCEPTED), through, {RITM_HANDLER_ABSENT, LOAD, 0}},
    {NAMED(RITM_ACCEPTED), through, {RITM_HANDLER_ABSENT, STORE, 0}},
    {NAMED(RITM_NO_GUEST_VECTOR), through, {RITM_HANDLER_ABSENT, WITHOUT_SYNDROME, 0}},
    {NAMED(RITM_NO_GUEST_VECTOR), through, {RITM_HANDLER_FAULT, LOAD, 0}},
    {NAMED(RITM_NO_GUEST_VECTOR), through, {RITM_HANDLER_FAULT, STORE, 0}},
    {NAMED(RITM_TRAP_LOAD_HANDLED), kind_through, {RITM_HANDLER_ABSENT, LOAD, 0}},
    {NAMED(RITM_TRAP_STORE_HANDLED), kind_through, {RITM_HANDLER_ABSENT, STORE, 0}},
    {NAMED(RITM_TRAP_ABORT_INJECTED), kind_through, {RITM_HANDLER_ABSENT, WITHOUT_SYNDROME, VBAR}},
    {NAMED(RITM_TRAP_ABORT_INJECTED), kind_through, {RITM_HANDLER_FAULT, STORE, VBAR}},
    {NAMED(RITM_TRAP_ABORT_INJECTED), kind_through, {RITM_HANDLER_COUNT, LOAD, VBAR}},
    {NAMED(RITM_TRAP_ABORT_INJECTED), kind_through, {RITM_HANDLER_COUNT, STORE, VBAR}},
    {NAMED(RITM_TRAP_ABORT_INJECTED), kind_through, {UINT64_MAX, LOAD, VBAR}},
    {NAMED(RITM_TRAP_ABORT_INJECTED), kind_through, {UINT64_MAX, STORE, VBAR}},

    {NAMED(RITM_WAIT_NOTHING), wait_code, {LOAD, WORD}},
    {NAMED(RITM_WAIT_HVC_FIRMWARE), wait_code, {HVC, 0, FIRMWARE_CALL}},
    {NAMED(RITM_WAIT_HVC_PLATFORM), wait_code, {HVC}},
    {NAMED(RITM_WAIT_SMC_FIRMWARE), wait_code, {SMC, 0, FIRMWARE_CALL}},
    {NAMED(RITM_WAIT_SMC_PLATFORM), wait_code, {SMC}},
    {NAMED(RITM_WAIT_HVC_FIRMWARE), wait_code, {HVC, 0, FIRMWARE_CALL | SVE_HINT}},
    {NAMED(RITM_WAIT_SMC_FIRMWARE), wait_code, {SMC, 0, FIRMWARE_CALL | UPPER_HALF}},

    {NAMED(RITM_TRAP_REFUSED), trap_kind, {UNKNOWN}},
    {NAMED(RITM_TRAP_LOAD_HANDLED), trap_kind, {LOAD, WORD}},
    {NAMED(RITM_TRAP_STORE_HANDLED), trap_kind, {STORE, STORED}},
    {NAMED(RITM_TRAP_ABORT_INJECTED), trap_kind, {LOAD, NO_WORD}},
    {NAMED(RITM_TRAP_TO_FIRMWARE), trap_kind, {HVC, 0, FIRMWARE_CALL}},
    {NAMED(RITM_TRAP_TO_PLATFORM), trap_kind, {HVC}},
    {NAMED(RITM_TRAP_TO_FIRMWARE), trap_kind, {SMC, 0, UINT64_C(0xc400001f) | UPPER_HALF | SVE_HINT}},
    {NAMED(RITM_TRAP_TO_PLATFORM), trap_kind, {SMC, 0, UINT64_C(0xc4000020) | UPPER_HALF | SVE_HINT}},

    {NAMED(RITM_REPLY_UNHANDLED), reply_kind, {UINT64_MAX, SAVED(1), SAVED(4), SAVED(17)}},
    {NAMED(RITM_REPLY_VALUE), reply_kind, {VALUE(0), 0, SAVED(4), SAVED(17)}},
    {NAMED(RITM_REPLY_SUCCESS), reply_kind, {VALUE(0), VALUE(1), SAVED(4), SAVED(17)}},
    {NAMED(RITM_REPLY_SUCCESS_LARGE), reply_kind, {VALUE(0), VALUE(1), VALUE(4), VALUE(17)}},
    {NAMED(RITM_REPLY_ERROR), reply_kind, {ERROR_REGISTER, SAVED(1), SAVED(4), SAVED(17)}},

    {"the number of values that RITM_REPLY_UNHANDLED uses", 0, values_used, {RITM_REPLY_UNHANDLED}},
    {"the number of values that RITM_REPLY_VALUE uses", 1, values_used, {RITM_REPLY_VALUE}},
    {"the number of values that RITM_REPLY_SUCCESS uses", 4, values_used, {RITM_REPLY_SUCCESS}},
    {NAMED(RITM_VALUES_COUNT), values_used, {RITM_REPLY_SUCCESS_LARGE}},
    {"the number of values that RITM_REPLY_ERROR uses", 0, values_used, {RITM_REPLY_ERROR}},

    {NAMED(RITM_POLICY_ALLOWED + RITM_ALLOWED_BASE), policy_place, {ALLOWED(0)}},
    {NAMED(RITM_POLICY_ALLOWED + RITM_ALLOWED_SIZE), policy_place, {PAGE}},
    {NAMED(RITM_POLICY_ALLOWED + RITM_ALLOWED_WORDS + RITM_ALLOWED_END), policy_place, {ALLOWED(1) + PAGE}},
    {NAMED(RITM_POLICY_ALLOWED + RITM_ALLOWED_WORDS + RITM_ALLOWED_ATTRIBUTES), policy_place, {ATTRIBUTES(1)}},
    {NAMED(RITM_POLICY_ALLOWED_COUNT), policy_place, {3}},
    {NAMED(RITM_POLICY_REGIONS + RITM_REGION_BASE), policy_place, {REGION(0)}},
    {NAMED(RITM_POLICY_REGIONS + RITM_REGION_SIZE), policy_place, {REGION_SIZE}},
    {NAMED(RITM_POLICY_REGIONS + RITM_REGION_WORDS + RITM_REGION_END), policy_place, {REGION(1) + REGION_SIZE}},
    {NAMED(RITM_POLICY_REGIONS + RITM_REGION_READ), policy_place, {1, 1, 0}},
    {NAMED(RITM_POLICY_REGIONS + RITM_REGION_WRITE), policy_place, {1, 0, 1}},
    {NAMED(RITM_POLICY_REGION_COUNT), policy_place, {2}},

    {NAMED(RITM_CORE_WORDS + RITM_CORE_X), core_place, {LOAD, NO_WORD, 0, SAVED(0)}},
    {NAMED(RITM_CORE_WORDS + RITM_CORE_ELR), core_place, {LOAD, NO_WORD, 0, VBAR + 0x200}},
    {NAMED(RITM_CORE_WORDS + RITM_CORE_SPSR), core_place, {LOAD, NO_WORD, 0, 0x3c5}},
    {NAMED(RITM_CORE_WORDS + RITM_CORE_ELR_EL1), core_place, {LOAD, NO_WORD, 0, SAVED(31)}},
    {NAMED(RITM_CORE_WORDS + RITM_CORE_SPSR_EL1), core_place, {LOAD, NO_WORD, 0, SAVED(32)}},
    {NAMED(RITM_CORE_WORDS + RITM_CORE_FAR_EL1), core_place, {LOAD, NO_WORD, 0, FAR + NO_WORD}},
    {NAMED(RITM_CORE_WORDS + RITM_CORE_ESR_EL1), core_place, {LOAD, NO_WORD, 0, EC(0x25) | LOAD_ISS}},
    {NAMED(RITM_CORE_WORDS + RITM_CORE_WAIT), core_place, {SMC, 0, 0, RITM_WAIT_SMC_PLATFORM}},
    {NAMED(RITM_CORES_COUNTER), core_place, {LOAD, COUNTER, 0, 1}},

    {NAMED(RITM_REGISTERS_X), saved_place, {RITM_CORE_WORDS + RITM_CORE_X}},
    {NAMED(RITM_REGISTERS_ELR), saved_place, {RITM_CORE_WORDS + RITM_CORE_ELR}},
    {NAMED(RITM_REGISTERS_SPSR), saved_place, {RITM_CORE_WORDS + RITM_CORE_SPSR}},
    {NAMED(RITM_TRAP_KIND), trap_place, {HVC, 0, 0, RITM_TRAP_TO_PLATFORM}},
    {NAMED(RITM_TRAP_VALUES), trap_place, {HVC, 0, 0, SAVED_IDENTIFIER}},
    {NAMED(RITM_TRAP_VALUES + 3), trap_place, {SMC, 0, FIRMWARE_CALL | UPPER_HALF, SAVED(3)}},
    {NAMED(RITM_TRAP_VALUES + RITM_VALUES_COUNT - 1), trap_place, {HVC, 0, 0, SAVED(17)}},
    {NAMED(RITM_TRAP_HINT), trap_place, {HVC, 0, PLATFORM_CALL | SVE_HINT, 1}},

    {"the identifier of 0x184000000", FIRMWARE_CALL, identifier, {SMC, 0, FIRMWARE_CALL | UPPER_HALF}},
    {"the identifier of 0x84010000", FIRMWARE_CALL, identifier, {HVC, 0, FIRMWARE_CALL | SVE_HINT}},
    {"the identifier of 0x1ff010000", PLATFORM_CALL, identifier, {HVC, 0, PLATFORM_CALL | UPPER_HALF | SVE_HINT}},
    {"the identifier of 2^64 - 1", UINT64_C(0xfffeffff), identifier, {SMC, 0, UINT64_MAX}},
    {"the identifier of 2^31 - 1", UINT64_C(0x7fffffff), identifier, {SMC, 0, UINT64_C(0x7fffffff)}},
    {"the identifier of a yielding call", SAVED_IDENTIFIER, identifier, {SMC, 0, SAVED(0)}},
    {"the place of x0 in a core that calls", RITM_CORE_WORDS + RITM_CORE_X, core_place, {HVC, 0, HINTED, HINTED}},

    {"the hint of 0x184000000", 0, hint, {SMC, 0, FIRMWARE_CALL | UPPER_HALF}},
    {"the hint of 0x84010000", 1, hint, {HVC, 0, FIRMWARE_CALL | SVE_HINT}},
    {"the hint of 0x1ff010000", 1, hint, {HVC, 0, PLATFORM_CALL | UPPER_HALF | SVE_HINT}},
    {"the hint of 2^64 - 1", 1, hint, {SMC, 0, UINT64_MAX}},
    {"the hint of 2^31 - 1", 0, hint, {SMC, 0, UINT64_C(0x7fffffff)}},
    {"the hint of a yielding call", 0, hint, {SMC, 0, SAVED(0)}},
    {"the hint of a load", 0, hint, {LOAD, WORD, HINTED}},
    {"the hint of a store", 0, hint, {STORE, STORED, HINTED}},
    {"the hint of an injected abort", 0, hint, {LOAD, NO_WORD, HINTED}},
    {"the hint beside RITM_NO_SUCH_CORE", 0, refused_hint, {NO_TRAP, 0, HINTED, 8, HVC, VBAR}},
    {"the hint beside RITM_CORE_WAITING", 0, refused_hint, {HVC, 0, HINTED, 1, HVC, VBAR}},
    {"the hint beside RITM_UNEXPECTED_EXCEPTION_CLASS", 0, refused_hint, {NO_TRAP, 0, HINTED, 1, UNKNOWN, VBAR}},
    {"the hint beside RITM_NO_GUEST_VECTOR", 0, refused_hint, {NO_TRAP, 0, HINTED, 1, LOAD, 0}},

    {NAMED(RITM_MAP_TAKEN), map_place, {1}},
    {NAMED(RITM_MAP_WORDS + RITM_MAP_KEY), map_place, {KEY(1)}},
    {NAMED(RITM_MAP_WORDS + RITM_MAP_ENTRY_POINT), map_place, {ENTRY_POINT(1)}},
    {NAMED(RITM_MAP_WORDS + RITM_MAP_CONTEXT_ID), map_place, {CONTEXT_ID(1)}},

    {NAMED(RITM_FIND_FOUND), find_place, {1}},
    {NAMED(RITM_FIND_INDEX), find_place, {2}},
    {NAMED(RITM_FIND_OFFSET), find_place, {5}},
    {NAMED(RITM_ENTRY_FOUND), entry_place, {1}},
    {NAMED(RITM_ENTRY_ENTRY_POINT), entry_place, {ENTRY_POINT(0)}},
    {NAMED(RITM_ENTRY_CONTEXT_ID), entry_place, {CONTEXT_ID(0)}},
    {NAMED(RITM_ACCESS_IPA), access_place, {PAGE, ISV}},
    {NAMED(RITM_ACCESS_WIDTH), access_place, {8, ISV}},
    {NAMED(RITM_ACCESS_WNR), access_place, {1, ISV_WNR}},
    {NAMED(RITM_ACCESS_RT), access_place, {31, ISV_RT}},
    {NAMED(RITM_ACCESS_SSE), access_place, {1, ISV_SSE}},
    {NAMED(RITM_ACCESS_SF), access_place, {1, ISV_SF}},
};

int main(void)
{
    const size_t count = sizeof rows / sizeof rows[0];
    size_t differing = 0;
    for (size_t k = 0; k < count; k++) {
        const uint64_t observed = rows[k].observe(rows[k].arguments);
        if (observed != rows[k].number) {
            fprintf(stderr, "header: %s is %" PRIu64 ", and the archive has %" PRIu64 "\n", rows[k].name,
                    rows[k].number, observed);
            differing++;
        }
    }
    if (differing > 0) {
        return 1;
    }
    printf("header: %zu numbers agree\n", count);
    return 0;
}
