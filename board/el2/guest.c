/*
 * The guest at EL1: it makes accesses and calls that trap, and checks what it gets against what Arm's documents and
 * document 01 say that it should get. It prints what it is about to do, and each check that failed.
 */
#include "board.h"
#include "console.h"
#include "ritm.h"
#include "syndrome.h"

#define LENGTH(array) (sizeof(array) / sizeof(array)[0])

/* PSTATE of the guest: flags by each probe's comparison, debug and SError masked, and the mode. */
#define FLAGS UINT64_C(0x60000000)
#define MASKS UINT64_C(0x300)
#define EL1H UINT64_C(5)
#define EL1T UINT64_C(4)
#define EL0T UINT64_C(0)
#define EL0_AARCH32 UINT64_C(0x10)

/* PSTATE when an injected abort arrives: all masked, EL1h. */
#define PSTATE_INJECTED UINT64_C(0x3c5)

/* The word at offset 0 of the filtered MMIO page, and what offset 8 takes. */
#define FIRST_WORD UINT64_C(0xfeedfacecafebeef)
#define STORE_VALUE UINT64_C(0x123456789abcdef0)
#define COUNTER_ADDRESS (FILTERED_MMIO_BASE + 16)

/* An access, which gives what its register holds afterwards; and a way to make one from another mode. */
typedef uint64_t probe(uint64_t address, uint64_t value);
typedef uint64_t way(uint64_t address, uint64_t value, probe *);

/* guest_start.S */
extern char guest_vectors[];
probe load_u8, load_u16, load_u32, load_64, load_s8_to_32, load_s16_to_32, load_s8_to_64, load_s16_to_64,
    load_s32_to_64, load_acquire, load_unscaled, load_unprivileged, load_register_offset, load_exclusive,
    load_post_index, load_pair, store_8, store_16, store_32, store_64, store_zero, store_release, store_pair, branch;
way at_el1t, at_el0, at_el0_aarch32;
uint64_t access_in_a_row(uint64_t loads, uint64_t stores);
void call_hvc(uint64_t *x), call_hvc_immediate(uint64_t *x), call_smc(uint64_t *x), call_smc_immediate(uint64_t *x);
extern void (*const loads_into[32])(uint64_t address, uint64_t *registers);
void _start(void);

/* The last exception at EL1, as its vector found it. */
struct seen {
    uint64_t count;
    uint64_t vector;
    uint64_t esr;
    uint64_t elr;
    uint64_t far;
    uint64_t spsr;
    uint64_t pstate;
};
volatile struct seen seen;

static uint64_t checks;
static uint64_t failures;

/* What the next load of the counter word gives. */
static uint64_t counter;

static void say(const char *what)
{
    struct line line = {.length = 0};
    add(&line, "guest: ");
    add(&line, what);
    print_line(&line);
}

static void expect(const char *what, uint64_t got, uint64_t expected)
{
    checks++;
    if (got != expected) {
        print_difference("guest", what, got, expected);
        failures++;
    }
}

static uint64_t access_of(probe *probe)
{
    return (uint64_t)probe + 12;
}

/* How many bytes a probe loads or stores. */
static uint64_t size_of(probe *probe)
{
    return UINT64_C(1) << (*(const uint32_t *)access_of(probe) >> 30);
}

/* The access is served, and gives this. */
static void expect_served(probe *probe, uint64_t address, uint64_t value, uint64_t result)
{
    const uint64_t count = seen.count;
    expect("Rt", probe(address, value), result);
    expect("exceptions", seen.count - count, 0);
}

/* The access ends in an abort as document 01 has it injected, with this fault status; Rt is as before. */
static void expect_abort(probe *probe, uint64_t address, uint64_t value, uint64_t status)
{
    const uint64_t count = seen.count;
    const uint64_t access = access_of(probe);
    expect("Rt", probe(address, value), value);
    expect("exceptions", seen.count - count, 1);
    expect("vector", seen.vector, 0x200);
    expect("ESR_EL1", seen.esr, ESR_EC(0x25) | ESR_IL | iss_of(*(const uint32_t *)access) | status);
    expect("ELR_EL1", seen.elr, access);
    expect("FAR_EL1", seen.far, address);
    expect("SPSR_EL1", seen.spsr, FLAGS | MASKS | EL1H);
    expect("PSTATE", seen.pstate, PSTATE_INJECTED);
}

/*
 * Accesses to the filtered MMIO page, and to what is no region.
 */

static void load_words(void)
{
    static const struct {
        uint64_t offset;
        uint64_t word;
    } words[] = {
        {0, FIRST_WORD},
        {24, UINT64_C(0x1111222233334444)},
        {32, UINT64_C(0x5555666677778888)},
        {40, UINT64_C(0x9999aaaabbbbcccc)},
    };
    say("64-bit loads of each word of the page");
    for (size_t i = 0; i < LENGTH(words); i++) {
        expect_served(load_64, FILTERED_MMIO_BASE + words[i].offset, 0, words[i].word);
    }
    expect_served(load_64, COUNTER_ADDRESS, 0, counter++);
    expect_served(load_64, COUNTER_ADDRESS, 0, counter++);
    expect_served(load_acquire, COUNTER_ADDRESS, 0, counter++);
    expect_served(load_unscaled, COUNTER_ADDRESS + 1, 0, counter++);
    expect_served(load_unprivileged, COUNTER_ADDRESS, 0, counter++);
    expect_served(load_register_offset, COUNTER_ADDRESS, 0, counter++);
    say("64-bit loads of no word of the page");
    expect_abort(load_64, FILTERED_MMIO_BASE + 8, 1, DFSC_TRANSLATION(3));
    expect_abort(load_64, FILTERED_MMIO_BASE + 48, 2, DFSC_TRANSLATION(3));
    expect_abort(load_64, FILTERED_MMIO_BASE + PAGE_SIZE - 8, 3, DFSC_TRANSLATION(3));
}

static probe *const narrow_loads[] = {load_u8,        load_u16,      load_u32,       load_s8_to_32,
                                      load_s16_to_32, load_s8_to_64, load_s16_to_64, load_s32_to_64};

static void load_parts(void)
{
    say("narrower loads of the page, none of which counts");
    for (size_t i = 0; i < LENGTH(narrow_loads); i++) {
        expect_abort(narrow_loads[i], COUNTER_ADDRESS, i, DFSC_TRANSLATION(3));
    }
    expect_served(load_64, COUNTER_ADDRESS, 0, counter++);
}

static void access_without_syndrome(void)
{
    say("loads and stores without a valid syndrome");
    expect_abort(load_pair, FILTERED_MMIO_BASE, 1, DFSC_TRANSLATION(3));
    expect_abort(load_post_index, FILTERED_MMIO_BASE, 2, DFSC_TRANSLATION(3));
    expect_abort(load_exclusive, FILTERED_MMIO_BASE, 3, DFSC_TRANSLATION(3));
    expect_abort(store_pair, FILTERED_MMIO_BASE + 8, STORE_VALUE, DFSC_TRANSLATION(3));
}

static void store_words(void)
{
    say("stores to the page");
    expect_served(store_64, FILTERED_MMIO_BASE + 8, STORE_VALUE, STORE_VALUE);
    expect_served(store_release, FILTERED_MMIO_BASE + 8, STORE_VALUE, STORE_VALUE);
    expect_abort(store_64, FILTERED_MMIO_BASE + 8, STORE_VALUE + 1, DFSC_TRANSLATION(3));
    expect_abort(store_64, COUNTER_ADDRESS, STORE_VALUE, DFSC_TRANSLATION(3));
    expect_abort(store_zero, FILTERED_MMIO_BASE + 8, STORE_VALUE, DFSC_TRANSLATION(3));
    expect_abort(store_8, FILTERED_MMIO_BASE + 8, STORE_VALUE, DFSC_TRANSLATION(3));
    expect_abort(store_16, FILTERED_MMIO_BASE + 8, STORE_VALUE, DFSC_TRANSLATION(3));
    expect_abort(store_32, FILTERED_MMIO_BASE + 8, STORE_VALUE, DFSC_TRANSLATION(3));
}

/* A load into a register gives this word, and leaves all others as they were. */
static void expect_loaded(size_t k, uint64_t address, uint64_t word)
{
    const size_t base = k == 6 ? 7 : 6;
    uint64_t registers[31];
    loads_into[k](address, registers);
    for (size_t i = 0; i < 31; i++) {
        expect("a register", registers[i], i == k ? word : i == base ? address : 0x100 + i);
    }
}

static void load_each_register(void)
{
    say("a load into each register, the zero register too");
    for (size_t k = 0; k < 32; k++) {
        expect_loaded(k, FILTERED_MMIO_BASE + 24, UINT64_C(0x1111222233334444));
    }
}

static void access_nowhere(void)
{
    say("accesses to what is neither allowed nor handled");
    expect_abort(load_64, NOWHERE, 1, DFSC_TRANSLATION(1));
    expect_abort(store_32, NOWHERE + 4, 2, DFSC_TRANSLATION(1));
    expect_abort(load_u8, HOST_ADDRESS, 3, DFSC_TRANSLATION(3));
    expect_abort(load_u8, HOST_ADDRESS + HOST_SIZE - 1, 4, DFSC_TRANSLATION(2));
}

/* A load from the host's own page and the same load from memory give the same. */
static void load_as_from_memory(void)
{
    static const uint64_t memory[] = {OWN_PAGE_WORD, OWN_PAGE_WORD};
    say("loads of each width and sign from the host's own page, as from memory");
    for (size_t i = 0; i < LENGTH(narrow_loads); i++) {
        for (uint64_t offset = 0; offset < 8; offset += size_of(narrow_loads[i])) {
            const uint64_t result = narrow_loads[i]((uint64_t)memory + offset, UINT64_MAX);
            expect_served(narrow_loads[i], OWN_PAGE_BASE + offset, UINT64_MAX, result);
        }
    }
    expect_served(load_64, OWN_PAGE_BASE, 0, OWN_PAGE_WORD);
}

/*
 * Pages that are handled in part. Each direction goes by its own handler: an absent one is quiet, whatever the width
 * and the offset, and a fault gives the abort.
 */

static probe *const stores[] = {store_8, store_16, store_32, store_64};

/* A load of the counter's offset gives 0 as any other, and does not count. */
static void load_quietly(void)
{
    say("quiet loads of each width and sign, at the counter's offset and at the page's end");
    for (size_t i = 0; i < LENGTH(narrow_loads); i++) {
        expect_served(narrow_loads[i], QUIET_LOADS_BASE + 16, UINT64_MAX, 0);
        expect_served(narrow_loads[i], QUIET_LOADS_BASE + PAGE_SIZE - size_of(narrow_loads[i]), UINT64_MAX, 0);
    }
    expect_served(load_64, QUIET_LOADS_BASE + 16, UINT64_MAX, 0);
    expect_served(load_64, QUIET_LOADS_BASE + PAGE_SIZE - 8, UINT64_MAX, 0);
    expect_served(load_acquire, QUIET_LOADS_BASE + 16, UINT64_MAX, 0);
    expect_served(load_unscaled, QUIET_LOADS_BASE + 17, UINT64_MAX, 0);
    expect_served(load_unprivileged, QUIET_LOADS_BASE + 16, UINT64_MAX, 0);
    expect_served(load_register_offset, QUIET_LOADS_BASE + 16, UINT64_MAX, 0);
    say("quiet loads into the first, the last and the zero register, and then the counter");
    expect_loaded(0, QUIET_LOADS_BASE + 16, 0);
    expect_loaded(30, QUIET_LOADS_BASE + 16, 0);
    expect_loaded(31, QUIET_LOADS_BASE + 16, 0);
    expect_served(load_64, COUNTER_ADDRESS, 0, counter++);
}

static void store_quietly(void)
{
    say("quiet stores of each width, at the counter's offset and at the page's end");
    for (size_t i = 0; i < LENGTH(stores); i++) {
        expect_served(stores[i], QUIET_STORES_BASE + 16, STORE_VALUE, STORE_VALUE);
        expect_served(stores[i], QUIET_STORES_BASE + PAGE_SIZE - size_of(stores[i]), STORE_VALUE, STORE_VALUE);
    }
    expect_served(store_zero, QUIET_STORES_BASE + 16, STORE_VALUE, STORE_VALUE);
    expect_served(store_release, QUIET_STORES_BASE + 16, STORE_VALUE, STORE_VALUE);
}

static void access_quietly_in_a_row(void)
{
    const uint64_t count = seen.count;
    say("two quiet loads and two quiet stores, each the next instruction");
    expect("accesses in a row", access_in_a_row(QUIET_LOADS_BASE, QUIET_STORES_BASE), 1);
    expect("exceptions", seen.count - count, 0);
}

static void access_faults(void)
{
    say("the same pages in the other direction, which is a fault at each width");
    for (size_t i = 0; i < LENGTH(narrow_loads); i++) {
        expect_abort(narrow_loads[i], QUIET_STORES_BASE + 16, i, DFSC_TRANSLATION(1));
    }
    expect_abort(load_64, QUIET_STORES_BASE + 16, 1, DFSC_TRANSLATION(1));
    for (size_t i = 0; i < LENGTH(stores); i++) {
        expect_abort(stores[i], QUIET_LOADS_BASE + 8, STORE_VALUE, DFSC_TRANSLATION(1));
    }
    say("accesses without a valid syndrome to quiet pages");
    expect_abort(load_pair, QUIET_LOADS_BASE, 1, DFSC_TRANSLATION(1));
    expect_abort(load_post_index, QUIET_LOADS_BASE, 2, DFSC_TRANSLATION(1));
    expect_abort(load_exclusive, QUIET_LOADS_BASE, 3, DFSC_TRANSLATION(1));
    expect_abort(store_pair, QUIET_STORES_BASE, STORE_VALUE, DFSC_TRANSLATION(1));
}

static void access_half_served(void)
{
    say("a page whose loads are the filtered MMIO page's, and whose stores are quiet");
    expect_served(load_64, HALF_SERVED_BASE + 16, 0, counter++);
    expect_abort(load_u32, HALF_SERVED_BASE + 16, 1, DFSC_TRANSLATION(1));
    expect_served(store_64, HALF_SERVED_BASE + 16, 2, 2);
    expect_served(load_64, HALF_SERVED_BASE + 16, 0, counter++);
}

static void load_quietly_by_origin(void)
{
    const uint64_t count = seen.count;
    say("quiet loads from EL1t and from EL0");
    expect("Rt", at_el1t(QUIET_LOADS_BASE, UINT64_MAX, load_u32), 0);
    expect("Rt", at_el0(QUIET_LOADS_BASE, UINT64_MAX, load_u32), 0);
    expect("exceptions", seen.count - count, 0);
}

/*
 * Calls.
 */

typedef void call(uint64_t *x);
static call *const calls[] = {call_hvc, call_hvc_immediate, call_smc, call_smc_immediate};

/* What may stand in x0 beside a function identifier (Arm DEN0028 from version 1.3 on): bits of the upper half, and in a
   fast call, with bit 31 set, the SVE hint. */
#define UPPER_HALF (UINT64_C(1) << 32)
#define SVE_HINT (UINT64_C(1) << 16)
#define YIELDING_CALL UINT64_C(0x04000000)

/* What xk holds before a call, but for x0 and x1: bits of both halves. */
#define REGISTER(k) (UINT64_C(0x100000000200) + (k))

/* The call gives this in x0; x1 to x3 are zero or as before, and the rest is as before. */
static void expect_call(call *call, uint64_t function, uint64_t argument, uint64_t result, int one_value)
{
    uint64_t x[18];
    for (size_t i = 0; i < 18; i++) {
        x[i] = REGISTER(i);
    }
    x[0] = function;
    x[1] = argument;
    call(x);
    expect("x0", x[0], result);
    expect("x1", x[1], one_value ? 0 : argument);
    for (size_t i = 2; i < 18; i++) {
        expect("x2 to x17", x[i], one_value && i < 4 ? 0 : REGISTER(i));
    }
}

static void make_calls(void)
{
    say("calls to the firmware and to the platform, by HVC and by SMC");
    for (size_t i = 0; i < LENGTH(calls); i++) {
        expect_call(calls[i], PSCI_VERSION, 0, 0x10001, 1);
        expect_call(calls[i], PSCI_FEATURES, PSCI_CPU_ON, 0, 1);
        expect_call(calls[i], PSCI_CPU_ON, 7, PSCI_INVALID_PARAMETERS, 1);
        expect_call(calls[i], TEST_CALL, 0, TEST_CALL_ANSWER, 1);
        expect_call(calls[i], UINT64_C(0xc5000000), 0, UINT64_MAX, 0);
    }
}

/* The platform knows no yielding call, whose bit 16 is part of its identifier. */
static void make_calls_by_identifier(void)
{
    say("calls with bits of the upper half of x0 set, and with bit 16, a fast call's hint");
    for (size_t i = 0; i < LENGTH(calls); i++) {
        expect_call(calls[i], PSCI_VERSION | UPPER_HALF, 0, 0x10001, 1);
        expect_call(calls[i], PSCI_VERSION | SVE_HINT, 0, 0x10001, 1);
        expect_call(calls[i], TEST_CALL | UPPER_HALF | SVE_HINT, 0, TEST_CALL_ANSWER, 1);
        expect_call(calls[i], YIELDING_CALL | UPPER_HALF | SVE_HINT, 0, UINT64_MAX, 0);
    }
}

static void set_silent(uint64_t silent)
{
    uint64_t x[18] = {SILENT_CALL, silent};
    call_hvc(x);
}

/*
 * Modules that come and go: the host changes its policy while the guest runs.
 */

/* The library gives this number. */
static void change_policy(uint64_t call, uint64_t base, uint64_t read, uint64_t write, uint64_t number)
{
    uint64_t x[18] = {call, base, read, write};
    call_hvc(x);
    expect("the answer to a change of the policy", x[0], number);
}

static void plug_in(uint64_t base, uint64_t read, uint64_t write)
{
    change_policy(HANDLE_CALL, base, read, write, RITM_ACCEPTED);
}

static void allow(uint64_t base, uint64_t number)
{
    change_policy(ALLOW_CALL, base, 0, 0, number);
}

static void pull_out(uint64_t base)
{
    change_policy(RELEASE_CALL, base, 0, 0, RITM_ACCEPTED);
}

static void expect_not_held(uint64_t base)
{
    change_policy(RELEASE_CALL, base, 0, 0, RITM_RANGE_NOT_HELD);
}

/* The pages above the module, whose regions move as it comes and goes. */
static void access_pages_above(void)
{
    expect_served(load_64, HALF_SERVED_BASE + 16, 0, counter++);
    expect_served(store_64, HALF_SERVED_BASE + 16, 2, 2);
    expect_served(load_64, QUIET_LOADS_BASE + 16, UINT64_MAX, 0);
    expect_abort(store_64, QUIET_LOADS_BASE + 16, 1, DFSC_TRANSLATION(1));
    expect_abort(load_64, QUIET_STORES_BASE + 16, 2, DFSC_TRANSLATION(1));
    expect_served(store_64, QUIET_STORES_BASE + 16, STORE_VALUE, STORE_VALUE);
}

static void change_modules(void)
{
    say("a module that is not plugged in yet");
    expect_abort(load_64, MODULE_BASE + 16, 1, DFSC_TRANSLATION(1));
    say("it is plugged in: its loads are the filtered MMIO page's, and its stores are quiet");
    plug_in(MODULE_BASE, RITM_HANDLER_FILTERED_MMIO, RITM_HANDLER_ABSENT);
    expect_served(load_64, MODULE_BASE + 16, 0, counter++);
    expect_served(store_64, MODULE_BASE + 16, 2, 2);
    access_pages_above();
    say("it is pulled out");
    pull_out(MODULE_BASE);
    expect_abort(load_64, MODULE_BASE + 16, 1, DFSC_TRANSLATION(1));
    expect_abort(store_64, MODULE_BASE + 16, 2, DFSC_TRANSLATION(1));
    expect_not_held(MODULE_BASE);
    access_pages_above();
    say("another in its place: its loads are quiet, and its stores a fault");
    plug_in(MODULE_BASE, RITM_HANDLER_ABSENT, RITM_HANDLER_FAULT);
    expect_served(load_64, MODULE_BASE + 16, UINT64_MAX, 0);
    expect_abort(store_64, MODULE_BASE + 16, 2, DFSC_TRANSLATION(1));
    pull_out(MODULE_BASE);
    say("the last page is pulled out, and plugged in again");
    pull_out(QUIET_STORES_BASE);
    expect_abort(store_64, QUIET_STORES_BASE + 16, 1, DFSC_TRANSLATION(1));
    plug_in(QUIET_STORES_BASE, RITM_HANDLER_FAULT, RITM_HANDLER_ABSENT);
    access_pages_above();
}

/* What is allowed is used without a trap. Of two pages the first goes, and in its place a quiet page comes. */
static void change_memory(void)
{
    const uint64_t second = MODULE_MEMORY + PAGE_SIZE;
    say("two pages of a module's memory are allowed, and used without a trap");
    expect_abort(load_64, MODULE_MEMORY, 1, DFSC_TRANSLATION(2));
    allow(MODULE_MEMORY, RITM_ACCEPTED);
    allow(second, RITM_ACCEPTED);
    expect_served(store_64, MODULE_MEMORY, STORE_VALUE, STORE_VALUE);
    expect_served(load_64, MODULE_MEMORY, 0, STORE_VALUE);
    expect_served(store_64, second, STORE_VALUE + 1, STORE_VALUE + 1);
    say("the first is pulled out; the second stays");
    pull_out(MODULE_MEMORY);
    expect_abort(load_64, MODULE_MEMORY, 1, DFSC_TRANSLATION(3));
    expect_served(load_64, second, 0, STORE_VALUE + 1);
    allow(second, RITM_ALLOWED_RANGE_OVERLAP);
    say("a quiet page in its place; and then none of them is left");
    plug_in(MODULE_MEMORY, RITM_HANDLER_ABSENT, RITM_HANDLER_ABSENT);
    expect_served(load_64, MODULE_MEMORY, UINT64_MAX, 0);
    allow(MODULE_MEMORY, RITM_ALLOWED_RANGE_OVERLAPS_MEMORY_ACCESS_HANDLER);
    pull_out(MODULE_MEMORY);
    pull_out(second);
    expect_abort(load_64, second, 1, DFSC_TRANSLATION(3));
    say("the first page of what is allowed as a whole, which is no range that is held");
    expect_not_held(FILTERED_MMIO_BASE + PAGE_SIZE);
}

/*
 * Aborts by where they come from: the core's own, in stage 1, and the injected one.
 */

static uint64_t direct(uint64_t address, uint64_t value, probe *probe)
{
    return probe(address, value);
}

static void print_abort(const char *origin, const char *whose)
{
    struct line line = {.length = 0};
    add(&line, "guest: from ");
    add(&line, origin);
    add(&line, whose);
    add_hex(&line, " abort at vector ", seen.vector);
    add_hex(&line, ", EC ", EC_OF(seen.esr));
    add_hex(&line, ", ISS ", seen.esr & ESR_ISS);
    add_hex(&line, ", SPSR_EL1 ", seen.spsr);
    add_hex(&line, ", PSTATE ", seen.pstate);
    print_line(&line);
}

/* The core's own abort is an alignment fault. */
static void abort_from(const char *origin, way *by, uint64_t vector, uint64_t ec, uint64_t mode)
{
    by(GUEST_ADDRESS + 1, 0, load_u32);
    print_abort(origin, ": the core's own");
    expect("the core's own vector", seen.vector, vector);
    expect("the core's own EC", EC_OF(seen.esr), ec);
    const uint64_t spsr = seen.spsr;
    by(FILTERED_MMIO_BASE, 0, load_u32);
    print_abort(origin, ": the injected");
    expect("the injected vector", seen.vector, 0x200);
    expect("the injected EC", EC_OF(seen.esr), 0x25);
    expect("SPSR_EL1", seen.spsr, spsr);
    expect("its mode", seen.spsr & 0x1f, mode);
}

static void abort_by_origin(void)
{
    say("aborts by the mode that they come from: the core's own, and the injected");
    abort_from("EL1h", direct, 0x200, 0x25, EL1H);
    abort_from("EL1t", at_el1t, 0, 0x25, EL1T);
    abort_from("EL0", at_el0, 0x400, 0x24, EL0T);
    abort_from("EL0 in AArch32 state", at_el0_aarch32, 0x600, 0x24, EL0_AARCH32);
}

/*
 * A second core. It does what the first one asks for, stage by stage, so that lines come in one order.
 */

#define CONTEXT_ID UINT64_C(0x5e7)

enum stage { STARTED, FIRST_TRAPS, LOADS, CALLS, QUIET_LOADS, CHANGES, STAGES };
static volatile enum stage asked;
static volatile enum stage done;

/* What the second core found in x0. */
static uint64_t second_context_id;

/* Traps that the cores make at once, more of them beside changes of the policy, since a change is short; and how many
   gave other than they should. */
#define TRAPS_AT_ONCE 1000
#define LOADS_BESIDE_CHANGES 10000
#define CHANGES_AT_ONCE 4000
static volatile uint64_t wrong_of_second;

static void ask_second_core(enum stage stage)
{
    asked = stage;
}

static void await_second_core(enum stage stage)
{
    while (done != stage) {
    }
}

/* Loads of the counter word, each of which must give more than the one before. */
static uint64_t load_ascending_from(uint64_t address, uint64_t least, size_t times)
{
    uint64_t wrong = 0;
    for (size_t i = 0; i < times; i++) {
        const uint64_t word = load_64(address, 0);
        wrong += word < least;
        least = word + 1;
    }
    return wrong;
}

static uint64_t load_ascending(uint64_t least)
{
    return load_ascending_from(COUNTER_ADDRESS, least, TRAPS_AT_ONCE);
}

static uint64_t call_often(void)
{
    uint64_t wrong = 0;
    for (size_t i = 0; i < TRAPS_AT_ONCE; i++) {
        uint64_t x[18] = {TEST_CALL};
        call_hvc(x);
        wrong += x[0] != TEST_CALL_ANSWER;
    }
    return wrong;
}

static uint64_t load_quietly_often(void)
{
    uint64_t wrong = 0;
    for (size_t i = 0; i < TRAPS_AT_ONCE; i++) {
        wrong += load_64(QUIET_LOADS_BASE + 16, UINT64_MAX) != 0;
    }
    return wrong;
}

static void do_stage(enum stage stage)
{
    switch (stage) {
    case FIRST_TRAPS:
        expect("x0 of the second core", second_context_id, CONTEXT_ID);
        expect_served(load_64, COUNTER_ADDRESS, 0, counter++);
        expect_abort(load_64, NOWHERE, 1, DFSC_TRANSLATION(1));
        expect_call(call_hvc, TEST_CALL, 0, TEST_CALL_ANSWER, 1);
        break;
    case LOADS:
        wrong_of_second = load_ascending(counter);
        break;
    case CALLS:
        wrong_of_second = call_often();
        break;
    case QUIET_LOADS:
        wrong_of_second = load_quietly_often();
        break;
    case CHANGES:
        wrong_of_second = load_ascending_from(HALF_SERVED_BASE + 16, counter, LOADS_BESIDE_CHANGES);
        break;
    default:
        break;
    }
}

static _Noreturn void run_second_core(uint64_t context_id)
{
    second_context_id = context_id;
    for (enum stage stage = FIRST_TRAPS; stage < STAGES; stage++) {
        while (asked != stage) {
        }
        do_stage(stage);
        done = stage;
    }
    for (;;) {
        __asm__ volatile("wfi");
    }
}

static void start_second_core(void)
{
    uint64_t x[18] = {PSCI_CPU_ON, 1, (uint64_t)_start, CONTEXT_ID};
    say("a second core");
    call_smc(x);
    expect("CPU_ON", x[0], 0);
    ask_second_core(FIRST_TRAPS);
    await_second_core(FIRST_TRAPS);
    expect_served(load_64, COUNTER_ADDRESS, 0, counter++);
}

/* The region that the second core loads from moves as the module comes and goes. */
static void change_modules_often(void)
{
    for (size_t i = 0; i < CHANGES_AT_ONCE; i++) {
        plug_in(MODULE_BASE, RITM_HANDLER_FAULT, RITM_HANDLER_FAULT);
        pull_out(MODULE_BASE);
    }
}

/* Every load counts once, whichever core makes it; a core's calls, quiet loads and changes of the policy do not disturb
   another's loads. */
static void trap_at_once(void)
{
    say("both cores at once, without lines: loads of the counter, and loads beside calls, quiet loads and changes");
    set_silent(1);
    ask_second_core(LOADS);
    expect("loads out of order", load_ascending(counter), 0);
    await_second_core(LOADS);
    expect("the second core's loads out of order", wrong_of_second, 0);
    counter += 2 * TRAPS_AT_ONCE;
    expect_served(load_64, COUNTER_ADDRESS, 0, counter++);
    ask_second_core(CALLS);
    expect("loads beside calls, out of order", load_ascending(counter), 0);
    await_second_core(CALLS);
    expect("calls beside loads, with another answer", wrong_of_second, 0);
    counter += TRAPS_AT_ONCE;
    ask_second_core(QUIET_LOADS);
    expect("loads beside quiet loads, out of order", load_ascending(counter), 0);
    await_second_core(QUIET_LOADS);
    expect("quiet loads beside loads, of another word than 0", wrong_of_second, 0);
    counter += TRAPS_AT_ONCE;
    ask_second_core(CHANGES);
    change_modules_often();
    await_second_core(CHANGES);
    expect("loads beside changes of the policy, out of order", wrong_of_second, 0);
    counter += LOADS_BESIDE_CHANGES;
    set_silent(0);
    expect_served(load_64, COUNTER_ADDRESS, 0, counter++);
}

/*
 * The guest's own MMU.
 */

#define VA_PAGE UINT64_C(0x0abcd000)
#define VA_WALK UINT64_C(0x0ac00000)
#define VA_UNMAPPED UINT64_C(0x0b000000)
#define STAGE1_DEVICE UINT64_C(0x403)
#define STAGE1_MEMORY UINT64_C(0x707)
#define SCTLR_M UINT64_C(1)
#define SCTLR_A UINT64_C(2)

/* VA_PAGE is the filtered MMIO page, as a device and, two pages on, as memory behind a page that is memory. Then come
   two pages that are handled in part, as memory too, so that accesses to them need not be aligned. */
static void enable_mmu(void)
{
    static _Alignas(4096) uint64_t level1[512];
    static _Alignas(4096) uint64_t level2[512];
    static _Alignas(4096) uint64_t level3[512];
    static _Alignas(4096) uint8_t memory[PAGE_SIZE];
    uint64_t *pages = &level3[VA_PAGE >> 12 & 511];
    level1[0] = (uint64_t)level2 | 3;
    level1[1] = UINT64_C(0x40000705);                          /* memory, write-back, inner shareable */
    level2[UINT64_C(0x09000000) >> 21] = UINT64_C(0x09000401); /* the console */
    level2[VA_PAGE >> 21] = (uint64_t)level3 | 3;
    pages[0] = FILTERED_MMIO_BASE | STAGE1_DEVICE;
    pages[1] = (uint64_t)memory | STAGE1_MEMORY;
    pages[2] = FILTERED_MMIO_BASE | STAGE1_MEMORY;
    pages[3] = QUIET_LOADS_BASE | STAGE1_MEMORY;
    pages[4] = QUIET_STORES_BASE | STAGE1_MEMORY;
    level2[VA_WALK >> 21] = FILTERED_MMIO_BASE | 3; /* a table that cannot be read */
    WRITE_REGISTER(mair_el1, 0xff00);
    WRITE_REGISTER(tcr_el1, 0x200803519); /* 39 bits of address, 4 KiB granule, write-back, 40 bits of output */
    WRITE_REGISTER(ttbr0_el1, (uint64_t)level1);
    __asm__ volatile("dsb sy\n\ttlbi vmalle1\n\tdsb sy\n\tisb" : : : "memory");
    WRITE_REGISTER(sctlr_el1, (READ_REGISTER(sctlr_el1) | SCTLR_M) & ~SCTLR_A);
    __asm__ volatile("isb" : : : "memory");
}

static void access_through_mmu(void)
{
    say("accesses through the guest's own MMU: a virtual address, and a walk that cannot read its table");
    enable_mmu();
    expect_served(load_64, VA_PAGE + 16, 0, counter++);
    expect_abort(load_u16, VA_PAGE + 18, 1, DFSC_TRANSLATION(3));
    const uint64_t count = seen.count;
    load_64(VA_WALK + 0x5678, 0);
    expect("exceptions", seen.count - count, 1);
    expect("ESR_EL1", seen.esr, ESR_EC(0x25) | ESR_IL | ISS_S1PTW | DFSC_TRANSLATION(3));
    expect("FAR_EL1", seen.far, VA_WALK + 0x5678);
    load_64(VA_UNMAPPED, 0);
    print_abort("EL1h", ": the core's own, through its MMU,");
    expect("ESR_EL1", seen.esr, ESR_EC(0x25) | ESR_IL | DFSC_TRANSLATION(2));
}

/* The processor reports the first byte that faults, which is the region's, and not the access's first. */
static void load_across(void)
{
    say("a load that begins in memory, four bytes before the page, and ends in it");
    expect_served(load_64, VA_PAGE + 2 * PAGE_SIZE - 4, 0, FIRST_WORD);
}

static void access_unaligned(void)
{
    say("quiet accesses that are not aligned");
    expect_served(load_u32, VA_PAGE + 3 * PAGE_SIZE + 3, UINT64_MAX, 0);
    expect_served(load_64, VA_PAGE + 3 * PAGE_SIZE + 1, UINT64_MAX, 0);
    expect_served(store_16, VA_PAGE + 4 * PAGE_SIZE + 3, STORE_VALUE, STORE_VALUE);
}

static _Noreturn void finish(void)
{
    struct line line = {.length = 0};
    uint64_t verdict[18] = {VERDICT_CALL, failures};
    uint64_t off[18] = {PSCI_SYSTEM_OFF};
    add_decimal(&line, "guest: checks ", checks);
    add_decimal(&line, ", failed ", failures);
    print_line(&line);
    call_hvc(verdict);
    call_smc(off);
    for (;;) {
    }
}

/* Aborts go to the guest's vectors, accesses must be aligned, and interrupts are not masked. */
static void enable_exceptions(void)
{
    WRITE_REGISTER(vbar_el1, (uint64_t)guest_vectors);
    WRITE_REGISTER(sctlr_el1, READ_REGISTER(sctlr_el1) | SCTLR_A);
    __asm__ volatile("msr daifclr, #3\n\tisb" : : : "memory");
}

/* A quiet access needs no vector. */
static void trap_without_vector(void)
{
    say("a quiet load and a quiet store, and VBAR_EL1 is 0");
    expect_served(load_64, QUIET_LOADS_BASE, UINT64_MAX, 0);
    expect_served(store_64, QUIET_STORES_BASE, STORE_VALUE, STORE_VALUE);
    say("an abort is due, and VBAR_EL1 is 0");
    load_64(NOWHERE, 0);
    load_64(QUIET_STORES_BASE, 0);
    store_64(QUIET_LOADS_BASE, 0);
}

static void trap_without_answer(void)
{
    trap_without_vector();
    enable_exceptions();
    say("a branch to what is not allowed: a class that RITM does not expect");
    branch(NOWHERE, 0);
}

void start_guest(uint64_t context_id, uint64_t core)
{
    if (core != 0) {
        enable_exceptions();
        run_second_core(context_id);
    }
    trap_without_answer();
    load_words();
    load_parts();
    access_without_syndrome();
    store_words();
    load_each_register();
    access_nowhere();
    load_as_from_memory();
    load_quietly();
    store_quietly();
    access_quietly_in_a_row();
    access_faults();
    access_half_served();
    make_calls();
    make_calls_by_identifier();
    abort_by_origin();
    load_quietly_by_origin();
    change_modules();
    change_memory();
    start_second_core();
    trap_at_once();
    access_through_mmu();
    load_across();
    access_unaligned();
    finish();
}
