/*
 * A small EL2 host: it sets up the policy of RITM's src/platform/qemu.rs, and two pages of its own, then takes the
 * traps of a guest that boots, while a module is pulled out and another plugged in. There is no guest: where a host
 * would enter EL1, this one sets the register that a guest would have set. Each step prints a line. A step that answers
 * otherwise than expected ends the program with status 1.
 */
#include <inttypes.h>
#include <stdio.h>
#include <stdlib.h>
#include <string.h>

#include "ritm.h"

#define PAGE_SIZE UINT64_C(0x1000)

/* Addresses of src/platform/qemu.rs. */
#define UART_BASE_ADDRESS UINT64_C(0x09000000)
#define FILTERED_MMIO_BASE UINT64_C(0x0f000000)
#define FILTERED_MMIO_END (FILTERED_MMIO_BASE + PAGE_SIZE)
#define DRAM_START UINT64_C(0x40000000)
#define RITM_IMAGE_SIZE UINT64_C(0x400000)
#define NORMAL_MEMORY_END UINT64_C(0x100000000)
#define HIGH_ECAM_START UINT64_C(0x4010000000)
#define HIGH_ECAM_END UINT64_C(0x4020000000)
#define HIGH_MMIO_START UINT64_C(0x8000000000)
#define HIGH_MMIO_END UINT64_C(0x10000000000)
#define SHARED_HEAP_SIZE (16 * PAGE_SIZE)

/* Chosen here: RITM's build gives the address of its image, and the linker that of the heap in it. */
#define RITM_IMAGE_ADDRESS UINT64_C(0x70000000)
#define SHARED_HEAP_ADDRESS (RITM_IMAGE_ADDRESS + UINT64_C(0x2a0840))

/* Chosen here: a page of which the loads alone are served, and one of which nothing is. */
#define HALF_SERVED_BASE UINT64_C(0x300000000)
#define UNSERVED_BASE (HALF_SERVED_BASE + PAGE_SIZE)
#define UNSERVED_END (UNSERVED_BASE + PAGE_SIZE)

/* Chosen here: the page of a module that is plugged in while the guest runs. */
#define MODULE_BASE UINT64_C(0x200000000)
#define MODULE_END (MODULE_BASE + PAGE_SIZE)

/* Stage-2 descriptors (Arm DDI 0487): valid, read and write, access flag; memory is write-back and inner shareable. */
#define STAGE2_DEVICE_ATTRIBUTES UINT64_C(0x4c1)
#define STAGE2_MEMORY_ATTRIBUTES UINT64_C(0x7fd)

/* ESR_EL2 and its ISS for a data abort (Arm DDI 0601). */
#define ESR_EC(ec) (UINT64_C(ec) << 26)
#define ESR_IL (UINT64_C(1) << 25)
#define ISS_ISV (UINT64_C(1) << 24)
#define ISS_SAS_64_BIT (UINT64_C(3) << 22)
#define ISS_SRT(register) ((uint64_t)(register) << 16)
#define ISS_SF (UINT64_C(1) << 15)
#define ISS_WNR (UINT64_C(1) << 6)
#define ISS_DFSC_TRANSLATION_LEVEL_3 UINT64_C(7)

#define ESR_HVC (ESR_EC(0x16) | ESR_IL)
#define ESR_SMC (ESR_EC(0x17) | ESR_IL)
#define ESR_DATA_ABORT (ESR_EC(0x24) | ESR_IL | ISS_DFSC_TRANSLATION_LEVEL_3)
#define ESR_LOAD (ESR_DATA_ABORT | ISS_ISV | ISS_SAS_64_BIT | ISS_SRT(RT) | ISS_SF)
#define ESR_STORE (ESR_LOAD | ISS_WNR)

/* The guest: where it starts, in which mode (EL1h), its exception vectors, the register of its loads and stores. */
#define GUEST_ENTRY UINT64_C(0x40200000)
#define GUEST_SPSR UINT64_C(5)
#define GUEST_VBAR UINT64_C(0x40210800)
#define RT 5

/* Arm DEN0022. */
#define PSCI_VERSION UINT64_C(0x84000000)
#define PSCI_1_1 UINT64_C(0x10001)

/* A call that RITM's QEMU platform answers for tests, and its answer; and one that it does not know. */
#define TEST_CALL UINT64_C(0xff000000)
#define TEST_CALL_ANSWER UINT64_C(0x123456789abcdef0)
#define UNKNOWN_CALL UINT64_C(0xc5000000)

/* What may stand in x0 beside a function identifier (Arm DEN0028 from version 1.3 on): bits of the upper half, which
   mean nothing, and in a fast call the hint that the guest holds no live SVE state. */
#define UPPER_HALF UINT64_C(0x100000000)
#define SVE_HINT UINT64_C(0x10000)

/* What the filtered MMIO page takes, and where its counter is. */
#define STORE_OFFSET UINT64_C(8)
#define STORE_VALUE UINT64_C(0x123456789abcdef0)
#define COUNTER_OFFSET UINT64_C(16)

struct host {
    struct ritm_policy policy;
    struct ritm_cores cores;
    struct ritm_suspend_map map;
};

static void expect(const char *what, uint64_t answer, uint64_t expected)
{
    if (answer != expected) {
        fflush(stdout);
        fprintf(stderr, "host: %s: 0x%" PRIx64 " instead of 0x%" PRIx64 "\n", what, answer, expected);
        exit(1);
    }
}

static void expect_accepted(const char *what, uint64_t number)
{
    expect(what, number, RITM_ACCEPTED);
}

/*
 * The policy.
 */

static void allow(struct host *host, uint64_t start, uint64_t end, uint64_t attributes, const char *what)
{
    expect_accepted(what, ritm_allow_range(&host->policy, start, end - start, attributes));
    printf("policy: allow 0x%" PRIx64 " to 0x%" PRIx64 ", %s\n", start, end, what);
}

static void handle(struct host *host, uint64_t start, uint64_t end, uint64_t read, uint64_t write, const char *what)
{
    expect_accepted(what, ritm_handle_range(&host->policy, start, end - start, read, write));
    printf("policy: handle 0x%" PRIx64 " to 0x%" PRIx64 ", %s: loads by handler %" PRIu64 ", stores by %" PRIu64 "\n",
           start, end, what, read, write);
}

static void release(struct host *host, uint64_t start, uint64_t end, const char *what)
{
    expect_accepted(what, ritm_release_range(&host->policy, start, end - start));
    printf("policy: release 0x%" PRIx64 " to 0x%" PRIx64 ", %s\n", start, end, what);
}

/* The linker may put the heap anywhere: its whole pages are allowed. */
static void allow_shared_heap(struct host *host)
{
    struct ritm_word_result start;
    struct ritm_word_result end;
    expect_accepted("the heap's first page", ritm_align_down_to_page(SHARED_HEAP_ADDRESS, &start));
    expect_accepted("the heap's end", ritm_align_up_to_page(SHARED_HEAP_ADDRESS + SHARED_HEAP_SIZE, &end));
    allow(host, ritm_get_word(&start, 0), ritm_get_word(&end, 0), STAGE2_MEMORY_ATTRIBUTES, "the shared heap");
}

/* RITM's function of this name for QEMU. */
static void configure_memory_access(struct host *host)
{
    const uint64_t ritm_end = RITM_IMAGE_ADDRESS + RITM_IMAGE_SIZE;
    expect_accepted("a fresh policy", ritm_fresh_policy(&host->policy));
    allow(host, 0, FILTERED_MMIO_BASE, STAGE2_DEVICE_ATTRIBUTES, "device memory before the filtered MMIO page");
    handle(host, FILTERED_MMIO_BASE, FILTERED_MMIO_END, RITM_HANDLER_FILTERED_MMIO, RITM_HANDLER_FILTERED_MMIO,
           "the filtered MMIO page");
    allow(host, FILTERED_MMIO_END, DRAM_START, STAGE2_DEVICE_ATTRIBUTES, "device memory after the filtered MMIO page");
    allow(host, DRAM_START, RITM_IMAGE_ADDRESS, STAGE2_MEMORY_ATTRIBUTES, "normal memory before the RITM image");
    allow(host, ritm_end, NORMAL_MEMORY_END, STAGE2_MEMORY_ATTRIBUTES, "normal memory after the RITM image");
    allow(host, HIGH_ECAM_START, HIGH_ECAM_END, STAGE2_DEVICE_ATTRIBUTES, "high PCIe ECAM");
    allow(host, HIGH_MMIO_START, HIGH_MMIO_END, STAGE2_DEVICE_ATTRIBUTES, "high MMIO");
    allow_shared_heap(host);
}

/* Each direction has its own handler. The one page's stores are dropped; the other's loads give 0, and its stores are a
   fault. */
static void handle_pages_in_part(struct host *host)
{
    handle(host, HALF_SERVED_BASE, UNSERVED_BASE, RITM_HANDLER_FILTERED_MMIO, RITM_HANDLER_ABSENT,
           "a page that is half served");
    handle(host, UNSERVED_BASE, UNSERVED_END, RITM_HANDLER_ABSENT, RITM_HANDLER_FAULT, "a page that is not served");
}

static void allow_a_page_twice(struct host *host)
{
    const uint64_t number = ritm_allow_range(&host->policy, UART_BASE_ADDRESS, PAGE_SIZE, STAGE2_DEVICE_ATTRIBUTES);
    expect("the UART allowed twice", number, RITM_ALLOWED_RANGE_OVERLAP);
    printf("policy: allow 0x%" PRIx64 ", the UART, which is allowed already: refused %" PRIu64 "\n", UART_BASE_ADDRESS,
           number);
}

static void release_a_page_twice(struct host *host)
{
    const uint64_t number = ritm_release_range(&host->policy, MODULE_BASE, PAGE_SIZE);
    expect("the module released twice", number, RITM_RANGE_NOT_HELD);
    printf("policy: release 0x%" PRIx64 ", which is held no more: refused %" PRIu64 "\n", MODULE_BASE, number);
}

static void count_ranges(const struct host *host, uint64_t expected_regions)
{
    const uint64_t allowed = ritm_get_word(&host->policy, RITM_POLICY_ALLOWED_COUNT);
    const uint64_t regions = ritm_get_word(&host->policy, RITM_POLICY_REGION_COUNT);
    expect("allowed ranges", allowed, 7);
    expect("regions", regions, expected_regions);
    printf("policy: allowed ranges %" PRIu64 ", regions %" PRIu64 "\n", allowed, regions);
}

static void find_addresses(const struct host *host)
{
    struct ritm_find_result found;
    expect_accepted("find", ritm_find(&host->policy, FILTERED_MMIO_BASE + COUNTER_OFFSET, &found));
    expect("an address of the page", ritm_get_word(&found, RITM_FIND_FOUND), 1);
    printf("policy: find 0x%" PRIx64 ": region %" PRIu64 ", offset %" PRIu64 "\n", FILTERED_MMIO_BASE + COUNTER_OFFSET,
           ritm_get_word(&found, RITM_FIND_INDEX), ritm_get_word(&found, RITM_FIND_OFFSET));
    expect_accepted("find", ritm_find(&host->policy, UART_BASE_ADDRESS, &found));
    expect("an address of the UART", ritm_get_word(&found, RITM_FIND_FOUND), 0);
    printf("policy: find 0x%" PRIx64 ": none\n", UART_BASE_ADDRESS);
}

/*
 * The cores.
 */

/* A word of a core's record. */
static uint64_t core_word(const struct host *host, uint64_t core, size_t place)
{
    return ritm_get_word(&host->cores, core * RITM_CORE_WORDS + place);
}

static uint64_t gpr(const struct host *host, uint64_t core, uint64_t index)
{
    struct ritm_word_result word;
    expect_accepted("a register read", ritm_read_gpr(&host->cores, core, index, &word));
    return ritm_get_word(&word, 0);
}

static void start_guest(struct host *host, uint64_t core)
{
    struct ritm_registers registers = {{0}};
    ritm_put_word(&registers, RITM_REGISTERS_ELR, GUEST_ENTRY);
    ritm_put_word(&registers, RITM_REGISTERS_SPSR, GUEST_SPSR);
    expect_accepted("the first save", ritm_save(&host->cores, core, &registers));
}

/* The guest runs on with the registers that its core holds, and sets one of them before it traps. */
static void run_guest(struct host *host, uint64_t core, size_t index, uint64_t value)
{
    struct ritm_registers registers;
    memcpy(&registers, &host->cores.words[RITM_CORE_WORDS * core], sizeof registers);
    ritm_put_word(&registers, RITM_REGISTERS_X + index, value);
    expect_accepted("a save", ritm_save(&host->cores, core, &registers));
}

/* Takes a trap. The guest's MMU is off: the faulting virtual address is the IPA. */
static uint64_t trap(struct host *host, uint64_t core, uint64_t esr, uint64_t ipa, struct ritm_trap_result *trapped)
{
    return ritm_trap(&host->policy, &host->cores, core, esr, ipa / PAGE_SIZE, ipa, GUEST_VBAR, trapped);
}

static struct ritm_trap_result expect_trap(struct host *host, uint64_t core, uint64_t esr, uint64_t ipa, uint64_t kind)
{
    struct ritm_trap_result trapped;
    expect_accepted("a trap", trap(host, core, esr, ipa, &trapped));
    expect("a trap's kind", ritm_get_word(&trapped, RITM_TRAP_KIND), kind);
    return trapped;
}

static void expect_refused_trap(struct host *host, uint64_t core, const char *what, uint64_t refusal)
{
    struct ritm_trap_result trapped;
    expect(what, trap(host, core, ESR_LOAD, FILTERED_MMIO_BASE, &trapped), refusal);
    expect("a refused trap's kind", ritm_get_word(&trapped, RITM_TRAP_KIND), RITM_TRAP_REFUSED);
    printf("core %" PRIu64 ": %s: refused %" PRIu64 "\n", core, what, refusal);
}

static void reply(struct host *host, uint64_t core, uint64_t kind, uint64_t value, uint64_t x0)
{
    struct ritm_values values = {{0}};
    ritm_put_word(&values, 0, value);
    expect_accepted("a reply", ritm_reply(&host->cores, core, kind, &values, 0));
    expect("x0 after a reply", gpr(host, core, 0), x0);
    printf("core %" PRIu64 ": reply of kind %" PRIu64 ": x0 0x%" PRIx64 ", ELR 0x%" PRIx64 "\n", core, kind, x0,
           core_word(host, core, RITM_CORE_ELR));
}

static void call_firmware(struct host *host, uint64_t core)
{
    run_guest(host, core, 0, PSCI_VERSION);
    expect_trap(host, core, ESR_SMC, 0, RITM_TRAP_TO_FIRMWARE);
    printf("core %" PRIu64 ": SMC 0x%" PRIx64 ", PSCI_VERSION: to the firmware\n", core, PSCI_VERSION);
    expect_refused_trap(host, core, "a trap while the call waits for its reply", RITM_CORE_WAITING);
    reply(host, core, RITM_REPLY_VALUE, PSCI_1_1, PSCI_1_1);
}

static void call_platform(struct host *host, uint64_t core)
{
    run_guest(host, core, 0, TEST_CALL);
    expect_trap(host, core, ESR_HVC, 0, RITM_TRAP_TO_PLATFORM);
    printf("core %" PRIu64 ": HVC 0x%" PRIx64 ", RITM's test call: to the platform\n", core, TEST_CALL);
    reply(host, core, RITM_REPLY_VALUE, TEST_CALL_ANSWER, TEST_CALL_ANSWER);

    run_guest(host, core, 0, UNKNOWN_CALL);
    expect_trap(host, core, ESR_HVC, 0, RITM_TRAP_TO_PLATFORM);
    printf("core %" PRIu64 ": HVC 0x%" PRIx64 ", an unknown call: to the platform\n", core, UNKNOWN_CALL);
    reply(host, core, RITM_REPLY_UNHANDLED, 0, UINT64_MAX);
}

/* A call goes to its recipient by its function identifier, whatever else stands in x0. */
static void call_by_identifier(struct host *host, uint64_t core)
{
    static const struct {
        const char *conduit;
        uint64_t esr;
        uint64_t x0;
        uint64_t kind;
        uint64_t identifier;
        uint64_t hint;
        uint64_t answer;
    } calls[] = {
        {"SMC", ESR_SMC, PSCI_VERSION | UPPER_HALF, RITM_TRAP_TO_FIRMWARE, PSCI_VERSION, 0, PSCI_1_1},
        {"HVC", ESR_HVC, PSCI_VERSION | SVE_HINT, RITM_TRAP_TO_FIRMWARE, PSCI_VERSION, 1, PSCI_1_1},
        {"HVC", ESR_HVC, TEST_CALL | UPPER_HALF | SVE_HINT, RITM_TRAP_TO_PLATFORM, TEST_CALL, 1, TEST_CALL_ANSWER},
    };
    for (size_t i = 0; i < sizeof calls / sizeof calls[0]; i++) {
        run_guest(host, core, 0, calls[i].x0);
        const struct ritm_trap_result trapped = expect_trap(host, core, calls[i].esr, 0, calls[i].kind);
        const uint64_t identifier = ritm_get_word(&trapped, RITM_TRAP_VALUES);
        const uint64_t hint = ritm_get_word(&trapped, RITM_TRAP_HINT);
        expect("a function identifier", identifier, calls[i].identifier);
        expect("an SVE hint", hint, calls[i].hint);
        printf("core %" PRIu64 ": %s 0x%" PRIx64 ": to the %s as 0x%" PRIx64 ", SVE hint %" PRIu64 "\n", core,
               calls[i].conduit, calls[i].x0, calls[i].kind == RITM_TRAP_TO_FIRMWARE ? "firmware" : "platform",
               identifier, hint);
        reply(host, core, RITM_REPLY_VALUE, calls[i].answer, calls[i].answer);
    }
}

static void load(struct host *host, uint64_t core, const char *what, uint64_t ipa, uint64_t word)
{
    expect_trap(host, core, ESR_LOAD, ipa, RITM_TRAP_LOAD_HANDLED);
    expect("a loaded word", gpr(host, core, RT), word);
    printf("core %" PRIu64 ": %s at 0x%" PRIx64 ": x%d 0x%" PRIx64 ", ELR 0x%" PRIx64 "\n", core, what, ipa, RT, word,
           core_word(host, core, RITM_CORE_ELR));
}

/* Each word of the filtered MMIO page, and the counter once more, from another core too: it grows by each load. */
static void load_words(struct host *host)
{
    static const struct {
        uint64_t core;
        uint64_t offset;
        uint64_t word;
    } loads[] = {
        {0, 0, UINT64_C(0xfeedfacecafebeef)},
        {0, COUNTER_OFFSET, 0},
        {0, COUNTER_OFFSET, 1},
        {0, 24, UINT64_C(0x1111222233334444)},
        {0, 32, UINT64_C(0x5555666677778888)},
        {0, 40, UINT64_C(0x9999aaaabbbbcccc)},
        {1, COUNTER_OFFSET, 2},
    };
    for (size_t i = 0; i < sizeof loads / sizeof loads[0]; i++) {
        load(host, loads[i].core, "load", FILTERED_MMIO_BASE + loads[i].offset, loads[i].word);
    }
}

static void store(struct host *host, uint64_t core, const char *what, uint64_t ipa, uint64_t value)
{
    run_guest(host, core, RT, value);
    expect_trap(host, core, ESR_STORE, ipa, RITM_TRAP_STORE_HANDLED);
    printf("core %" PRIu64 ": %s of 0x%" PRIx64 " at 0x%" PRIx64 ": handled, ELR 0x%" PRIx64 "\n", core, what, value,
           ipa, core_word(host, core, RITM_CORE_ELR));
}

static void store_aborted(struct host *host, uint64_t core, uint64_t ipa, uint64_t value)
{
    run_guest(host, core, RT, value);
    expect_trap(host, core, ESR_STORE, ipa, RITM_TRAP_ABORT_INJECTED);
    expect("ELR at the guest's vector", core_word(host, core, RITM_CORE_ELR), GUEST_VBAR + 0x200);
    printf("core %" PRIu64 ": store of 0x%" PRIx64 " at 0x%" PRIx64 ": abort injected, ELR 0x%" PRIx64 "\n", core,
           value, ipa, core_word(host, core, RITM_CORE_ELR));
    printf("core %" PRIu64 ": SPSR 0x%" PRIx64 ", ELR_EL1 0x%" PRIx64 ", SPSR_EL1 0x%" PRIx64 ", FAR_EL1 0x%" PRIx64
           ", ESR_EL1 0x%" PRIx64 "\n",
           core, core_word(host, core, RITM_CORE_SPSR), core_word(host, core, RITM_CORE_ELR_EL1),
           core_word(host, core, RITM_CORE_SPSR_EL1), core_word(host, core, RITM_CORE_FAR_EL1),
           core_word(host, core, RITM_CORE_ESR_EL1));
}

static void store_words(struct host *host, uint64_t core)
{
    const uint64_t ipa = FILTERED_MMIO_BASE + STORE_OFFSET;
    store(host, core, "store", ipa, STORE_VALUE);
    store_aborted(host, core, ipa, STORE_VALUE + 1);
}

/* A guest probes pages that are served in part. Through an absent handler a store is dropped and a load gives 0, and
   does not count; handler 2 is the abort. */
static void probe_pages(struct host *host, uint64_t core)
{
    load(host, core, "load", HALF_SERVED_BASE + COUNTER_OFFSET, 3);
    store(host, core, "quiet store", HALF_SERVED_BASE + COUNTER_OFFSET, 7);
    load(host, core, "quiet load", UNSERVED_BASE + COUNTER_OFFSET, 0);
    load(host, core, "load", HALF_SERVED_BASE + COUNTER_OFFSET, 4);
    store_aborted(host, core, UNSERVED_BASE + COUNTER_OFFSET, 7);
}

/* A module is plugged in and used; it is pulled out, and the same store is the abort; another takes its place. Pages
   above it are served as before. */
static void change_modules(struct host *host, uint64_t core)
{
    const uint64_t ipa = MODULE_BASE + STORE_OFFSET;
    handle(host, MODULE_BASE, MODULE_END, RITM_HANDLER_FILTERED_MMIO, RITM_HANDLER_FILTERED_MMIO, "a module");
    store(host, core, "store", ipa, STORE_VALUE);
    release(host, MODULE_BASE, MODULE_END, "the module");
    store_aborted(host, core, ipa, STORE_VALUE);
    release_a_page_twice(host);
    handle(host, MODULE_BASE, MODULE_END, RITM_HANDLER_FILTERED_MMIO, RITM_HANDLER_ABSENT, "another module");
    store(host, core, "quiet store", ipa, 7);
    load(host, core, "load", HALF_SERVED_BASE + COUNTER_OFFSET, 5);
    count_ranges(host, 4);
}

static void boot(struct host *host)
{
    expect_accepted("fresh cores", ritm_fresh_cores(&host->cores));
    start_guest(host, 0);
    start_guest(host, 1);
    call_firmware(host, 0);
    call_platform(host, 0);
    call_by_identifier(host, 0);
    load_words(host);
    store_words(host, 0);
    probe_pages(host, 1);
    change_modules(host, 0);
    expect_refused_trap(host, 8, "a trap on a ninth core", RITM_NO_SUCH_CORE);
}

/*
 * The suspend map.
 */

static void print_entry(const char *what, uint64_t key, const struct ritm_entry_result *entry)
{
    if (ritm_get_word(entry, RITM_ENTRY_FOUND) == 0) {
        printf("suspend map: %s 0x%" PRIx64 ": none\n", what, key);
        return;
    }
    printf("suspend map: %s 0x%" PRIx64 ": entry point 0x%" PRIx64 ", context id 0x%" PRIx64 "\n", what, key,
           ritm_get_word(entry, RITM_ENTRY_ENTRY_POINT), ritm_get_word(entry, RITM_ENTRY_CONTEXT_ID));
}

/* A core suspends, is looked up, resumes, and is suspended no more. The key is its MPIDR_EL1. */
static void suspend_and_resume(struct host *host)
{
    const uint64_t mpidr = UINT64_C(0x80000001);
    struct ritm_entry_result entry;
    expect_accepted("a fresh map", ritm_fresh_map(&host->map));
    expect_accepted("insert", ritm_insert(&host->map, mpidr, GUEST_ENTRY, 7));
    printf("suspend map: insert 0x%" PRIx64 "\n", mpidr);
    expect_accepted("get", ritm_get(&host->map, mpidr, &entry));
    expect("the entry held", ritm_get_word(&entry, RITM_ENTRY_ENTRY_POINT), GUEST_ENTRY);
    print_entry("get", mpidr, &entry);
    expect_accepted("remove", ritm_remove(&host->map, mpidr, &entry));
    expect("the entry removed", ritm_get_word(&entry, RITM_ENTRY_CONTEXT_ID), 7);
    print_entry("remove", mpidr, &entry);
    expect_accepted("get", ritm_get(&host->map, mpidr, &entry));
    expect("an entry removed before", ritm_get_word(&entry, RITM_ENTRY_FOUND), 0);
    print_entry("get", mpidr, &entry);
}

int main(void)
{
    static struct host host;
    configure_memory_access(&host);
    handle_pages_in_part(&host);
    allow_a_page_twice(&host);
    count_ranges(&host, 3);
    find_addresses(&host);
    boot(&host);
    suspend_and_resume(&host);
    return 0;
}
