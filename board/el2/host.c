/*
 * A small EL2 host for QEMU's virt board around the proved library, to start another from. It sets up the policy of
 * RITM's src/platform/qemu.rs, and pages that are handled in part, maps what the policy allows, enters a guest at EL1
 * and takes its traps, while modules come and go. Each trap prints a line.
 *
 * The library is proved. This host, its stage-2 tables and start.S are not: they are tested by the guest below them.
 * What checks.c has is the test's, and so are six of the guest's calls: another host has none of it, and handles what
 * calls of expect rule out.
 */
#include "host.h"

/* Addresses of src/platform/qemu.rs. */
#define DRAM_START UINT64_C(0x40000000)
#define NORMAL_MEMORY_END UINT64_C(0x100000000)
#define HIGH_ECAM_START UINT64_C(0x4010000000)
#define HIGH_ECAM_END UINT64_C(0x4020000000)
#define HIGH_MMIO_START UINT64_C(0x8000000000)
#define HIGH_MMIO_END UINT64_C(0x10000000000)

/* Stage-2 descriptors (Arm DDI 0487): valid, read and write, access flag; memory is write-back and inner shareable. */
#define STAGE2_DEVICE_ATTRIBUTES UINT64_C(0x4c1)
#define STAGE2_MEMORY_ATTRIBUTES UINT64_C(0x7fd)

/* The mode EL1h, with all exceptions masked. */
#define SPSR_EL1H UINT64_C(0x3c5)

/* The library's state. By their types the buffers are aligned as the archive asks. */
static struct ritm_policy policy;
static struct ritm_cores cores;

/* What RITM shares with its guest. */
static _Alignas(4096) uint8_t shared_heap[16 * PAGE_SIZE];

/* Where a core starts in this host (start.S). */
extern char _start[];

/* Where a core enters the guest, and with what in x0. */
static struct {
    uint64_t entry_point;
    uint64_t context_id;
} entries[CORES];

/* Whether traps print no lines. */
static int silent;

static uint64_t *words_of(uint64_t core)
{
    return &cores.words[core * RITM_CORE_WORDS];
}

/*
 * One lock for the cores buffer, held over a trap, since the counter is one for all cores. The other calls here touch
 * the words of their own core alone, and need none. A trap reads the policy too, so changes of that hold the lock.
 */

static char locked;

static void lock(void)
{
    while (__atomic_test_and_set(&locked, __ATOMIC_ACQUIRE)) {
    }
}

static void unlock(void)
{
    __atomic_clear(&locked, __ATOMIC_RELEASE);
}

/*
 * The firmware: QEMU's own, called by SMC.
 */

static uint64_t call_firmware(uint64_t function, uint64_t a, uint64_t b, uint64_t c)
{
    register uint64_t x0 __asm__("x0") = function;
    register uint64_t x1 __asm__("x1") = a;
    register uint64_t x2 __asm__("x2") = b;
    register uint64_t x3 __asm__("x3") = c;
    __asm__ volatile("smc #0"
                     : "+r"(x0), "+r"(x1), "+r"(x2), "+r"(x3)
                     :
                     : "x4", "x5", "x6", "x7", "x8", "x9", "x10", "x11", "x12", "x13", "x14", "x15", "x16", "x17",
                       "memory");
    return x0;
}

static _Noreturn void finish(void)
{
    print_verdict();
    turn_off();
}

/* An exception that is no guest's: an error of this host. */
void handle_unexpected(void)
{
    print_el2_exception();
    expect("exceptions that no guest made", 1, 0);
    finish();
}

/*
 * The policy.
 */

static void allow(uint64_t start, uint64_t end, uint64_t attributes)
{
    expect("allow", ritm_allow_range(&policy, start, end - start, attributes), RITM_ACCEPTED);
}

static void handle(uint64_t base, uint64_t read, uint64_t write)
{
    expect("handle", ritm_handle_range(&policy, base, PAGE_SIZE, read, write), RITM_ACCEPTED);
}

/* Whole pages are allowed, wherever the linker puts the heap. */
static void allow_shared_heap(void)
{
    const uint64_t address = (uint64_t)shared_heap;
    struct ritm_word_result start;
    struct ritm_word_result end;
    expect("align down", ritm_align_down_to_page(address, &start), RITM_ACCEPTED);
    expect("align up", ritm_align_up_to_page(address + sizeof shared_heap, &end), RITM_ACCEPTED);
    allow(start.words[0], end.words[0], STAGE2_MEMORY_ATTRIBUTES);
}

/* RITM's function of this name for QEMU. */
static void configure_memory_access(void)
{
    expect("a fresh policy", ritm_fresh_policy(&policy), RITM_ACCEPTED);
    allow(0, FILTERED_MMIO_BASE, STAGE2_DEVICE_ATTRIBUTES);
    handle(FILTERED_MMIO_BASE, RITM_HANDLER_FILTERED_MMIO, RITM_HANDLER_FILTERED_MMIO);
    allow(FILTERED_MMIO_BASE + PAGE_SIZE, DRAM_START, STAGE2_DEVICE_ATTRIBUTES);
    allow(DRAM_START, HOST_ADDRESS, STAGE2_MEMORY_ATTRIBUTES);
    allow(HOST_ADDRESS + HOST_SIZE, NORMAL_MEMORY_END, STAGE2_MEMORY_ATTRIBUTES);
    allow(HIGH_ECAM_START, HIGH_ECAM_END, STAGE2_DEVICE_ATTRIBUTES);
    allow(HIGH_MMIO_START, HIGH_MMIO_END, STAGE2_DEVICE_ATTRIBUTES);
    allow_shared_heap();
}

/* Each page comes below the ones before, and so is stored over another's handlers. */
static void handle_pages_in_part(void)
{
    handle(QUIET_STORES_BASE, RITM_HANDLER_FAULT, RITM_HANDLER_ABSENT);
    handle(QUIET_LOADS_BASE, RITM_HANDLER_ABSENT, RITM_HANDLER_FAULT);
    handle(HALF_SERVED_BASE, RITM_HANDLER_FILTERED_MMIO, RITM_HANDLER_ABSENT);
}

static void set_up_state(void)
{
    struct line line = {.length = 0};
    entries[0].entry_point = GUEST_ADDRESS;
    configure_memory_access();
    handle_pages_in_part();
    expect("fresh cores", ritm_fresh_cores(&cores), RITM_ACCEPTED);
    add_decimal(&line, "EL2: ranges allowed ", policy.words[RITM_POLICY_ALLOWED_COUNT]);
    add_decimal(&line, ", regions ", policy.words[RITM_POLICY_REGION_COUNT]);
    add_decimal(&line, ", stage-2 tables ", map_allowed_ranges(&policy));
    print_line(&line);
}

/*
 * A core's start (system registers: Arm DDI 0601).
 */

/* What a guest finds: it sees the processor's own numbers, its MMU is off, its SMC and stage-2 faults trap. Floating
   point traps too, at EL2 as below it, to show that the archive has none; a host whose guest uses it writes 0x33ff.
   What RITM sets for a guest's timers and interrupts (CNTHCTL_EL2, CNTVOFF_EL2, ICC_SRE_EL2) is left out. */
static void configure_el2(void)
{
    WRITE_REGISTER(vpidr_el2, READ_REGISTER(midr_el1));
    WRITE_REGISTER(vmpidr_el2, READ_REGISTER(mpidr_el1));
    WRITE_REGISTER(vttbr_el2, stage2_root());
    WRITE_REGISTER(vtcr_el2, 0x80043598); /* 40 bits of address from level 0, 4 KiB granule, 44 bits of output */
    WRITE_REGISTER(hcr_el2, UINT64_C(1) << 31 | 1 << 19 | 1); /* RW, TSC, VM */
    WRITE_REGISTER(cptr_el2, 0x37ff);
    WRITE_REGISTER(sctlr_el1, 0x30d00800);
    WRITE_REGISTER(vbar_el1, 0);
    __asm__ volatile("dsb sy\n\tisb\n\ttlbi vmalls12e1\n\tdsb sy\n\tisb" : : : "memory");
}

/* Every core begins here, and then enters the guest with the registers of the frame. */
void start_core(struct ritm_registers *frame, uint64_t core)
{
    if (core == 0) {
        set_up_state();
    }
    configure_el2();
    *frame = (struct ritm_registers){{0}};
    frame->words[RITM_REGISTERS_X] = entries[core].context_id;
    frame->words[RITM_REGISTERS_ELR] = entries[core].entry_point;
    frame->words[RITM_REGISTERS_SPSR] = SPSR_EL1H;
}

/*
 * Modules, which come and go while the guest runs. A base unit's host sees them itself; here the guest asks for them,
 * so that lines come in one order.
 */

static uint64_t allow_module(uint64_t base)
{
    const uint64_t number = ritm_allow_range(&policy, base, PAGE_SIZE, STAGE2_MEMORY_ATTRIBUTES);
    if (number == RITM_ACCEPTED) {
        map_range(base, base + PAGE_SIZE, STAGE2_MEMORY_ATTRIBUTES);
    }
    return number;
}

/* Of a range that was allowed the tables' entries go too. */
static uint64_t release_module(uint64_t base)
{
    const uint64_t allowed = policy.words[RITM_POLICY_ALLOWED_COUNT];
    const uint64_t number = ritm_release_range(&policy, base, PAGE_SIZE);
    if (policy.words[RITM_POLICY_ALLOWED_COUNT] != allowed) {
        unmap_range(base, base + PAGE_SIZE);
    }
    return number;
}

static uint64_t change_policy(const uint64_t *values)
{
    uint64_t number;
    lock();
    switch (values[0]) {
    case HANDLE_CALL:
        number = ritm_handle_range(&policy, values[1], PAGE_SIZE, values[2], values[3]);
        break;
    case ALLOW_CALL:
        number = allow_module(values[1]);
        break;
    default:
        number = release_module(values[1]);
    }
    unlock();
    return number;
}

/*
 * Calls that the guest makes.
 */

static void reply(uint64_t core, uint64_t kind, uint64_t value, struct line *line)
{
    const struct ritm_values values = {{value}};
    expect("reply", ritm_reply(&cores, core, kind, &values, 0), RITM_ACCEPTED);
    add_decimal(line, ", reply of kind ", kind);
    add_hex(line, ", x0 ", words_of(core)[RITM_CORE_X]);
}

/* RITM's QEMU platform knows one call; five are the test's. */
static void answer_platform(uint64_t core, const uint64_t *values, struct line *line)
{
    switch (values[0]) {
    case TEST_CALL:
        reply(core, RITM_REPLY_VALUE, TEST_CALL_ANSWER, line);
        break;
    case VERDICT_CALL:
        take_verdict(values[1]);
        reply(core, RITM_REPLY_VALUE, 0, line);
        break;
    case SILENT_CALL:
        silent = values[1] != 0;
        reply(core, RITM_REPLY_VALUE, 0, line);
        break;
    case HANDLE_CALL:
    case ALLOW_CALL:
    case RELEASE_CALL:
        reply(core, RITM_REPLY_VALUE, change_policy(values), line);
        break;
    default:
        reply(core, RITM_REPLY_UNHANDLED, 0, line);
    }
}

/* A core that the guest starts comes through this host first, which has stacks for CORES. */
static uint64_t cpu_on(uint64_t target, uint64_t entry_point, uint64_t context_id)
{
    if (target >= CORES) {
        return PSCI_INVALID_PARAMETERS;
    }
    entries[target].entry_point = entry_point;
    entries[target].context_id = context_id;
    return call_firmware(PSCI_CPU_ON, target, (uint64_t)_start, 0);
}

/* Those of PSCI's calls that this guest makes. Two go on to QEMU's firmware as they are handed out. The hint does not:
   a firmware of DEN0028's version 1.3 takes it in bit 16 again, and QEMU's knows no function identifier with it. */
static void answer_firmware(uint64_t core, const uint64_t *values, struct line *line)
{
    uint64_t result = PSCI_NOT_SUPPORTED;
    switch (values[0]) {
    case PSCI_SYSTEM_OFF:
        print_line(line);
        finish();
    case PSCI_VERSION:
    case PSCI_FEATURES:
        result = call_firmware(values[0], values[1], values[2], values[3]);
        break;
    case PSCI_CPU_ON:
        result = cpu_on(values[1], values[2], values[3]);
        break;
    }
    reply(core, RITM_REPLY_VALUE, result, line);
}

/*
 * Traps.
 */

static uint64_t rotate_right(uint64_t word, uint64_t bits)
{
    return bits == 0 ? word : word >> bits | word << (64 - bits);
}

/* A page of the host's own, made of the library's parts. The filtered MMIO page serves 64-bit loads alone; here every
   load is served, and shows how its value comes into its register. */
static int serve_own_page(const struct trap *trap, struct line *line)
{
    struct ritm_access_result access;
    struct ritm_word_result value;
    const uint32_t iss = trap->esr & ESR_ISS;
    if (EC_OF(trap->esr) != EC_DATA_ABORT_LOWER_EL ||
        ritm_decode(iss, trap->fipa, trap->far, &access) != RITM_ACCEPTED) {
        return 0;
    }
    const uint64_t offset = access.words[RITM_ACCESS_IPA] - OWN_PAGE_BASE;
    if (offset >= PAGE_SIZE || access.words[RITM_ACCESS_WNR] == 1) {
        return 0;
    }
    expect("extend", ritm_extend_read_result(iss, rotate_right(OWN_PAGE_WORD, 8 * (offset % 8)), &value),
           RITM_ACCEPTED);
    expect("write", ritm_write_gpr(&cores, trap->core, access.words[RITM_ACCESS_RT], value.words[0]), RITM_ACCEPTED);
    words_of(trap->core)[RITM_CORE_ELR] += 4;
    add(line, ": load served by the host");
    return 1;
}

/* The registers of EL1 that an abort taken there would have set. ELR and SPSR, which the guest goes on with, stand in
   the core as after any trap. */
static void write_fault_registers(uint64_t core, struct line *line)
{
    const uint64_t *words = words_of(core);
    WRITE_REGISTER(elr_el1, words[RITM_CORE_ELR_EL1]);
    WRITE_REGISTER(spsr_el1, words[RITM_CORE_SPSR_EL1]);
    WRITE_REGISTER(far_el1, words[RITM_CORE_FAR_EL1]);
    WRITE_REGISTER(esr_el1, words[RITM_CORE_ESR_EL1]);
    add_hex(line, ": abort injected, ESR_EL1 ", words[RITM_CORE_ESR_EL1]);
}

/* After 12 and 13 to return would make the same trap again. This guest makes each access in a function of its own, so
   it goes on where that function returns; a host for any other guest stops it here. 10 and 11 would be errors of the
   host: a core number that is none, or a call that was not replied to. */
static void leave_function(uint64_t core, uint64_t number, struct line *line)
{
    add_decimal(line, ": refused ", number);
    words_of(core)[RITM_CORE_ELR] = words_of(core)[RITM_CORE_X + 30];
}

static void add_rt(const struct trap *trap, struct line *line)
{
    struct ritm_word_result value;
    const uint64_t rt = trap->esr >> 16 & 31;
    expect("read", ritm_read_gpr(&cores, trap->core, rt, &value), RITM_ACCEPTED);
    add_decimal(line, ": load handled, x", rt);
    add_hex(line, " ", value.words[0]);
}

/* The core's own x0, and what is handed out in its place. */
static void add_call(uint64_t core, const struct ritm_trap_result *trapped, struct line *line)
{
    add_hex(line, ", x0 ", words_of(core)[RITM_CORE_X]);
    add_hex(line, " as ", trapped->words[RITM_TRAP_VALUES]);
    add_decimal(line, ", hint ", trapped->words[RITM_TRAP_HINT]);
}

/* Takes a trap, and does what its answer asks for. After a handled load or store that is nothing: the register is
   written, and ELR has grown. */
static void serve(const struct trap *trap, const struct ritm_registers *frame, struct line *line)
{
    struct ritm_trap_result trapped;
    const uint64_t *values = &trapped.words[RITM_TRAP_VALUES];
    lock();
    const uint64_t number =
        ritm_trap(&policy, &cores, trap->core, trap->esr, trap->fipa, trap->far, trap->vbar, &trapped);
    unlock();
    compare_with_registers(frame, words_of(trap->core), &trapped);
    switch (trapped.words[RITM_TRAP_KIND]) {
    case RITM_TRAP_REFUSED:
        leave_function(trap->core, number, line);
        break;
    case RITM_TRAP_LOAD_HANDLED:
        add_rt(trap, line);
        break;
    case RITM_TRAP_STORE_HANDLED:
        add(line, ": store handled");
        break;
    case RITM_TRAP_ABORT_INJECTED:
        write_fault_registers(trap->core, line);
        break;
    case RITM_TRAP_TO_FIRMWARE:
        add(line, ": to the firmware");
        add_call(trap->core, &trapped, line);
        answer_firmware(trap->core, values, line);
        break;
    case RITM_TRAP_TO_PLATFORM:
        add(line, ": to the platform");
        add_call(trap->core, &trapped, line);
        answer_platform(trap->core, values, line);
        break;
    }
}

/* FIPA is bits 47:4 of HPFAR_EL2: a page number. */
static struct trap read_trap(uint64_t core)
{
    return (struct trap){
        .core = core,
        .esr = READ_REGISTER(esr_el2),
        .fipa = READ_REGISTER(hpfar_el2) >> 4 & ((UINT64_C(1) << 44) - 1),
        .far = READ_REGISTER(far_el2),
        .vbar = READ_REGISTER(vbar_el1),
    };
}

static void add_trap(const struct trap *trap, struct line *line)
{
    add_decimal(line, "EL2: core ", trap->core);
    add_hex(line, ": ESR ", trap->esr);
    if (EC_OF(trap->esr) == EC_DATA_ABORT_LOWER_EL) {
        add_hex(line, ", FIPA ", trap->fipa);
        add_hex(line, ", FAR ", trap->far);
    }
}

/* Where the guest goes on. */
static void add_return(const struct trap *trap, uint64_t before, const struct ritm_registers *frame, struct line *line)
{
    const uint64_t elr = frame->words[RITM_REGISTERS_ELR];
    if (elr - before <= 4) {
        add_decimal(line, ", ELR + ", elr - before);
    } else if (elr == frame->words[RITM_REGISTERS_X + 30]) {
        add(line, ", on at x30");
    } else {
        add_hex(line, ", on at VBAR_EL1 + ", elr - trap->vbar);
    }
}

/* A synchronous exception of the guest: its registers are saved, the trap is served, and the guest goes on with the
   registers that its core then holds. */
void handle_sync_lower(struct ritm_registers *frame, uint64_t core)
{
    const struct trap trap = read_trap(core);
    const uint64_t before = frame->words[RITM_REGISTERS_ELR];
    struct line line = {.length = 0};
    if (!is_within_limit()) {
        finish();
    }
    compare_with_instruction(&trap, frame);
    add_trap(&trap, &line);
    expect("save", ritm_save(&cores, core, frame), RITM_ACCEPTED);
    if (!serve_own_page(&trap, &line)) {
        serve(&trap, frame, &line);
    }
    memcpy(frame, words_of(core), sizeof *frame);
    add_return(&trap, before, frame, &line);
    if (!silent) {
        print_line(&line);
    }
}
