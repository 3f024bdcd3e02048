/* What the run tests, besides the guest's own checks: every answer that the host relies on, every data abort's syndrome
   against the instruction that trapped, and what every call hands out against the registers that it was made with. */
#include "host.h"
#include "syndrome.h"

/* More traps than the guest makes. */
#define MOST_TRAPS 30000

static uint64_t traps;
static uint64_t compared;
static uint64_t compared_calls;
static uint64_t failed;
static uint64_t guest_failures;
static int guest_ended;

static void count(uint64_t *number)
{
    __atomic_fetch_add(number, 1, __ATOMIC_RELAXED);
}

void expect(const char *what, uint64_t got, uint64_t expected)
{
    if (got != expected) {
        print_difference("EL2", what, got, expected);
        count(&failed);
    }
}

/* Counts a trap, and says whether the guest may go on. */
int is_within_limit(void)
{
    count(&traps);
    expect("a guest that does not end", traps >= MOST_TRAPS, 0);
    return traps < MOST_TRAPS;
}

void take_verdict(uint64_t failures)
{
    guest_failures = failures;
    guest_ended = 1;
}

/* The syndrome that the processor reports, and what the library makes of it. EL2 reads the instruction at the guest's
   own address, which this guest never maps elsewhere. */
void compare_with_instruction(const struct trap *trap, const struct ritm_registers *frame)
{
    const uint64_t aarch32 = frame->words[RITM_REGISTERS_SPSR] & 0x10;
    if (EC_OF(trap->esr) != EC_DATA_ABORT_LOWER_EL || aarch32 || trap->esr & ISS_S1PTW) {
        return;
    }
    struct ritm_access_result access;
    const uint32_t instruction = *(const uint32_t *)frame->words[RITM_REGISTERS_ELR];
    const uint64_t iss = iss_of(instruction);
    const uint64_t number = ritm_decode(trap->esr & ESR_ISS, trap->fipa, trap->far, &access);
    count(&compared);
    expect("ESR_EL2", trap->esr & ~ISS_DFSC, ESR_EC(0x24) | ESR_IL | iss);
    expect("decode", number, iss & ISS_ISV ? RITM_ACCEPTED : RITM_NO_SYNDROME);
    if (number == RITM_ACCEPTED) {
        expect("width", access.words[RITM_ACCESS_WIDTH], UINT64_C(8) << (instruction >> 30));
        expect("WnR", access.words[RITM_ACCESS_WNR], (iss & ISS_WNR) != 0);
        expect("Rt", access.words[RITM_ACCESS_RT], instruction & 31);
        expect("SSE", access.words[RITM_ACCESS_SSE], (iss & ISS_SSE) != 0);
        expect("SF", access.words[RITM_ACCESS_SF], (iss & ISS_SF) != 0);
    }
}

/* What a trap hands out. By Arm DEN0028, from version 1.3 on, a call's function identifier is W0, but for bit 16 of a
   fast call, which has bit 31 set: that is the SVE hint. PSCI's identifiers, which differ in bits 30 and 4:0, are the
   firmware's. The core keeps the registers that the guest called with. */
void compare_with_registers(const struct ritm_registers *frame, const uint64_t *core_words,
                            const struct ritm_trap_result *trapped)
{
    const uint64_t kind = trapped->words[RITM_TRAP_KIND];
    const uint64_t *values = &trapped->words[RITM_TRAP_VALUES];
    const uint64_t hint = trapped->words[RITM_TRAP_HINT];
    if (kind != RITM_TRAP_TO_FIRMWARE && kind != RITM_TRAP_TO_PLATFORM) {
        expect("the SVE hint of no call", hint, 0);
        return;
    }
    const uint64_t *x = &frame->words[RITM_REGISTERS_X];
    const uint64_t w0 = x[0] & UINT32_MAX;
    const uint64_t sve_hint = w0 >> 31 & w0 >> 16 & 1;
    const uint64_t identifier = w0 - (sve_hint << 16);
    const int psci = (identifier & UINT64_C(0xbfffffe0)) == PSCI_VERSION;
    count(&compared_calls);
    expect("kind", kind, psci ? RITM_TRAP_TO_FIRMWARE : RITM_TRAP_TO_PLATFORM);
    expect("function identifier", values[0], identifier);
    expect("SVE hint", hint, sve_hint);
    for (size_t i = 1; i < RITM_VALUES_COUNT; i++) {
        expect("x1 to x17", values[i], psci && i > 3 ? 0 : x[i]);
    }
    for (size_t i = 0; i < 31; i++) {
        expect("a calling core's register", core_words[RITM_CORE_X + i], x[i]);
    }
}

void print_verdict(void)
{
    struct line line = {.length = 0};
    add_decimal(&line, "EL2: traps ", traps);
    add_decimal(&line, ", syndromes compared with their instructions ", compared);
    add_decimal(&line, ", calls with their registers ", compared_calls);
    add_decimal(&line, ", failed ", failed);
    print_line(&line);
    print(guest_ended && failed == 0 && guest_failures == 0 ? "all as expected" : "FAILED");
}
