/*
 * Compares what accesses through a region's handlers come to with what documents 01 and 02 say of its halves: loads and
 * stores of every syndrome, through every pair of handlers; and then regions that are stored over other handlers'
 * codes, which must make no difference.
 */
#include <inttypes.h>
#include <stdio.h>
#include <stdlib.h>
#include <string.h>

#include "ritm.h"

#define LENGTH(array) (sizeof(array) / sizeof(array)[0])

#define PAGE UINT64_C(0x1000)
#define REGION(k) (UINT64_C(0x0f000000) + PAGE * (k))
#define STORE_VALUE UINT64_C(0x123456789abcdef0)

/* The core that makes the accesses; its x5 holds what the filtered MMIO page takes. */
#define CORE UINT64_C(3)
#define CORE_WORD(place) (CORE * RITM_CORE_WORDS + (place))

/* ESR_EL2's bits that say nothing of an access: all but EC, ISV, SAS, SSE, SRT, SF and WnR (Arm DDI 0601). */
#define OTHER_BITS UINT64_C(0xffffffff02007fbf)

/* An access: the codes of its region's handlers, the fields of its syndrome and what else there is in ESR_EL2, its
   offset in the region, VBAR_EL1, and where the guest stands. */
struct access {
    uint64_t read;
    uint64_t write;
    uint64_t isv;
    uint64_t sas;
    uint64_t sse;
    uint64_t rt;
    uint64_t sf;
    uint64_t wnr;
    uint64_t others;
    uint64_t offset;
    uint64_t vbar;
    uint64_t elr;
};

static uint64_t accesses;

static uint64_t esr_of(const struct access *access)
{
    return access->others | UINT64_C(0x24) << 26 | access->isv << 24 | access->sas << 22 | access->sse << 21 |
           access->rt << 16 | access->sf << 15 | access->wnr << 6;
}

static uint64_t far_of(const struct access *access)
{
    return UINT64_C(0x7654321000) + access->offset;
}

/*
 * What the documents say.
 */

/* Document 01, "Filtered page": whether it serves the access, and a load's word. */
static int page_serves(const struct access *access, struct ritm_cores *cores, uint64_t *word)
{
    const uint64_t value = access->rt == 31 ? 0 : ritm_get_word(cores, CORE_WORD(RITM_CORE_X + access->rt));
    const uint64_t counter = ritm_get_word(cores, RITM_CORES_COUNTER);
    if (access->sas != 3) {
        return 0;
    }
    if (access->wnr) {
        return access->offset == 8 && value == STORE_VALUE;
    }
    switch (access->offset) {
    case 0:
        *word = UINT64_C(0xfeedfacecafebeef);
        return 1;
    case 16:
        *word = counter;
        ritm_put_word(cores, RITM_CORES_COUNTER, counter + 1);
        return 1;
    case 24:
        *word = UINT64_C(0x1111222233334444);
        return 1;
    case 32:
        *word = UINT64_C(0x5555666677778888);
        return 1;
    case 40:
        *word = UINT64_C(0x9999aaaabbbbcccc);
        return 1;
    default:
        return 0;
    }
}

/* Document 01, "Trap", and document 02, "An absent half answers quietly": does an access that is handled, and gives its
   kind. Half 0 is absent, 1 the filtered page, 2 a fault, as which unknown codes are read. */
static uint64_t serve(const struct access *access, struct ritm_cores *cores)
{
    const uint64_t half = access->wnr ? access->write : access->read;
    uint64_t word = 0;
    if (!access->isv || half >= 2 || (half == 1 && !page_serves(access, cores, &word))) {
        return RITM_TRAP_ABORT_INJECTED;
    }
    if (!access->wnr && access->rt != 31) {
        ritm_put_word(cores, CORE_WORD(RITM_CORE_X + access->rt), access->sf ? word : word & UINT32_MAX);
    }
    ritm_put_word(cores, CORE_WORD(RITM_CORE_ELR), access->elr + 4);
    return access->wnr ? RITM_TRAP_STORE_HANDLED : RITM_TRAP_LOAD_HANDLED;
}

/* Document 01, "Trap": what an injection writes. EC 0x24 becomes 0x25. */
static void inject(const struct access *access, struct ritm_cores *cores)
{
    ritm_put_word(cores, CORE_WORD(RITM_CORE_ELR_EL1), access->elr);
    ritm_put_word(cores, CORE_WORD(RITM_CORE_SPSR_EL1), ritm_get_word(cores, CORE_WORD(RITM_CORE_SPSR)));
    ritm_put_word(cores, CORE_WORD(RITM_CORE_FAR_EL1), far_of(access));
    ritm_put_word(cores, CORE_WORD(RITM_CORE_ESR_EL1), esr_of(access) | UINT64_C(1) << 26);
    ritm_put_word(cores, CORE_WORD(RITM_CORE_ELR), access->vbar + 0x200);
    ritm_put_word(cores, CORE_WORD(RITM_CORE_SPSR), 0x3c5);
}

/* What the call returns, the kind in its result, and what it leaves in the cores. */
static uint64_t expected(const struct access *access, struct ritm_cores *cores, uint64_t *kind)
{
    *kind = serve(access, cores);
    if (*kind != RITM_TRAP_ABORT_INJECTED) {
        return RITM_ACCEPTED;
    }
    if (access->vbar == 0) {
        *kind = RITM_TRAP_REFUSED;
        return RITM_NO_GUEST_VECTOR;
    }
    inject(access, cores);
    return RITM_ACCEPTED;
}

/*
 * What the archive does.
 */

/* Every word of the cores is another. The counter is the last that there is, so that a load of it wraps. */
static void fill_cores(struct ritm_cores *cores, uint64_t elr)
{
    for (size_t k = 0; k < RITM_CORES_SIZE / 8; k++) {
        ritm_put_word(cores, k, UINT64_C(0xa1a2a3a4a5a6a000) + k);
    }
    ritm_put_word(cores, CORE_WORD(RITM_CORE_X + 5), STORE_VALUE);
    ritm_put_word(cores, CORE_WORD(RITM_CORE_ELR), elr);
    ritm_put_word(cores, CORE_WORD(RITM_CORE_SPSR), 5);
    ritm_put_word(cores, CORE_WORD(RITM_CORE_WAIT), RITM_WAIT_NOTHING);
    ritm_put_word(cores, RITM_CORES_COUNTER, UINT64_MAX);
}

static void fail(const struct access *access, const char *what, uint64_t got, uint64_t wanted)
{
    printf("halves: ESR 0x%" PRIx64 " at offset %" PRIu64 ", handlers %" PRIu64 " and %" PRIu64 ", VBAR 0x%" PRIx64
           ", ELR 0x%" PRIx64 ": %s 0x%" PRIx64 " instead of 0x%" PRIx64 "\n",
           esr_of(access), access->offset, access->read, access->write, access->vbar, access->elr, what, got, wanted);
    exit(1);
}

static void compare(const struct access *access, const char *what, const void *got, const void *wanted, size_t size)
{
    for (size_t k = 0; k < size / 8; k++) {
        if (ritm_get_word(got, k) != ritm_get_word(wanted, k)) {
            printf("halves: word %zu of the %s\n", k, what);
            fail(access, what, ritm_get_word(got, k), ritm_get_word(wanted, k));
        }
    }
}

/* Makes an access to a region that a policy holds, and compares all that it returns, writes and leaves. */
static void make_access(const struct ritm_policy *policy, uint64_t base, const struct access *access)
{
    const struct ritm_policy policy_before = *policy;
    struct ritm_cores cores;
    struct ritm_cores wanted;
    struct ritm_trap_result trapped;
    struct ritm_trap_result result = {{0}};
    uint64_t kind;
    fill_cores(&cores, access->elr);
    wanted = cores;
    memset(&trapped, 0xa5, sizeof trapped);
    const uint64_t number = expected(access, &wanted, &kind);
    const uint64_t answer =
        ritm_trap(policy, &cores, CORE, esr_of(access), base / PAGE, far_of(access), access->vbar, &trapped);
    if (answer != number) {
        fail(access, "answer", answer, number);
    }
    ritm_put_word(&result, RITM_TRAP_KIND, kind);
    compare(access, "result", &trapped, &result, sizeof result);
    compare(access, "cores", &cores, &wanted, sizeof cores);
    compare(access, "policy", policy, &policy_before, sizeof *policy);
    accesses++;
}

static void handle(struct ritm_policy *policy, uint64_t base, uint64_t read, uint64_t write)
{
    if (ritm_handle_range(policy, base, PAGE, read, write) != RITM_ACCEPTED) {
        printf("halves: a region at 0x%" PRIx64 " is refused\n", base);
        exit(1);
    }
}

static size_t region_word(size_t region, size_t word)
{
    return RITM_POLICY_REGIONS + region * RITM_REGION_WORDS + word;
}

/*
 * Every access.
 */

static uint64_t take(uint64_t *number, const uint64_t *choices, size_t count)
{
    const uint64_t choice = choices[*number % count];
    *number /= count;
    return choice;
}

#define TAKE(number, ...)                                                                                              \
    take(number, (const uint64_t[]){__VA_ARGS__}, sizeof((const uint64_t[]){__VA_ARGS__}) / sizeof(uint64_t))

/* The access of a number, if the number has one. The codes above 2 are unknown ones. */
static int access_of(uint64_t number, struct access *access)
{
    access->read = TAKE(&number, 0, 1, 2, UINT64_MAX);
    access->write = TAKE(&number, 0, 1, 2, UINT64_MAX);
    access->isv = TAKE(&number, 0, 1);
    access->sas = TAKE(&number, 0, 1, 2, 3);
    access->sse = TAKE(&number, 0, 1);
    access->rt = TAKE(&number, 0, 5, 29, 30, 31);
    access->sf = TAKE(&number, 0, 1);
    access->wnr = TAKE(&number, 0, 1);
    access->others = TAKE(&number, 0, OTHER_BITS);
    access->offset = TAKE(&number, 0, 3, 8, 16, 24, PAGE - 1);
    access->vbar = TAKE(&number, 0, UINT64_C(0x80000));
    access->elr = TAKE(&number, UINT64_C(0x40200000), UINT64_MAX - 3);
    return number == 0;
}

/* A region with these codes: a handle call takes the known ones, and the policy's bytes may hold any. */
static void make_policy(struct ritm_policy *policy, uint64_t read, uint64_t write)
{
    ritm_fresh_policy(policy);
    handle(policy, REGION(0), read % RITM_HANDLER_COUNT, write % RITM_HANDLER_COUNT);
    if (read >= RITM_HANDLER_COUNT) {
        ritm_put_word(policy, region_word(0, RITM_REGION_READ), read);
    }
    if (write >= RITM_HANDLER_COUNT) {
        ritm_put_word(policy, region_word(0, RITM_REGION_WRITE), write);
    }
}

static void make_every_access(void)
{
    struct access access;
    for (uint64_t number = 0; access_of(number, &access); number++) {
        struct ritm_policy policy;
        make_policy(&policy, access.read, access.write);
        make_access(&policy, REGION(0), &access);
    }
}

/*
 * Codes that stand where a region is stored: an earlier region's, which moves on, or what the bytes held.
 */

static const uint64_t codes[] = {0, 1, 2, 3, UINT64_MAX};

/* Accesses that tell a region's handlers apart: a load of the counter, and two stores, one of which the filtered MMIO
   page takes. */
static void tell_apart(const struct ritm_policy *policy, uint64_t base, uint64_t read, uint64_t write)
{
    struct access access = {.read = read, .write = write, .isv = 1, .sas = 3, .rt = 5, .sf = 1, .vbar = 0x80000};
    access.offset = 16;
    make_access(policy, base, &access);
    access.wnr = 1;
    make_access(policy, base, &access);
    access.offset = 8;
    make_access(policy, base, &access);
}

/* A policy that is fresh but for these codes in all its places. */
static void make_stale_policy(struct ritm_policy *policy, uint64_t read, uint64_t write)
{
    ritm_fresh_policy(policy);
    for (size_t k = 0; k < RITM_MAX_MEMORY_ACCESS_HANDLERS; k++) {
        ritm_put_word(policy, region_word(k, RITM_REGION_READ), read);
        ritm_put_word(policy, region_word(k, RITM_REGION_WRITE), write);
    }
}

/* A region, and then one below it, which takes its place. Each pair of handlers is one of nine. */
static void handle_below(uint64_t stale_read, uint64_t stale_write)
{
    for (uint64_t pairs = 0; pairs < 81; pairs++) {
        const uint64_t upper = pairs / 9;
        const uint64_t lower = pairs % 9;
        struct ritm_policy policy;
        make_stale_policy(&policy, stale_read, stale_write);
        handle(&policy, REGION(2), upper / 3, upper % 3);
        tell_apart(&policy, REGION(2), upper / 3, upper % 3);
        handle(&policy, REGION(0), lower / 3, lower % 3);
        tell_apart(&policy, REGION(0), lower / 3, lower % 3);
        tell_apart(&policy, REGION(2), upper / 3, upper % 3);
    }
}

/* All the regions that there may be, by steps of an odd number modulo 16, so that each place takes several of them. */
static void handle_all(uint64_t stale_read, uint64_t stale_write, uint64_t step)
{
    struct ritm_policy policy;
    make_stale_policy(&policy, stale_read, stale_write);
    for (uint64_t held = 1; held <= RITM_MAX_MEMORY_ACCESS_HANDLERS; held++) {
        for (uint64_t k = 0; k < held; k++) {
            const uint64_t region = k * step % RITM_MAX_MEMORY_ACCESS_HANDLERS;
            const uint64_t read = region % 3;
            const uint64_t write = region / 3 % 3;
            if (k + 1 == held) {
                handle(&policy, REGION(region), read, write);
            }
            tell_apart(&policy, REGION(region), read, write);
        }
    }
}

int main(void)
{
    make_every_access();
    printf("halves: %" PRIu64 " accesses through every pair of handlers as the documents say\n", accesses);
    accesses = 0;
    for (size_t read = 0; read < LENGTH(codes); read++) {
        for (size_t write = 0; write < LENGTH(codes); write++) {
            handle_below(codes[read], codes[write]);
            handle_all(codes[read], codes[write], 5);
            handle_all(codes[read], codes[write], 15);
        }
    }
    printf("halves: %" PRIu64 " accesses to regions that are stored over other codes, as their own codes say\n",
           accesses);
    return 0;
}
