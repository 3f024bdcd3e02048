/* What the host and its guest share: where they stand, the calls between them, and names of Arm's registers. */
#ifndef BOARD_H
#define BOARD_H

#include <stddef.h>
#include <stdint.h>

#define PAGE_SIZE UINT64_C(0x1000)
#define CORES 2

/* Where the host enters the guest, and where the host stands (board/run-el2 links them there). */
#define GUEST_ADDRESS UINT64_C(0x40200000)
#define HOST_ADDRESS UINT64_C(0x70000000)
#define HOST_SIZE UINT64_C(0x400000)

/* The filtered MMIO page of src/platform/qemu.rs. */
#define FILTERED_MMIO_BASE UINT64_C(0x0f000000)

/* Pages that are handled in part, which RITM's platform has not. Of the first the loads are those of the filtered MMIO
   page, and stores are quiet; of the others one direction is quiet, and the other a fault. */
#define HALF_SERVED_BASE UINT64_C(0x300000000)
#define QUIET_LOADS_BASE (HALF_SERVED_BASE + PAGE_SIZE)
#define QUIET_STORES_BASE (QUIET_LOADS_BASE + PAGE_SIZE)

/* Pages of modules that are plugged in and pulled out while the guest runs. The one is handled, and its region stands
   before those of the pages above; two are memory, the last pages of the host's, which it does not use itself. */
#define MODULE_BASE UINT64_C(0x280000000)
#define MODULE_MEMORY (HOST_ADDRESS + HOST_SIZE - 2 * PAGE_SIZE)

/* A page that the host serves itself: loads give these eight bytes, repeated. */
#define OWN_PAGE_BASE UINT64_C(0x100000000)
#define OWN_PAGE_WORD UINT64_C(0x8091a2b3047566f7)

/* An address that the policy neither allows nor handles. */
#define NOWHERE UINT64_C(0x200000000)

/* Arm DEN0022. */
#define PSCI_VERSION UINT64_C(0x84000000)
#define PSCI_SYSTEM_OFF UINT64_C(0x84000008)
#define PSCI_FEATURES UINT64_C(0x8400000a)
#define PSCI_CPU_ON UINT64_C(0xc4000003)
#define PSCI_NOT_SUPPORTED UINT64_MAX
#define PSCI_INVALID_PARAMETERS (-UINT64_C(2))

/* A call that RITM's QEMU platform answers for tests, and its answer. */
#define TEST_CALL UINT64_C(0xff000000)
#define TEST_CALL_ANSWER UINT64_C(0x123456789abcdef0)

/* The guest's own: how many of its checks failed, and whether traps print no lines. */
#define VERDICT_CALL UINT64_C(0xff000001)
#define SILENT_CALL UINT64_C(0xff000002)

/* The guest's own too: a module comes or goes. The page at x1 is handled, loads by x2 and stores by x3; allowed, as
   memory; or released. The library's answer comes back in x0. */
#define HANDLE_CALL UINT64_C(0xff000003)
#define ALLOW_CALL UINT64_C(0xff000004)
#define RELEASE_CALL UINT64_C(0xff000005)

/* ESR_EL1 and ESR_EL2, and the ISS of a data abort (Arm DDI 0601). */
#define ESR_EC(ec) (UINT64_C(ec) << 26)
#define EC_OF(esr) ((esr) >> 26 & 0x3f)
#define EC_DATA_ABORT_LOWER_EL UINT64_C(0x24)
#define ESR_IL (UINT64_C(1) << 25)
#define ESR_ISS UINT64_C(0x1ffffff)
#define ISS_ISV (UINT64_C(1) << 24)
#define ISS_SAS(size) ((uint64_t)(size) << 22)
#define ISS_SSE (UINT64_C(1) << 21)
#define ISS_SRT(register) ((uint64_t)(register) << 16)
#define ISS_SF (UINT64_C(1) << 15)
#define ISS_AR (UINT64_C(1) << 14)
#define ISS_S1PTW (UINT64_C(1) << 7)
#define ISS_WNR (UINT64_C(1) << 6)
#define ISS_DFSC UINT64_C(0x3f)
#define DFSC_TRANSLATION(level) (UINT64_C(4) + (level))

#define READ_REGISTER(name)                                                                                            \
    ({                                                                                                                 \
        uint64_t value_;                                                                                               \
        __asm__ volatile("mrs %0, " #name : "=r"(value_));                                                             \
        value_;                                                                                                        \
    })
#define WRITE_REGISTER(name, value) __asm__ volatile("msr " #name ", %0" : : "r"((uint64_t)(value)) : "memory")

/* The firmware turns the board off. */
static inline _Noreturn void turn_off(void)
{
    register uint64_t x0 __asm__("x0") = PSCI_SYSTEM_OFF;
    __asm__ volatile("smc #0" : "+r"(x0) : : "memory");
    for (;;) {
    }
}

/* memory.c: what the library and a compiler need of a C library. */
void *memset(void *bytes, int value, size_t size);
void *memcpy(void *restrict bytes, const void *restrict source, size_t size);

#endif
