/*
 * The C interface of Malfroek: RITM's stage-2 policy, guest traps and suspend map, as a proved static archive.
 *
 * Buffers. All state is the caller's. It stands in buffers of fixed sizes, a struct of 64-bit words for each. A word is
 * little-endian in memory whatever the processor is: ritm_get_word reads it on any host, and a little-endian one may
 * read and write words[k] itself. Any words are a valid state: an unknown code of a region's handler reads as
 * RITM_HANDLER_FAULT, and any other unknown code as 0. Every buffer of a call must be readable and, unless it is const,
 * writable in its whole size, whatever the call comes to: no pointer may be null, but for the blob of an import whose
 * length is 0. The buffers of one call must not overlap. No function keeps a pointer.
 *
 * Alignment. A buffer that is declared by its type is aligned to 8, and no archive asks for more. One that comes from
 * elsewhere must be aligned to 8 too for the archive for 64-bit Arm, whose accesses are of 64 bits at multiples of 8
 * from the buffer's start, or the processor must take accesses at any address (at EL2: the buffer in normal memory, the
 * MMU on, SCTLR_EL2.A clear). The strict archive for 64-bit Arm and the one for x86-64 take a buffer anywhere
 * (board/README.md). So does ritm_import_memory of every archive, with its policy and its blob.
 *
 * Other code. Of other code the archive calls memcpy and memset alone; the one for 64-bit Arm calls memcpy in
 * ritm_import_memory alone.
 *
 * Several processors. The archive has no data of its own, so calls on different buffers may run at the same time. Calls
 * on the same buffer may only where all of them take it as const: a policy may be shared by all cores while no call
 * changes it, and a change of it, as a release, waits for the traps under way. A cores buffer needs one lock of the
 * caller's for the whole of it, and not one for each core, since the counter is one for all. A map needs one too.
 *
 * Some calls touch the words of their own core alone, and not the counter: ritm_save, ritm_reply, ritm_read_gpr,
 * ritm_write_gpr, and ritm_trap with an EC (bits 31:26 of ESR_EL2) other than 0x24, which forwards a call or is
 * refused. On different cores of one buffer these may run without the lock, also beside a call on another core that
 * holds it. A trap with EC 0x24, a data abort, reads the counter; only a load of the counter word writes it.
 *
 * Answers. Every function returns RITM_ACCEPTED or the number of a refusal (enum ritm_refusal); ritm_buffer_size alone
 * returns a size. Where several refusals apply, the first in the order given at the function is returned. A refusal
 * leaves every state buffer as it was. A result buffer is written whole on every call, zeros where there is nothing.
 */
#ifndef RITM_H
#define RITM_H

#include <stddef.h>
#include <stdint.h>

#ifdef __cplusplus
extern "C" {
#endif

/* How much the state holds. */
#define RITM_MAX_ALLOWED_RANGES 32
#define RITM_MAX_MEMORY_ACCESS_HANDLERS 16
#define RITM_MAX_CORES 8
#define RITM_MAX_SUSPENDED_CORES 8

/* The sizes of the buffers, in bytes. */
#define RITM_POLICY_SIZE 1680
#define RITM_CORES_SIZE 2440
#define RITM_MAP_SIZE 256
#define RITM_REGISTERS_SIZE 264
#define RITM_VALUES_SIZE 144
#define RITM_TRAP_RESULT_SIZE 160
#define RITM_FIND_RESULT_SIZE 24
#define RITM_ENTRY_RESULT_SIZE 24
#define RITM_ACCESS_RESULT_SIZE 48
#define RITM_WORD_RESULT_SIZE 8

/* The buffers: state, */
struct ritm_policy {
    uint64_t words[RITM_POLICY_SIZE / 8];
};
struct ritm_cores {
    uint64_t words[RITM_CORES_SIZE / 8];
};
struct ritm_suspend_map {
    uint64_t words[RITM_MAP_SIZE / 8];
};
/* what a save and a reply are given, */
struct ritm_registers {
    uint64_t words[RITM_REGISTERS_SIZE / 8];
};
struct ritm_values {
    uint64_t words[RITM_VALUES_SIZE / 8];
};
/* and results. */
struct ritm_trap_result {
    uint64_t words[RITM_TRAP_RESULT_SIZE / 8];
};
struct ritm_find_result {
    uint64_t words[RITM_FIND_RESULT_SIZE / 8];
};
struct ritm_entry_result {
    uint64_t words[RITM_ENTRY_RESULT_SIZE / 8];
};
struct ritm_access_result {
    uint64_t words[RITM_ACCESS_RESULT_SIZE / 8];
};
struct ritm_word_result {
    uint64_t words[RITM_WORD_RESULT_SIZE / 8];
};

/* The number of each buffer, for ritm_buffer_size. */
enum ritm_buffer {
    RITM_BUFFER_POLICY = 0,
    RITM_BUFFER_CORES = 1,
    RITM_BUFFER_MAP = 2,
    RITM_BUFFER_REGISTERS = 3,
    RITM_BUFFER_VALUES = 4,
    RITM_BUFFER_TRAP_RESULT = 5,
    RITM_BUFFER_FIND_RESULT = 6,
    RITM_BUFFER_ENTRY_RESULT = 7,
    RITM_BUFFER_ACCESS_RESULT = 8,
    RITM_BUFFER_WORD_RESULT = 9
};

/* What a function returns. */
enum ritm_refusal {
    RITM_ACCEPTED = 0,
    /* The base is not a multiple of 4096. */
    RITM_RANGE_BASE_NOT_PAGE_ALIGNED = 1,
    /* The size is 0. */
    RITM_EMPTY_RANGE = 2,
    /* The size is not a multiple of 4096. */
    RITM_RANGE_SIZE_NOT_PAGE_MULTIPLE = 3,
    /* Base + size is 2^64 or more. */
    RITM_RANGE_END_OVERFLOW = 4,
    /* 32 ranges are allowed already. */
    RITM_TOO_MANY_ALLOWED_RANGES = 5,
    /* The range shares a byte with an allowed range. */
    RITM_ALLOWED_RANGE_OVERLAP = 6,
    /* The range to allow shares a byte with a region. */
    RITM_ALLOWED_RANGE_OVERLAPS_MEMORY_ACCESS_HANDLER = 7,
    /* 16 regions are handled already. */
    RITM_TOO_MANY_MEMORY_ACCESS_HANDLER_REGIONS = 8,
    /* The range to handle shares a byte with a region. */
    RITM_MEMORY_ACCESS_HANDLER_RANGE_OVERLAP = 9,
    /* The core's number is above 7. */
    RITM_NO_SUCH_CORE = 10,
    /* A trap or a save while the core waits for a reply. */
    RITM_CORE_WAITING = 11,
    /* ESR_EL2's EC is none of 0x16, 0x17 and 0x24. */
    RITM_UNEXPECTED_EXCEPTION_CLASS = 12,
    /* An abort is to be injected and VBAR_EL1 is 0. (An access that is served, quietly or not, needs no vector.) */
    RITM_NO_GUEST_VECTOR = 13,
    /* A reply to a core that waits for none. */
    RITM_NOTHING_WAITING = 14,
    /* The reply's kind is above 4, or neither 1 nor 4 for a call to the firmware. */
    RITM_UNKNOWN_REPLY_KIND = 15,
    /* The key is not held and all 8 places of the suspend map are taken. */
    RITM_CAPACITY_EXCEEDED = 16,
    /* The register's index is above 31. */
    RITM_NO_SUCH_REGISTER = 17,
    /* No page boundary above the address is below 2^64. */
    RITM_NO_PAGE_ABOVE = 18,
    /* The ISS has ISV clear. */
    RITM_NO_SYNDROME = 19,
    /* A handler's number is none of enum ritm_memory_handler: it is above 2. */
    RITM_UNKNOWN_MEMORY_HANDLER = 20,
    /* The bytes are no devicetree blob of up to 64 KiB that ritm_import_memory reads, or a cell count of its root or a
       memory node's reg has a wrong length. */
    RITM_INVALID_DEVICETREE = 21,
    /* The devicetree's root has an #address-cells or #size-cells other than 1 and 2. */
    RITM_UNSUPPORTED_CELL_COUNTS = 22,
    /* No allowed range and no region with this base and this size is held. */
    RITM_RANGE_NOT_HELD = 23
};

/* Who serves the loads or the stores of a region, each direction by its own handler. A trap whose syndrome has no valid
   fields (ISV clear) injects the abort whatever the handlers are. */
enum ritm_memory_handler {
    /* Nobody, quietly: a load of any width gives 0, a store is dropped, and the guest goes on past the instruction. */
    RITM_HANDLER_ABSENT = 0,
    /* The filtered MMIO page: what it does not serve is a fault, and the guest gets the abort. */
    RITM_HANDLER_FILTERED_MMIO = 1,
    /* Nobody: the guest gets the abort, as it does in RITM where a handler is missing. */
    RITM_HANDLER_FAULT = 2,
    /* How many there are. */
    RITM_HANDLER_COUNT
};

/* What a core waits for: the reply to a forwarded call, by its conduit and its recipient. */
enum ritm_wait {
    RITM_WAIT_NOTHING = 0,
    RITM_WAIT_HVC_FIRMWARE = 1,
    RITM_WAIT_HVC_PLATFORM = 2,
    RITM_WAIT_SMC_FIRMWARE = 3,
    RITM_WAIT_SMC_PLATFORM = 4
};

/* What an accepted trap came to; 0 stands in the result of a refused one. */
enum ritm_trap_kind {
    RITM_TRAP_REFUSED = 0,
    /* The register is written, and ELR is past the instruction. */
    RITM_TRAP_LOAD_HANDLED = 1,
    /* ELR is past the instruction. */
    RITM_TRAP_STORE_HANDLED = 2,
    /* ELR and SPSR lead to the guest's vector. The host writes ELR_EL1, SPSR_EL1, FAR_EL1 and ESR_EL1 from the core. */
    RITM_TRAP_ABORT_INJECTED = 3,
    /* The core waits. The host asks the firmware, with the first four values, and replies. */
    RITM_TRAP_TO_FIRMWARE = 4,
    /* The core waits. The host answers itself, by the eighteen values, and replies. */
    RITM_TRAP_TO_PLATFORM = 5
};

/* The kinds of a reply, and the registers that each writes. */
enum ritm_reply_kind {
    /* Acts as the error -1, SMCCC's NOT_SUPPORTED. */
    RITM_REPLY_UNHANDLED = 0,
    /* The first value to x0, zero to x1, x2 and x3. */
    RITM_REPLY_VALUE = 1,
    /* Four values to x0 to x3. */
    RITM_REPLY_SUCCESS = 2,
    /* Eighteen values to x0 to x17. */
    RITM_REPLY_SUCCESS_LARGE = 3,
    /* The error, sign-extended, to x0. */
    RITM_REPLY_ERROR = 4
};

/*
 * Places of words: indexes of words[], and what ritm_get_word takes. A count above its limit reads as the limit. Places
 * past a count, and the words of a free place of the suspend map, may hold anything.
 */

/* Policy: allowed range k stands at word RITM_POLICY_ALLOWED + k * RITM_ALLOWED_WORDS, in order of arrival. */
#define RITM_POLICY_ALLOWED 0
#define RITM_ALLOWED_WORDS 4
#define RITM_ALLOWED_BASE 0
#define RITM_ALLOWED_SIZE 1
#define RITM_ALLOWED_END 2
#define RITM_ALLOWED_ATTRIBUTES 3
#define RITM_POLICY_ALLOWED_COUNT 128

/* Policy: region k, a range whose accesses are handled, stands at word RITM_POLICY_REGIONS + k * RITM_REGION_WORDS,
   ascending by base. RITM_REGION_READ and RITM_REGION_WRITE are its handlers (enum ritm_memory_handler). */
#define RITM_POLICY_REGIONS 129
#define RITM_REGION_WORDS 5
#define RITM_REGION_BASE 0
#define RITM_REGION_SIZE 1
#define RITM_REGION_END 2
#define RITM_REGION_READ 3
#define RITM_REGION_WRITE 4
#define RITM_POLICY_REGION_COUNT 209

/* Cores: core i stands at word i * RITM_CORE_WORDS. Its first words are those of the registers buffer. */
#define RITM_CORE_WORDS 38
#define RITM_CORE_X 0
#define RITM_CORE_ELR 31
#define RITM_CORE_SPSR 32
#define RITM_CORE_ELR_EL1 33
#define RITM_CORE_SPSR_EL1 34
#define RITM_CORE_FAR_EL1 35
#define RITM_CORE_ESR_EL1 36
#define RITM_CORE_WAIT 37
/* The counter of the filtered MMIO page stands after the cores, and is one for all of them. */
#define RITM_CORES_COUNTER 304

/* Suspend map: place k stands at word k * RITM_MAP_WORDS. It is taken where its first word is 1. */
#define RITM_MAP_WORDS 4
#define RITM_MAP_TAKEN 0
#define RITM_MAP_KEY 1
#define RITM_MAP_ENTRY_POINT 2
#define RITM_MAP_CONTEXT_ID 3

/* Registers: x0 to x30, ELR and SPSR as the hardware saved them. */
#define RITM_REGISTERS_X 0
#define RITM_REGISTERS_ELR 31
#define RITM_REGISTERS_SPSR 32

/* Values of a reply: as many from the first on as its kind uses. */
#define RITM_VALUES_COUNT 18

/* Trap result: the kind; the values of a forwarded call, its function identifier and then x1 to x3 for the firmware or
   x1 to x17 for the platform; and its hint, 0 or 1. */
#define RITM_TRAP_KIND 0
#define RITM_TRAP_VALUES 1
#define RITM_TRAP_HINT 19

/* Find result. */
#define RITM_FIND_FOUND 0
#define RITM_FIND_INDEX 1
#define RITM_FIND_OFFSET 2

/* Entry result. */
#define RITM_ENTRY_FOUND 0
#define RITM_ENTRY_ENTRY_POINT 1
#define RITM_ENTRY_CONTEXT_ID 2

/* Access result: width in bits, WnR 0 for a load and 1 for a store. */
#define RITM_ACCESS_IPA 0
#define RITM_ACCESS_WIDTH 1
#define RITM_ACCESS_WNR 2
#define RITM_ACCESS_RT 3
#define RITM_ACCESS_SSE 4
#define RITM_ACCESS_SF 5

/* Word k of a buffer, which may stand anywhere. */
static inline uint64_t ritm_get_word(const void *buffer, size_t k)
{
    const uint8_t *bytes = (const uint8_t *)buffer + 8 * k;
    uint64_t word = 0;
    for (size_t i = 8; i > 0; i--) {
        word = word << 8 | bytes[i - 1];
    }
    return word;
}

/* Sets word k of a buffer, which may stand anywhere. */
static inline void ritm_put_word(void *buffer, size_t k, uint64_t word)
{
    uint8_t *bytes = (uint8_t *)buffer + 8 * k;
    for (size_t i = 0; i < 8; i++) {
        bytes[i] = (uint8_t)(word >> (8 * i));
    }
}

/*
 * The stage-2 policy.
 */

/* Makes the policy fresh: no range, no region. */
uint64_t ritm_fresh_policy(struct ritm_policy *policy);

/* Allows the guest direct access to a range, with any attribute word. Refusals 1 to 7. */
uint64_t ritm_allow_range(struct ritm_policy *policy, uint64_t base_ipa, uint64_t size, uint64_t attributes);

/* Has the guest's accesses to a range handled, loads by one handler and stores by another (enum ritm_memory_handler).
   Refusals 20, 1 to 4, 6, 8, 9. */
uint64_t ritm_handle_range(struct ritm_policy *policy, uint64_t base_ipa, uint64_t size, uint64_t read, uint64_t write);

/*
 * Allows the memory that a flattened devicetree (Devicetree Specification, chapter 5, version 17) describes: for each
 * child of the root whose device_type is "memory", in the blob's order, every base and size of its reg, all with one
 * attribute word. It is all of these ritm_allow_range calls, or none of them. A node's name and its status make no
 * difference, a memory node below a child of the root is not used, and in a node the first property of a name counts.
 * A blob without memory is accepted, and allows nothing.
 *
 * Refusals: 21; 22; then that of the first pair that is refused, 1 to 7. A size of 0, as in a blob whose memory a boot
 * loader has yet to fill in, is 2.
 *
 * The blob may stand at any address, but not over the policy. All of its length bytes must be the caller's to read;
 * only the first totalsize are read, so that length may be more than totalsize and than 64 KiB. A totalsize above
 * 65,536 is 21, and so is length 0, for which alone blob may be null.
 *
 * It works on a copy of the policy, and takes some 2.7 KiB of stack, where every other call takes 128 bytes at most
 * (the strict archive's 1,024).
 *
 * A blob straight from QEMU is refused with 21: its totalsize is 1 MiB, and some of its values are not filled up with
 * zero bytes, which fdt_pack leaves so. A host writes it anew first, with dtc -I dtb -O dtb.
 */
uint64_t ritm_import_memory(struct ritm_policy *policy, const void *blob, uint64_t length, uint64_t attributes);

/*
 * Releases the first allowed range that is held with this base and size, or else the first region with them: one record.
 * It goes by the stored base and size alone, and not by the stored end. The others keep their order: those after it move
 * down one place, and the count becomes the number of those left. Words past it keep what they held, so the last of
 * those that moved stands twice. No word of the other list is written. Refusals 1 to 4, 23.
 *
 * The freed place is used again: a policy takes further ritm_allow_range, ritm_handle_range and ritm_import_memory calls
 * at any time, between traps too. No core holds a range: one that waits for a reply, or that has an abort to come, goes
 * on as it would have. What the host wrote into page tables for a range is its own to take back.
 */
uint64_t ritm_release_range(struct ritm_policy *policy, uint64_t base_ipa, uint64_t size);

/* Finds the first region with the address, and the offset in it. No refusal: none is found 0. */
uint64_t ritm_find(const struct ritm_policy *policy, uint64_t ipa, struct ritm_find_result *found);

/*
 * The cores.
 */

/* Makes the eight cores fresh: all zero, waiting for nothing; the counter too. */
uint64_t ritm_fresh_cores(struct ritm_cores *cores);

/* Puts in a core's registers as the hardware saved them. Refusals 10, 11. */
uint64_t ritm_save(struct ritm_cores *cores, uint64_t core, const struct ritm_registers *registers);

/* Takes a core's trap: ESR_EL2, the FIPA of HPFAR_EL2 (a page number), FAR_EL2, and the guest's VBAR_EL1. The core
   then goes on from its registers, or waits for the reply to a forwarded call. Refusals 10 to 13. After 12 and 13 the
   core stands at the instruction that trapped: returning to the guest makes the same trap again, for ever, so the host
   must stop the guest or move it on. After a stage-2 permission fault HPFAR_EL2 need not be valid (Arm DDI 0601): a
   host whose attributes allow a range for reading or for writing alone finds the IPA itself (AT S1E1R, AT S1E1W).

   A data abort is an access to a region if one has its address, and the region's handler for loads or for stores says
   what comes of it (enum ritm_memory_handler). The guest gets the abort where no region has the address, where the
   handler is RITM_HANDLER_FAULT or the filtered MMIO page has nothing there, and where ESR_EL2 has ISV clear.

   A call, by HVC or SMC, is forwarded by its function identifier (Arm DEN0028 from version 1.3 on): the low 32 bits of
   x0, of which bit 16 is cleared in a fast call, one with bit 31 set. PSCI's identifiers, 0x84000000 to 0x8400001F and
   0xC4000000 to 0xC400001F, go to the firmware, all others to the platform. The identifier is handed out in place of
   x0; the other registers are handed out whole, and the core's own x0 stays as it was. The hint is that bit 16 of a
   fast call: 1 where the guest says that it holds no live SVE state. It is 0 in a yielding call and in every other
   answer. A host that passes the call on to firmware of that version may set bit 16 again by it. */
uint64_t ritm_trap(const struct ritm_policy *policy, struct ritm_cores *cores, uint64_t core, uint64_t esr,
                   uint64_t fipa, uint64_t far, uint64_t vbar, struct ritm_trap_result *trapped);

/* Gives a core the reply that it waits for (enum ritm_reply_kind). Values and error that the kind does not
   use make no difference; the buffer of values must be readable all the same. Refusals 10, 14, 15. */
uint64_t ritm_reply(struct ritm_cores *cores, uint64_t core, uint64_t kind, const struct ritm_values *values,
                    int32_t error);

/* Reads a core's register: x0 to x30 by their index, and 0 for index 31. Refusals 10, 17. */
uint64_t ritm_read_gpr(const struct ritm_cores *cores, uint64_t core, uint64_t index, struct ritm_word_result *word);

/* Writes a core's register, whether it waits or not; index 31 takes no write. Refusals 10, 17. */
uint64_t ritm_write_gpr(struct ritm_cores *cores, uint64_t core, uint64_t index, uint64_t value);

/*
 * The suspend map.
 */

/* Makes the map fresh: every place free. */
uint64_t ritm_fresh_map(struct ritm_suspend_map *map);

/* Removes the first entry with the key, then puts the new one into the first free place. Refusal 16. */
uint64_t ritm_insert(struct ritm_suspend_map *map, uint64_t key, uint64_t entry_point, uint64_t context_id);

/* Looks up the first entry with the key. No refusal: none is found 0. */
uint64_t ritm_get(const struct ritm_suspend_map *map, uint64_t key, struct ritm_entry_result *entry);

/* Removes the first entry with the key, and gives it. No refusal: none is found 0. */
uint64_t ritm_remove(struct ritm_suspend_map *map, uint64_t key, struct ritm_entry_result *entry);

/*
 * Their parts.
 */

/* Decodes the access that a data abort's ISS describes. Refusal 19. */
uint64_t ritm_decode(uint32_t iss, uint64_t fipa, uint64_t far, struct ritm_access_result *access);

/* The loaded value as the access of this ISS puts it into its register. Refusal 19. */
uint64_t ritm_extend_read_result(uint32_t iss, uint64_t value, struct ritm_word_result *word);

/* Rounds an address down to a page boundary. No refusal. */
uint64_t ritm_align_down_to_page(uint64_t address, struct ritm_word_result *word);

/* Rounds an address up to a page boundary. Refusal 18. */
uint64_t ritm_align_up_to_page(uint64_t address, struct ritm_word_result *word);

/* The size in bytes of a buffer by its number (enum ritm_buffer), and 0 for any other number. */
uint64_t ritm_buffer_size(uint64_t buffer);

#ifdef __cplusplus
}
#endif

#endif
