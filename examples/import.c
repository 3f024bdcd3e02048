/*
 * Allows the memory that a board's devicetree blob describes, and prints a line for each range that is allowed.
 *
 *   import [FILE]     a file as dtc writes it (.dtb); standard input where there is none or it is "-"
 *
 * A blob straight from QEMU is refused: dtc -I dtb -O dtb writes it anew (include/ritm.h has why).
 * Exit status: 0 the memory is allowed, 1 the import is refused, 2 the file cannot be read.
 */
#include <inttypes.h>
#include <stdio.h>
#include <string.h>

#include "ritm.h"

/* The longest blob that is accepted. Of a longer file the rest is not needed: no import reads it. */
#define MOST_BYTES 65536

/* Stage-2 descriptors (Arm DDI 0487): valid, read and write, access flag, write-back and inner shareable. */
#define STAGE2_MEMORY_ATTRIBUTES UINT64_C(0x7fd)

/* What the numbers mean that an import may return. */
static const char *meaning(uint64_t number)
{
    switch (number) {
    case RITM_RANGE_BASE_NOT_PAGE_ALIGNED:
        return "a base is not a multiple of 4096";
    case RITM_EMPTY_RANGE:
        return "a size is 0";
    case RITM_RANGE_SIZE_NOT_PAGE_MULTIPLE:
        return "a size is not a multiple of 4096";
    case RITM_RANGE_END_OVERFLOW:
        return "a range ends at 2^64 or above";
    case RITM_TOO_MANY_ALLOWED_RANGES:
        return "there are more than 32 ranges";
    case RITM_ALLOWED_RANGE_OVERLAP:
        return "a range shares a byte with an allowed range";
    case RITM_ALLOWED_RANGE_OVERLAPS_MEMORY_ACCESS_HANDLER:
        return "a range shares a byte with a region";
    case RITM_INVALID_DEVICETREE:
        return "no devicetree blob of up to 64 KiB that is read, or a cell count or a reg has a wrong length";
    case RITM_UNSUPPORTED_CELL_COUNTS:
        return "the root's cell counts are not 1 or 2";
    default:
        return "unknown";
    }
}

/* Reads a file's first bytes, and gives how many they are, or -1. */
static long read_file(const char *name, void *bytes, size_t most)
{
    FILE *file = strcmp(name, "-") == 0 ? stdin : fopen(name, "rb");
    if (file == NULL) {
        return -1;
    }
    const size_t length = fread(bytes, 1, most, file);
    const int failed = ferror(file);
    if (file != stdin) {
        fclose(file);
    }
    return failed ? -1 : (long)length;
}

static void print_ranges(const struct ritm_policy *policy)
{
    const uint64_t count = ritm_get_word(policy, RITM_POLICY_ALLOWED_COUNT);
    for (size_t k = 0; k < count; k++) {
        const size_t range = RITM_POLICY_ALLOWED + k * RITM_ALLOWED_WORDS;
        printf("allow 0x%" PRIx64 ", size 0x%" PRIx64 "\n", ritm_get_word(policy, range + RITM_ALLOWED_BASE),
               ritm_get_word(policy, range + RITM_ALLOWED_SIZE));
    }
    if (count == 0) {
        puts("no memory");
    }
}

int main(int argc, char **argv)
{
    static uint8_t blob[MOST_BYTES];
    static struct ritm_policy policy;
    const char *name = argc > 1 ? argv[1] : "-";
    const long length = read_file(name, blob, sizeof blob);
    if (length < 0) {
        perror(name);
        return 2;
    }
    ritm_fresh_policy(&policy);
    const uint64_t number = ritm_import_memory(&policy, blob, (uint64_t)length, STAGE2_MEMORY_ATTRIBUTES);
    if (number != RITM_ACCEPTED) {
        printf("refused %" PRIu64 ": %s\n", number, meaning(number));
        return 1;
    }
    print_ranges(&policy);
    return 0;
}
