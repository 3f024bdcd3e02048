/*
 * Prints what an import takes beside libfdt: fdt_check_full and a walk for the same pairs. For each blob both sides
 * take turns, and the least time of a call counts. Before that the pairs of both are compared.
 *
 *   devicetree_times BLOB     a blob as dtc writes it from QEMU's; the others are made here
 *
 * Exit status: 0, 1 a blob is refused or the pairs differ, or one import takes 200 ms or more.
 */
#define _POSIX_C_SOURCE 199309L
#include <inttypes.h>
#include <libfdt.h>
#include <stdio.h>
#include <stdlib.h>
#include <string.h>
#include <time.h>

#include "ritm.h"

#define MOST_BYTES 65536
#define MOST_PAIRS RITM_MAX_ALLOWED_RANGES
#define MOST_MILLISECONDS 200

struct blob {
    uint64_t words[MOST_BYTES / 8];
    size_t length;
};

struct pair {
    uint64_t base;
    uint64_t size;
};

static void give_up(const char *what)
{
    fprintf(stderr, "times: %s\n", what);
    exit(1);
}

static void expect_0(const char *what, int answer)
{
    if (answer != 0) {
        give_up(what);
    }
}

/*
 * The two sides. Each gives the pairs in the blob's order.
 */

static struct ritm_policy policy;

static void import(const struct blob *blob)
{
    ritm_fresh_policy(&policy);
    if (ritm_import_memory(&policy, blob->words, blob->length, 0) != RITM_ACCEPTED) {
        give_up("an import is refused");
    }
}

static struct pair walked[MOST_PAIRS];
static size_t walked_count;

static uint64_t cells(const fdt32_t *value, int count)
{
    const uint64_t low = fdt32_to_cpu(value[count - 1]);
    return count == 2 ? (uint64_t)fdt32_to_cpu(value[0]) << 32 | low : low;
}

static void walk_reg(const void *fdt, int node, int address_cells, int size_cells)
{
    int length;
    const fdt32_t *reg = fdt_getprop(fdt, node, "reg", &length);
    const int each = address_cells + size_cells;
    for (int k = 0; reg != NULL && k < length / 4 / each && walked_count < MOST_PAIRS; k++) {
        walked[walked_count].base = cells(reg + each * k, address_cells);
        walked[walked_count].size = cells(reg + each * k + address_cells, size_cells);
        walked_count++;
    }
}

/* fdt_size_cells takes 1 for the default, as it should, and fdt_address_cells 2. */
static void walk(const struct blob *blob)
{
    const void *fdt = blob->words;
    int node;
    expect_0("fdt_check_full", fdt_check_full(fdt, blob->length));
    const int address_cells = fdt_address_cells(fdt, 0);
    const int size_cells = fdt_size_cells(fdt, 0);
    walked_count = 0;
    fdt_for_each_subnode(node, fdt, 0)
    {
        int length;
        const void *type = fdt_getprop(fdt, node, "device_type", &length);
        if (type != NULL && length == 7 && memcmp(type, "memory", 7) == 0) {
            walk_reg(fdt, node, address_cells, size_cells);
        }
    }
}

static void compare(const struct blob *blob)
{
    import(blob);
    walk(blob);
    if (ritm_get_word(&policy, RITM_POLICY_ALLOWED_COUNT) != walked_count) {
        give_up("the two find another number of pairs");
    }
    for (size_t k = 0; k < walked_count; k++) {
        const size_t range = RITM_POLICY_ALLOWED + k * RITM_ALLOWED_WORDS;
        if (ritm_get_word(&policy, range + RITM_ALLOWED_BASE) != walked[k].base ||
            ritm_get_word(&policy, range + RITM_ALLOWED_SIZE) != walked[k].size) {
            give_up("the two find other pairs");
        }
    }
}

/*
 * Times.
 */

static double seconds(void)
{
    struct timespec now;
    clock_gettime(CLOCK_MONOTONIC, &now);
    return (double)now.tv_sec + (double)now.tv_nsec / 1e9;
}

/* The time of one call, out of as many as take ten milliseconds. */
static double time_of(void (*side)(const struct blob *), const struct blob *blob)
{
    const double start = seconds();
    double passed = 0;
    double count = 0;
    while (passed < 0.01) {
        side(blob);
        count++;
        passed = seconds() - start;
    }
    return passed / count;
}

static void print_times(const char *what, const struct blob *blob)
{
    double ours = 1e9;
    double theirs = 1e9;
    compare(blob);
    for (int turn = 0; turn < 10; turn++) {
        const double our_time = time_of(import, blob);
        const double their_time = time_of(walk, blob);
        ours = our_time < ours ? our_time : ours;
        theirs = their_time < theirs ? their_time : theirs;
    }
    printf("%-52s %6zu bytes  import %9.4f ms  libfdt %9.4f ms  ratio %6.2f\n", what, blob->length, 1e3 * ours,
           1e3 * theirs, ours / theirs);
    if (1e3 * ours >= MOST_MILLISECONDS) {
        give_up("an import takes too long");
    }
}

/*
 * Blobs. libfdt writes them, and its functions keep a string for each name.
 */

static void begin(struct blob *blob)
{
    memset(blob, 0, sizeof *blob);
    expect_0("fdt_create", fdt_create(blob->words, MOST_BYTES));
    expect_0("fdt_finish_reservemap", fdt_finish_reservemap(blob->words));
    expect_0("fdt_begin_node", fdt_begin_node(blob->words, ""));
    expect_0("fdt_property_u32", fdt_property_u32(blob->words, "#address-cells", 2));
    expect_0("fdt_property_u32", fdt_property_u32(blob->words, "#size-cells", 2));
}

static void put_memory(struct blob *blob, uint64_t base, uint32_t pairs)
{
    fdt64_t reg[2 * MOST_PAIRS];
    for (uint32_t k = 0; k < pairs; k++) {
        reg[2 * k] = cpu_to_fdt64(base + 0x2000 * k);
        reg[2 * k + 1] = cpu_to_fdt64(0x1000);
    }
    expect_0("fdt_begin_node", fdt_begin_node(blob->words, "memory"));
    expect_0("fdt_property_string", fdt_property_string(blob->words, "device_type", "memory"));
    expect_0("fdt_property", fdt_property(blob->words, "reg", reg, (int)(16 * pairs)));
    expect_0("fdt_end_node", fdt_end_node(blob->words));
}

static void finish(struct blob *blob)
{
    expect_0("fdt_end_node", fdt_end_node(blob->words));
    expect_0("fdt_finish", fdt_finish(blob->words));
    blob->length = fdt_totalsize(blob->words);
}

/* Small nodes, and memory after them. */
static void make_small_nodes(struct blob *blob)
{
    begin(blob);
    for (uint32_t k = 0; k < 2030; k++) {
        char name[16];
        snprintf(name, sizeof name, "n@%" PRIx32, k);
        expect_0("fdt_begin_node", fdt_begin_node(blob->words, name));
        expect_0("fdt_property_u32", fdt_property_u32(blob->words, "reg", k));
        expect_0("fdt_end_node", fdt_end_node(blob->words));
    }
    put_memory(blob, 0x40000000, 1);
    finish(blob);
}

/* Memory of as many pairs as are allowed, in one node or in as many, and small nodes after it. */
static void make_many_pairs(struct blob *blob, uint32_t nodes)
{
    begin(blob);
    for (uint32_t k = 0; k < nodes; k++) {
        put_memory(blob, 0x40000000 + UINT64_C(0x1000000) * k, MOST_PAIRS / nodes);
    }
    for (uint32_t k = 0; k < 1900; k++) {
        expect_0("fdt_begin_node", fdt_begin_node(blob->words, "n"));
        expect_0("fdt_property_u32", fdt_property_u32(blob->words, "reg", k));
        expect_0("fdt_end_node", fdt_end_node(blob->words));
    }
    finish(blob);
}

/* Properties of the root, or of a child, that name one string of some 32 KiB, which begins as the names do that are
   looked for. */
static void make_long_string(struct blob *blob, const char *prefix, int in_child)
{
    static char name[32600];
    memset(name, 'x', sizeof name - 1);
    memcpy(name, prefix, strlen(prefix));
    begin(blob);
    if (in_child) {
        expect_0("fdt_begin_node", fdt_begin_node(blob->words, "n"));
    }
    for (size_t k = 0; k < 2715; k++) {
        expect_0("fdt_property", fdt_property(blob->words, name, NULL, 0));
    }
    if (in_child) {
        expect_0("fdt_end_node", fdt_end_node(blob->words));
    }
    put_memory(blob, 0x40000000, 1);
    finish(blob);
}

static void read_blob(struct blob *blob, const char *name)
{
    FILE *file = fopen(name, "rb");
    if (file == NULL) {
        perror(name);
        exit(1);
    }
    blob->length = fread(blob->words, 1, sizeof blob->words, file);
    fclose(file);
}

int main(int argc, char **argv)
{
    static struct blob blob;
    read_blob(&blob, argc > 1 ? argv[1] : "tests/devicetree/qemu-128.dtb");
    print_times("QEMU's, by dtc", &blob);
    make_small_nodes(&blob);
    print_times("2,030 small nodes, memory last", &blob);
    make_many_pairs(&blob, 1);
    print_times("32 pairs in one node, then 1,900 small nodes", &blob);
    make_many_pairs(&blob, MOST_PAIRS);
    print_times("32 pairs in 32 nodes, then 1,900 small nodes", &blob);
    make_long_string(&blob, "", 0);
    print_times("2,715 properties of the root, one string of 32 KiB", &blob);
    make_long_string(&blob, "#address-cells", 0);
    print_times("the same, the string begins with #address-cells", &blob);
    make_long_string(&blob, "device_type", 1);
    print_times("the same in a child, with device_type", &blob);
    return 0;
}
