/*
 * Tests ritm_import_memory on blobs that are made here: for each rule of the devicetree's format one blob that breaks
 * it, by a named change of a good one, and its neighbours that keep it. Each is taken at several addresses, between
 * pages that cannot be read, with and without bytes after it, and by a policy with any bytes in its free places: a
 * refusal must leave every byte, an acceptance must leave those that the same calls of ritm_allow_range leave.
 *
 *   devicetree [FOLDER]     where tests/devicetree is, if not there
 */
#define _DEFAULT_SOURCE
#include <inttypes.h>
#include <stdio.h>
#include <stdlib.h>
#include <string.h>
#include <sys/mman.h>

#include "ritm.h"

#define PAGE UINT64_C(0x1000)
#define ATTRIBUTES UINT64_C(0x7fd)

/* The longest blob that is read, and room for more. */
#define MOST_BYTES 65536
#define ROOM (MOST_BYTES + 4096)

/* Bytes after a blob, which are not read. */
#define TAIL 64

struct blob {
    uint8_t bytes[ROOM];
    size_t length;
};

struct pair {
    uint64_t base;
    uint64_t size;
};

static size_t failures;
static size_t tests;

static void expect(const char *what, const char *how, uint64_t answer, uint64_t expected)
{
    tests++;
    if (answer != expected) {
        fprintf(stderr, "devicetree: %s, %s: %" PRIu64 " instead of %" PRIu64 "\n", what, how, answer, expected);
        failures++;
    }
}

/*
 * Blobs.
 */

/* Places of the header's fields. */
#define MAGIC 0
#define TOTALSIZE 4
#define OFF_DT_STRUCT 8
#define OFF_DT_STRINGS 12
#define OFF_MEM_RSVMAP 16
#define VERSION 20
#define LAST_COMP_VERSION 24
#define BOOT_CPUID_PHYS 28
#define SIZE_DT_STRINGS 32
#define SIZE_DT_STRUCT 36
#define HEADER_SIZE 40

#define FDT_BEGIN_NODE 1
#define FDT_END_NODE 2
#define FDT_PROP 3
#define FDT_NOP 4
#define FDT_END 9

static uint32_t get(const struct blob *blob, size_t place)
{
    const uint8_t *bytes = blob->bytes + place;
    return (uint32_t)bytes[0] << 24 | (uint32_t)bytes[1] << 16 | (uint32_t)bytes[2] << 8 | bytes[3];
}

static void set(struct blob *blob, size_t place, uint32_t word)
{
    for (size_t i = 0; i < 4; i++) {
        blob->bytes[place + i] = (uint8_t)(word >> (24 - 8 * i));
    }
}

/* Puts zero bytes at a place. A block from there on moves, and the blob grows. */
static void put_gap(struct blob *blob, size_t place, size_t size)
{
    memmove(blob->bytes + place + size, blob->bytes + place, blob->length - place);
    memset(blob->bytes + place, 0, size);
    blob->length += size;
    for (size_t field = OFF_DT_STRUCT; field <= OFF_MEM_RSVMAP; field += 4) {
        if (get(blob, field) >= place) {
            set(blob, field, get(blob, field) + (uint32_t)size);
        }
    }
    set(blob, TOTALSIZE, (uint32_t)blob->length);
}

/* Puts words at a place of the structure block, which grows. */
static void put_words(struct blob *blob, size_t place, const uint32_t *words, size_t count)
{
    const uint32_t start = get(blob, OFF_DT_STRUCT);
    put_gap(blob, place, 4 * count);
    set(blob, OFF_DT_STRUCT, start);
    set(blob, SIZE_DT_STRUCT, get(blob, SIZE_DT_STRUCT) + 4 * (uint32_t)count);
    for (size_t k = 0; k < count; k++) {
        set(blob, place + 4 * k, words[k]);
    }
}

/* Takes bytes out of the structure block. */
static void cut(struct blob *blob, size_t place, size_t size)
{
    memmove(blob->bytes + place, blob->bytes + place + size, blob->length - place - size);
    blob->length -= size;
    set(blob, OFF_DT_STRINGS, get(blob, OFF_DT_STRINGS) - (uint32_t)size);
    set(blob, SIZE_DT_STRUCT, get(blob, SIZE_DT_STRUCT) - (uint32_t)size);
    set(blob, TOTALSIZE, (uint32_t)blob->length);
}

/* Puts a string at the end of the strings block, which is the blob's end. */
static void put_string(struct blob *blob, const char *text)
{
    const size_t size = strlen(text) + 1;
    memcpy(blob->bytes + blob->length, text, size);
    blob->length += size;
    set(blob, SIZE_DT_STRINGS, get(blob, SIZE_DT_STRINGS) + (uint32_t)size);
    set(blob, TOTALSIZE, (uint32_t)blob->length);
}

/* A header, reservations, an empty structure block and an empty strings block. */
static void begin(struct blob *blob, size_t reservations)
{
    const size_t structure = HEADER_SIZE + 16 * (reservations + 1);
    memset(blob, 0, sizeof *blob);
    blob->length = structure;
    set(blob, MAGIC, 0xd00dfeed);
    set(blob, TOTALSIZE, (uint32_t)structure);
    set(blob, OFF_DT_STRUCT, (uint32_t)structure);
    set(blob, OFF_DT_STRINGS, (uint32_t)structure);
    set(blob, OFF_MEM_RSVMAP, HEADER_SIZE);
    set(blob, VERSION, 17);
    set(blob, LAST_COMP_VERSION, 16);
    for (size_t k = 0; k < reservations; k++) {
        set(blob, HEADER_SIZE + 16 * k + 12, 0x1000);
    }
}

/* Puts words at a place of the structure block, or at its end. */
#define COUNT_OF(...) (sizeof((const uint32_t[]){__VA_ARGS__}) / 4)
#define PUT_WORDS(blob, place, ...) put_words(blob, place, (const uint32_t[]){__VA_ARGS__}, COUNT_OF(__VA_ARGS__))
#define PUT_LAST(blob, ...) PUT_WORDS(blob, get(blob, OFF_DT_STRUCT) + get(blob, SIZE_DT_STRUCT), __VA_ARGS__)

/* The good blob's strings, by their offsets. */
#define NAME_ADDRESS_CELLS 0
#define NAME_SIZE_CELLS 15
#define NAME_DEVICE_TYPE 27
#define NAME_REG 39
#define STRINGS_SIZE 43

/* The good blob: memory of one pair, in cells of two words, and a node after it. Places of its words: */
#define RESERVATION 40
#define STRUCTURE 72
#define ROOT STRUCTURE
#define ROOT_NAME (ROOT + 4)
#define ADDRESS_CELLS (ROOT + 8)
#define SIZE_CELLS (ADDRESS_CELLS + 16)
#define MEMORY (SIZE_CELLS + 16)
#define MEMORY_NAME (MEMORY + 4)
#define DEVICE_TYPE (MEMORY_NAME + 16)
#define REG (DEVICE_TYPE + 20)
#define MEMORY_END (REG + 28)
#define OTHER (MEMORY_END + 4)
#define OTHER_NAME (OTHER + 4)
#define OTHER_END (OTHER_NAME + 4)
#define ROOT_END (OTHER_END + 4)
#define LAST (ROOT_END + 4)
#define STRINGS (LAST + 4)
#define SIZE (STRINGS + STRINGS_SIZE)
/* and of the words of a property, from its token on. */
#define LENGTH 4
#define NAME 8
#define VALUE 12

#define MEMORY_WORDS 0x6d656d6f, 0x72790000
#define GOOD_BASE UINT64_C(0x40000000)
#define GOOD_SIZE UINT64_C(0x8000000)

static void make_good(struct blob *blob)
{
    begin(blob, 1);
    PUT_LAST(blob, FDT_BEGIN_NODE, 0);
    PUT_LAST(blob, FDT_PROP, 4, NAME_ADDRESS_CELLS, 2);
    PUT_LAST(blob, FDT_PROP, 4, NAME_SIZE_CELLS, 2);
    PUT_LAST(blob, FDT_BEGIN_NODE, 0x6d656d6f, 0x72794034, 0x30303030, 0x30303000); /* memory@40000000 */
    PUT_LAST(blob, FDT_PROP, 7, NAME_DEVICE_TYPE, MEMORY_WORDS);
    PUT_LAST(blob, FDT_PROP, 16, NAME_REG, 0, (uint32_t)GOOD_BASE, 0, (uint32_t)GOOD_SIZE);
    PUT_LAST(blob, FDT_END_NODE);
    PUT_LAST(blob, FDT_BEGIN_NODE, 0x61620000); /* ab */
    PUT_LAST(blob, FDT_END_NODE);
    PUT_LAST(blob, FDT_END_NODE, FDT_END);
    put_string(blob, "#address-cells");
    put_string(blob, "#size-cells");
    put_string(blob, "device_type");
    put_string(blob, "reg");
}

/* The bare blob: a root alone, and an empty strings block at the blob's end. */
#define BARE_STRUCTURE 56
#define BARE_ROOT_END (BARE_STRUCTURE + 8)
#define BARE_LAST (BARE_ROOT_END + 4)
#define BARE_SIZE (BARE_LAST + 4)

static void make_bare(struct blob *blob)
{
    begin(blob, 0);
    PUT_LAST(blob, FDT_BEGIN_NODE, 0, FDT_END_NODE, FDT_END);
}

/*
 * Changes of a blob.
 */

enum kind { NO_CHANGE, WORD, BYTE, WORDS, CUT, GAP, STRING, SLICE };

struct change {
    enum kind kind;
    uint32_t place;
    uint32_t count;
    uint32_t words[8];
    const char *text;
};

/* A word or a byte is set; words come into the structure block; bytes are taken from it; zero bytes come between
   blocks; a string comes after the others; the slice is of another length. */
/* clang-format off */
#define SET(place, word) {WORD, place, 1, {word}, 0}
#define SET_BYTE(place, byte) {BYTE, place, 1, {byte}, 0}
#define PUT(place, ...) {WORDS, place, COUNT_OF(__VA_ARGS__), {__VA_ARGS__}, 0}
#define TAKE(place, size) {CUT, place, size, {0}, 0}
#define SPACE(place, size) {GAP, place, size, {0}, 0}
#define ADD_STRING(text) {STRING, 0, 0, {0}, text}
#define SLICE_OF(length) {SLICE, length, 0, {0}, 0}
/* clang-format on */

static void change(struct blob *blob, const struct change *changes, size_t count)
{
    for (size_t k = 0; k < count; k++) {
        const struct change *one = &changes[k];
        switch (one->kind) {
        case WORD:
            set(blob, one->place, one->words[0]);
            break;
        case BYTE:
            blob->bytes[one->place] = (uint8_t)one->words[0];
            break;
        case WORDS:
            put_words(blob, one->place, one->words, one->count);
            break;
        case CUT:
            cut(blob, one->place, one->count);
            break;
        case GAP:
            put_gap(blob, one->place, one->count);
            break;
        case STRING:
            put_string(blob, one->text);
            break;
        case SLICE:
            blob->length = one->place;
            break;
        case NO_CHANGE:
            return;
        }
    }
}

/* What a blob is answered: accepted, with the good blob's pair, with none or with others; or refused. */
enum outcome { MEMORY_ALLOWED, NO_MEMORY, PAIRS_ALLOWED, INVALID, CELL_COUNTS };

#define MOST_CHANGES 6
struct row {
    const char *what;
    enum outcome outcome;
    struct change changes[MOST_CHANGES];
};

/* A property whose value is one word. */
#define PROPERTY(name, word) FDT_PROP, 4, name, word

static const struct row good_rows[] = {
    {"no change", MEMORY_ALLOWED, {{0}}},

    /* Lengths. */
    {"a slice of 39 bytes", INVALID, {SLICE_OF(39)}},
    {"a slice of the header alone", INVALID, {SLICE_OF(40)}},
    {"a slice one byte below totalsize", INVALID, {SLICE_OF(SIZE - 1)}},
    {"totalsize 0", INVALID, {SET(TOTALSIZE, 0)}},
    {"totalsize 39", INVALID, {SET(TOTALSIZE, 39)}},
    {"totalsize one below the strings' end", INVALID, {SET(TOTALSIZE, SIZE - 1)}},
    {"totalsize one above the slice", INVALID, {SET(TOTALSIZE, SIZE + 1)}},
    {"totalsize 2^32 - 1", INVALID, {SET(TOTALSIZE, 0xffffffff)}},
    {"totalsize above the strings' end", MEMORY_ALLOWED, {SPACE(SIZE, 3)}},
    {"totalsize 65,536", MEMORY_ALLOWED, {SPACE(SIZE, 65536 - SIZE)}},
    {"totalsize 65,537", INVALID, {SPACE(SIZE, 65537 - SIZE)}},
    {"a slice above 64 KiB", MEMORY_ALLOWED, {SLICE_OF(65537)}},

    /* Magic and versions. */
    {"another magic", INVALID, {SET(MAGIC, 0xd00dfeec)}},
    {"the magic of the other byte order", INVALID, {SET(MAGIC, 0xedfe0dd0)}},
    {"version 16", INVALID, {SET(VERSION, 16)}},
    {"version 16 for readers of 16", INVALID, {SET(VERSION, 16), SET(LAST_COMP_VERSION, 16)}},
    {"version 17 for readers of 17", MEMORY_ALLOWED, {SET(LAST_COMP_VERSION, 17)}},
    {"version 17 for readers of 2", MEMORY_ALLOWED, {SET(LAST_COMP_VERSION, 2)}},
    {"version 17 for readers of 0", MEMORY_ALLOWED, {SET(LAST_COMP_VERSION, 0)}},
    {"version 17 for readers of 18", INVALID, {SET(LAST_COMP_VERSION, 18)}},
    {"version 18 for readers of 16", MEMORY_ALLOWED, {SET(VERSION, 18)}},
    {"version 18 for readers of 17", MEMORY_ALLOWED, {SET(VERSION, 18), SET(LAST_COMP_VERSION, 17)}},
    {"version 18 for readers of 18", INVALID, {SET(VERSION, 18), SET(LAST_COMP_VERSION, 18)}},
    {"version 2^32 - 1", MEMORY_ALLOWED, {SET(VERSION, 0xffffffff)}},
    {"last_comp_version 2^32 - 1", INVALID, {SET(LAST_COMP_VERSION, 0xffffffff)}},
    {"another processor to boot on", MEMORY_ALLOWED, {SET(BOOT_CPUID_PHYS, 0xffffffff)}},

    /* The blocks' places. */
    {"a structure block at a multiple of 4", MEMORY_ALLOWED, {SPACE(STRUCTURE, 4)}},
    {"a structure block at an odd multiple of 2", INVALID, {SPACE(STRUCTURE, 2)}},
    {"a structure block at an odd place", INVALID, {SPACE(STRUCTURE, 1)}},
    {"a strings block at an odd place", MEMORY_ALLOWED, {SPACE(STRINGS, 1)}},
    {"a strings block one byte past totalsize", INVALID, {SET(SIZE_DT_STRINGS, STRINGS_SIZE + 1)}},
    {"a strings block that begins past totalsize", INVALID, {SET(OFF_DT_STRINGS, SIZE + 1)}},
    {"a strings block that ends past 2^32", INVALID, {SET(OFF_DT_STRINGS, 0xffffffff)}},
    {"a strings block of 2^32 - 1 bytes", INVALID, {SET(SIZE_DT_STRINGS, 0xffffffff)}},
    {"a structure block past totalsize", INVALID, {SET(SIZE_DT_STRUCT, SIZE - STRUCTURE + 1)}},
    {"a structure block that begins at 64 KiB", INVALID, {SET(OFF_DT_STRUCT, 65536)}},
    {"a structure block that ends past 2^32", INVALID, {SET(OFF_DT_STRUCT, 0xfffffffc)}},
    {"a structure block of 2^32 - 4 bytes", INVALID, {SET(SIZE_DT_STRUCT, 0xfffffffc)}},
    {"an empty structure block", INVALID, {SET(SIZE_DT_STRUCT, 0)}},
    {"the whole blob for a strings block, from the header on",
     MEMORY_ALLOWED,
     {SET(OFF_DT_STRINGS, 0), SET(SIZE_DT_STRINGS, SIZE), SET(ADDRESS_CELLS + NAME, STRINGS + NAME_ADDRESS_CELLS),
      SET(SIZE_CELLS + NAME, STRINGS + NAME_SIZE_CELLS), SET(DEVICE_TYPE + NAME, STRINGS + NAME_DEVICE_TYPE),
      SET(REG + NAME, STRINGS + NAME_REG)}},

    /* The reservations. The good blob's entry has the address 0, and a size. */
    {"reservations at a multiple of 8", MEMORY_ALLOWED, {SPACE(RESERVATION, 8)}},
    {"reservations at an odd multiple of 4", INVALID, {SPACE(RESERVATION, 4), SPACE(STRUCTURE + 4, 4)}},
    {"reservations at an odd place", INVALID, {SPACE(RESERVATION, 1), SPACE(STRUCTURE + 1, 3)}},
    {"an empty list of reservations", MEMORY_ALLOWED, {SET(OFF_MEM_RSVMAP, RESERVATION + 16)}},
    {"reservations in the structure block, at sixteen zero bytes of a value",
     MEMORY_ALLOWED,
     {PUT(OTHER_END, FDT_NOP, FDT_PROP, 16, NAME_REG, 0, 0, 0, 0), SET(OFF_MEM_RSVMAP, OTHER_END + 16)}},
    {"reservations past totalsize", INVALID, {SET(OFF_MEM_RSVMAP, 248)}},
    {"reservations at 2^32 - 8", INVALID, {SET(OFF_MEM_RSVMAP, 0xfffffff8)}},
    {"reservations at 2^32 - 16", INVALID, {SET(OFF_MEM_RSVMAP, 0xfffffff0)}},
    {"a list at the blob's end", MEMORY_ALLOWED, {SPACE(SIZE, 17), SET(OFF_MEM_RSVMAP, SIZE + 1)}},
    {"a list whose end is one byte past totalsize", INVALID, {SPACE(SIZE, 16), SET(OFF_MEM_RSVMAP, SIZE + 1)}},
    {"an entry at the blob's end, then the list's end",
     MEMORY_ALLOWED,
     {SPACE(SIZE, 33), SET(OFF_MEM_RSVMAP, SIZE + 1), SET(SIZE + 1, 0xffffffff)}},
    {"an entry at the blob's end, then the list's end, one byte past totalsize",
     INVALID,
     {SPACE(SIZE, 32), SET(OFF_MEM_RSVMAP, SIZE + 1), SET(SIZE + 1, 0xffffffff)}},
    {"an entry of address zero is not the list's end",
     INVALID,
     {SPACE(SIZE, 17), SET(OFF_MEM_RSVMAP, SIZE + 1), SET(SIZE + 13, 1)}},
    {"an entry of size zero is not the list's end",
     INVALID,
     {SPACE(SIZE, 17), SET(OFF_MEM_RSVMAP, SIZE + 1), SET(SIZE + 1, 0x80000000)}},
    {"sixteen zero bytes across two entries are not the list's end",
     INVALID,
     {SPACE(SIZE, 33), SET(OFF_MEM_RSVMAP, SIZE + 1), SET(SIZE + 1, 1), SET(SIZE + 29, 1)}},

    /* FDT_NOP. */
    {"a NOP before the root", MEMORY_ALLOWED, {PUT(ROOT, FDT_NOP)}},
    {"NOPs before the root and after its end", MEMORY_ALLOWED, {PUT(LAST, FDT_NOP, FDT_NOP), PUT(ROOT, FDT_NOP)}},
    {"NOPs between properties and nodes",
     MEMORY_ALLOWED,
     {PUT(ROOT_END, FDT_NOP), PUT(OTHER, FDT_NOP), PUT(REG, FDT_NOP), PUT(DEVICE_TYPE, FDT_NOP),
      PUT(ADDRESS_CELLS, FDT_NOP)}},
    {"a NOP after FDT_END", INVALID, {PUT(STRINGS, FDT_NOP)}},

    /* Nodes. */
    {"a root with a name", MEMORY_ALLOWED, {SET(ROOT_NAME, 0x61626300)}},
    {"names of any characters", MEMORY_ALLOWED, {SET(MEMORY_NAME, 0xff2f0a01), SET(OTHER_NAME, 0x2f2f2f00)}},
    {"two roots", INVALID, {PUT(LAST, FDT_BEGIN_NODE, 0, FDT_END_NODE)}},
    {"two roots and NOPs between", INVALID, {PUT(LAST, FDT_NOP, FDT_BEGIN_NODE, 0, FDT_END_NODE)}},
    {"no FDT_END_NODE for a child", INVALID, {TAKE(MEMORY_END, 4)}},
    {"no FDT_END_NODE for the root", INVALID, {TAKE(ROOT_END, 4)}},
    {"one FDT_END_NODE more", INVALID, {PUT(ROOT_END, FDT_END_NODE)}},
    {"FDT_END_NODE before the root", INVALID, {PUT(ROOT, FDT_END_NODE)}},
    {"a property before the root", INVALID, {PUT(ROOT, PROPERTY(NAME_REG, 0))}},
    {"a property after the root's end", INVALID, {PUT(LAST, PROPERTY(NAME_REG, 0))}},
    {"a property of the root after a child", INVALID, {PUT(OTHER, PROPERTY(NAME_SIZE_CELLS, 2))}},
    {"a property of the root after its children and a NOP", INVALID, {PUT(ROOT_END, FDT_NOP, PROPERTY(NAME_REG, 0))}},
    {"a property of a child after its child",
     INVALID,
     {PUT(OTHER_END, FDT_BEGIN_NODE, 0x61000000, FDT_END_NODE, PROPERTY(NAME_REG, 0))}},
    {"a property of a child after its child and NOPs",
     INVALID,
     {PUT(OTHER_END, PROPERTY(NAME_REG, 0)),
      PUT(OTHER_END, FDT_BEGIN_NODE, 0x61000000, FDT_END_NODE, FDT_NOP, FDT_NOP)}},
    {"properties of a child before its child",
     MEMORY_ALLOWED,
     {PUT(OTHER_END, PROPERTY(NAME_REG, 0), FDT_NOP, FDT_BEGIN_NODE, 0x61000000, FDT_END_NODE)}},

    /* Tokens. */
    {"token 0", INVALID, {PUT(OTHER, 0)}},
    {"token 5", INVALID, {PUT(OTHER, 5)}},
    {"token 8", INVALID, {PUT(OTHER, 8)}},
    {"token 10", INVALID, {PUT(OTHER, 10)}},
    {"a NOP of the other byte order", INVALID, {PUT(OTHER, 0x04000000)}},
    {"a NOP with its highest bit set", INVALID, {PUT(OTHER, 0x80000004)}},
    {"no FDT_END", INVALID, {TAKE(LAST, 4)}},
    {"FDT_END in the root", INVALID, {PUT(OTHER, FDT_END)}},
    {"FDT_END before the root", INVALID, {PUT(ROOT, FDT_END)}},
    {"FDT_END twice", INVALID, {PUT(STRINGS, FDT_END)}},
    {"a zero word after FDT_END", INVALID, {PUT(STRINGS, 0)}},
    {"a structure block that ends before FDT_END", INVALID, {SET(SIZE_DT_STRUCT, LAST - STRUCTURE)}},
    {"a structure block that ends one byte before FDT_END's end",
     INVALID,
     {SET(SIZE_DT_STRUCT, STRINGS - STRUCTURE - 1)}},
    {"a structure block that ends one byte after FDT_END", INVALID, {SET(SIZE_DT_STRUCT, STRINGS - STRUCTURE + 1)}},
    {"FDT_PROP last", INVALID, {SET(LAST, FDT_PROP)}},
    {"FDT_BEGIN_NODE last", INVALID, {SET(LAST, FDT_BEGIN_NODE)}},

    /* Names of nodes. */
    {"a name filled up with another byte", INVALID, {SET_BYTE(OTHER_NAME + 3, 1)}},
    {"a name of one byte filled up with another byte", INVALID, {SET(OTHER_NAME, 0x61000100)}},
    {"a root's name filled up with another byte", INVALID, {SET(ROOT_NAME, 0x00000001)}},
    {"a name of three bytes", MEMORY_ALLOWED, {SET(OTHER_NAME, 0x61626300)}},
    {"a name of four bytes", MEMORY_ALLOWED, {SET(OTHER_NAME, 0x61626364), PUT(OTHER_END, 0)}},
    {"a name without a zero byte in the block", INVALID, {SET(LAST, 0x61626364), SET(ROOT_END, FDT_BEGIN_NODE)}},

    /* Values. */
    {"a value filled up with another byte", INVALID, {SET_BYTE(DEVICE_TYPE + VALUE + 7, 's')}},
    {"a value of another node, filled up with another byte",
     INVALID,
     {PUT(OTHER_END, FDT_PROP, 1, NAME_REG, 0x61000001)}},
    {"a value of another node, filled up", MEMORY_ALLOWED, {PUT(OTHER_END, FDT_PROP, 1, NAME_REG, 0x61000000)}},
    {"a value of no bytes", MEMORY_ALLOWED, {PUT(OTHER_END, FDT_PROP, 0, NAME_REG)}},
    {"a value that ends where the block does", INVALID, {PUT(OTHER_END, FDT_PROP, 12, NAME_REG)}},
    {"a value that ends past the block", INVALID, {PUT(OTHER_END, FDT_PROP, 13, NAME_REG)}},
    {"a value of 2^32 - 1 bytes", INVALID, {SET(REG + LENGTH, 0xffffffff)}},
    {"a value of 2^32 - 3 bytes", INVALID, {SET(REG + LENGTH, 0xfffffffd)}},
    {"a value of 2^32 - 12 bytes", INVALID, {SET(REG + LENGTH, 0xfffffff4)}},

    /* Names of properties. */
    {"a name past the strings block", INVALID, {PUT(OTHER_END, FDT_PROP, 0, STRINGS_SIZE)}},
    {"a name past the strings block and inside totalsize",
     INVALID,
     {PUT(OTHER_END, FDT_PROP, 0, STRINGS_SIZE), SPACE(SIZE + 12, 8)}},
    {"a name at 2^32 - 1", INVALID, {PUT(OTHER_END, FDT_PROP, 0, 0xffffffff)}},
    {"a name at 2^32 less the strings block's place",
     INVALID,
     {PUT(OTHER_END, FDT_PROP, 0, 0x100000000 - STRINGS - 12)}},
    {"an empty name", MEMORY_ALLOWED, {PUT(OTHER_END, FDT_PROP, 0, STRINGS_SIZE - 1)}},
    {"an empty name in the memory node", MEMORY_ALLOWED, {PUT(REG, FDT_PROP, 0, STRINGS_SIZE - 1)}},
    {"a name whose zero byte lies past the strings block", INVALID, {SET(SIZE_DT_STRINGS, STRINGS_SIZE - 1)}},
    {"a deeper name whose zero byte lies past the strings block",
     INVALID,
     {PUT(OTHER_END, FDT_BEGIN_NODE, 0x61000000, FDT_PROP, 0, STRINGS_SIZE, FDT_END_NODE), ADD_STRING("new"),
      SET(SIZE_DT_STRINGS, STRINGS_SIZE + 3)}},
    {"a string that nobody names and that does not end", MEMORY_ALLOWED, {ADD_STRING("new"), SET(SIZE_DT_STRINGS, 46)}},
    {"reg named in the middle of a string",
     MEMORY_ALLOWED,
     {ADD_STRING("virtual-reg"), SET(REG + NAME, STRINGS_SIZE + 8)}},
    {"a string that ends with reg", NO_MEMORY, {ADD_STRING("virtual-reg"), SET(REG + NAME, STRINGS_SIZE)}},
    {"a string that begins with reg", NO_MEMORY, {ADD_STRING("reg-io-width"), SET(REG + NAME, STRINGS_SIZE)}},

    /* Cell counts. */
    {"address cells of no bytes", INVALID, {SET(ADDRESS_CELLS + LENGTH, 0), TAKE(ADDRESS_CELLS + VALUE, 4)}},
    {"address cells of three bytes", INVALID, {SET(ADDRESS_CELLS + LENGTH, 3), SET(ADDRESS_CELLS + VALUE, 0)}},
    {"address cells of eight bytes", INVALID, {SET(ADDRESS_CELLS + LENGTH, 8), PUT(SIZE_CELLS, 2)}},
    {"size cells of eight bytes", INVALID, {SET(SIZE_CELLS + LENGTH, 8), PUT(MEMORY, 2)}},
    {"size cells of five bytes", INVALID, {SET(SIZE_CELLS + LENGTH, 5), PUT(MEMORY, 0)}},
    {"address cells of eight bytes after the first",
     MEMORY_ALLOWED,
     {PUT(MEMORY, FDT_PROP, 8, NAME_ADDRESS_CELLS, 0, 0)}},
    {"a child's cell counts of eight bytes", MEMORY_ALLOWED, {PUT(REG, FDT_PROP, 8, NAME_ADDRESS_CELLS, 0, 0)}},
    {"address cells 0", CELL_COUNTS, {SET(ADDRESS_CELLS + VALUE, 0)}},
    {"address cells 3", CELL_COUNTS, {SET(ADDRESS_CELLS + VALUE, 3)}},
    {"size cells 0", CELL_COUNTS, {SET(SIZE_CELLS + VALUE, 0)}},
    {"size cells 3", CELL_COUNTS, {SET(SIZE_CELLS + VALUE, 3)}},
    {"size cells 2^24 + 1", CELL_COUNTS, {SET(SIZE_CELLS + VALUE, 0x01000001)}},
    {"address cells 2 of the other byte order", CELL_COUNTS, {SET(ADDRESS_CELLS + VALUE, 0x02000000)}},
    {"both counts 2^32 - 1",
     CELL_COUNTS,
     {SET(ADDRESS_CELLS + VALUE, 0xffffffff), SET(SIZE_CELLS + VALUE, 0xffffffff)}},
    {"address cells 3 and memory no whole number of pairs",
     CELL_COUNTS,
     {SET(ADDRESS_CELLS + VALUE, 3), SET(REG + LENGTH, 12), TAKE(REG + VALUE, 4)}},
    {"address cells 3 and size cells of eight bytes",
     INVALID,
     {SET(ADDRESS_CELLS + VALUE, 3), SET(SIZE_CELLS + LENGTH, 8), PUT(MEMORY, 2)}},
    {"address cells 3 and an unknown token after them", INVALID, {SET(ADDRESS_CELLS + VALUE, 3), PUT(LAST, 5)}},
    {"address cells 1 after 3", CELL_COUNTS, {SET(ADDRESS_CELLS + VALUE, 3), PUT(SIZE_CELLS, PROPERTY(0, 1))}},
    {"address cells 3 after 2", MEMORY_ALLOWED, {PUT(SIZE_CELLS, PROPERTY(0, 3))}},
    {"no address cells: two", MEMORY_ALLOWED, {TAKE(ADDRESS_CELLS, 16)}},

    /* Memory. */
    {"a device_type of no bytes", NO_MEMORY, {SET(DEVICE_TYPE + LENGTH, 0), TAKE(DEVICE_TYPE + VALUE, 8)}},
    {"a device_type without a zero byte", NO_MEMORY, {SET(DEVICE_TYPE + LENGTH, 6)}},
    {"a device_type of two zero bytes", NO_MEMORY, {SET(DEVICE_TYPE + LENGTH, 8)}},
    {"a device_type of six other bytes", NO_MEMORY, {SET_BYTE(DEVICE_TYPE + VALUE, 'M')}},
    {"a device_type of no zero byte at its end", NO_MEMORY, {SET_BYTE(DEVICE_TYPE + VALUE + 6, 'x')}},
    {"memory by its second device_type", NO_MEMORY, {PUT(DEVICE_TYPE, FDT_PROP, 0, NAME_DEVICE_TYPE)}},
    {"memory by its first device_type", MEMORY_ALLOWED, {PUT(REG, FDT_PROP, 0, NAME_DEVICE_TYPE)}},
    {"memory by its first device_type, after reg",
     MEMORY_ALLOWED,
     {PUT(MEMORY_END, FDT_PROP, 7, NAME_DEVICE_TYPE, MEMORY_WORDS), TAKE(DEVICE_TYPE, 20)}},
    {"no device_type", NO_MEMORY, {TAKE(DEVICE_TYPE, 20)}},
    {"device_type of the root",
     NO_MEMORY,
     {TAKE(DEVICE_TYPE, 20), PUT(MEMORY, FDT_PROP, 7, NAME_DEVICE_TYPE, MEMORY_WORDS)}},
    {"no reg", NO_MEMORY, {TAKE(REG, 28)}},
    {"an empty reg", NO_MEMORY, {SET(REG + LENGTH, 0), TAKE(REG + VALUE, 16)}},
    {"an empty reg before the other", NO_MEMORY, {PUT(REG, FDT_PROP, 0, NAME_REG)}},
    {"another reg after the first", MEMORY_ALLOWED, {PUT(MEMORY_END, PROPERTY(NAME_REG, 0))}},
    {"a reg of fifteen bytes", INVALID, {SET(REG + LENGTH, 15), SET(REG + VALUE + 12, 0)}},
    {"a reg of twelve bytes", INVALID, {SET(REG + LENGTH, 12), TAKE(REG + VALUE, 4)}},
    {"a reg of twenty bytes", INVALID, {SET(REG + LENGTH, 20), PUT(MEMORY_END, 0)}},
    {"a reg of one byte", INVALID, {SET(REG + LENGTH, 1), SET(REG + VALUE, 0), TAKE(REG + VALUE, 12)}},
    {"a reg of twelve bytes before device_type", INVALID, {PUT(DEVICE_TYPE, FDT_PROP, 12, NAME_REG, 0, 0, 0)}},
    {"a reg of twelve bytes in a node that is no memory",
     MEMORY_ALLOWED,
     {PUT(OTHER_END, FDT_PROP, 12, NAME_REG, 0, 0, 0)}},
    {"a second memory node whose reg is of four bytes",
     INVALID,
     {PUT(OTHER_END, PROPERTY(NAME_REG, 0)), PUT(OTHER_END, FDT_PROP, 7, NAME_DEVICE_TYPE, MEMORY_WORDS)}},
    {"memory below a child, whose reg is of four bytes",
     MEMORY_ALLOWED,
     {PUT(OTHER_END, PROPERTY(NAME_REG, 0), FDT_END_NODE),
      PUT(OTHER_END, FDT_BEGIN_NODE, 0, FDT_PROP, 7, NAME_DEVICE_TYPE, MEMORY_WORDS)}},
};

static const struct row bare_rows[] = {
    {"a root alone", NO_MEMORY, {{0}}},
    {"an empty strings block at totalsize", NO_MEMORY, {SET(OFF_DT_STRINGS, BARE_SIZE)}},
    {"an empty strings block past totalsize", INVALID, {SET(OFF_DT_STRINGS, BARE_SIZE + 1)}},
    {"an empty strings block at 2^32 - 1", INVALID, {SET(OFF_DT_STRINGS, 0xffffffff)}},
    {"an empty strings block at 0", NO_MEMORY, {SET(OFF_DT_STRINGS, 0)}},
    {"a strings block of one byte at totalsize", INVALID, {SET(SIZE_DT_STRINGS, 1)}},
    {"a property and an empty strings block", INVALID, {PUT(BARE_ROOT_END, FDT_PROP, 0, 0)}},
    {"a property and a strings block of a zero byte", NO_MEMORY, {PUT(BARE_ROOT_END, FDT_PROP, 0, 0), ADD_STRING("")}},
    {"FDT_END alone", INVALID, {TAKE(BARE_STRUCTURE, 12)}},
    {"NOPs and FDT_END alone", INVALID, {TAKE(BARE_STRUCTURE, 12), PUT(BARE_STRUCTURE, FDT_NOP, FDT_NOP)}},
    {"NOPs everywhere",
     NO_MEMORY,
     {PUT(BARE_LAST, FDT_NOP), PUT(BARE_ROOT_END, FDT_NOP), PUT(BARE_STRUCTURE, FDT_NOP, FDT_NOP)}},
    {"a root without a name's word", INVALID, {TAKE(BARE_STRUCTURE + 4, 4)}},
    {"a structure block in the header's place", INVALID, {SET(OFF_DT_STRUCT, 0)}},
    {"a structure block one byte past totalsize, not past the slice",
     INVALID,
     {SET(OFF_DT_STRINGS, 0), SET(TOTALSIZE, BARE_SIZE - 1)}},
    {"a structure block past totalsize, at its end", INVALID, {SET(SIZE_DT_STRUCT, 20)}},
    {"cell counts alone", NO_MEMORY, {PUT(BARE_ROOT_END, PROPERTY(0, 1)), ADD_STRING("#size-cells")}},
    {"size cells 3 and no child", CELL_COUNTS, {PUT(BARE_ROOT_END, PROPERTY(0, 3)), ADD_STRING("#size-cells")}},
    {"size cells of no bytes and no child", INVALID, {PUT(BARE_ROOT_END, FDT_PROP, 0, 0), ADD_STRING("#size-cells")}},
    {"address cells 0 and no child", CELL_COUNTS, {PUT(BARE_ROOT_END, PROPERTY(0, 0)), ADD_STRING("#address-cells")}},
    {"a longer name than #size-cells", NO_MEMORY, {PUT(BARE_ROOT_END, PROPERTY(0, 3)), ADD_STRING("#size-cellsx")}},
    {"a shorter name than #size-cells", NO_MEMORY, {PUT(BARE_ROOT_END, PROPERTY(0, 3)), ADD_STRING("#size-cell")}},
};

/* Blobs of other pairs than the good one's. */
static const struct {
    struct row row;
    struct pair pairs[2];
    size_t count;
} pair_rows[] = {
    {{"no size cells: one",
      PAIRS_ALLOWED,
      {SET(REG + LENGTH, 12), SET(REG + VALUE + 8, 0x1000), TAKE(REG + VALUE + 12, 4), TAKE(SIZE_CELLS, 16)}},
     {{GOOD_BASE, 0x1000}},
     1},
    {{"cells of one word each: two pairs",
      PAIRS_ALLOWED,
      {SET(ADDRESS_CELLS + VALUE, 1), SET(SIZE_CELLS + VALUE, 1), SET(REG + VALUE, 0x40000000),
       SET(REG + VALUE + 4, 0x1000), SET(REG + VALUE + 8, 0x80000000), SET(REG + VALUE + 12, 0x2000)}},
     {{0x40000000, 0x1000}, {0x80000000, 0x2000}},
     2},
};

/*
 * An import, in all the ways in which it must answer the same.
 */

/* Room for a slice, between pages that cannot be read. */
static uint8_t *room_start;
static uint8_t *room_end;

static void make_room(void)
{
    const size_t size = (ROOM + TAIL + PAGE - 1) / PAGE * PAGE;
    uint8_t *pages = mmap(NULL, size + 2 * PAGE, PROT_READ | PROT_WRITE, MAP_PRIVATE | MAP_ANONYMOUS, -1, 0);
    if (pages == MAP_FAILED || mprotect(pages, PAGE, PROT_NONE) != 0 ||
        mprotect(pages + PAGE + size, PAGE, PROT_NONE) != 0) {
        perror("devicetree: mmap");
        exit(2);
    }
    room_start = pages + PAGE;
    room_end = pages + PAGE + size;
}

/* A policy of one range and one region, with any bytes in its free places. */
static void make_policy(struct ritm_policy *policy)
{
    uint64_t state = 1;
    for (size_t k = 0; k < RITM_POLICY_SIZE / 8; k++) {
        state = state * UINT64_C(6364136223846793005) + UINT64_C(1442695040888963407);
        ritm_put_word(policy, k, state);
    }
    ritm_put_word(policy, RITM_POLICY_ALLOWED_COUNT, 0);
    ritm_put_word(policy, RITM_POLICY_REGION_COUNT, 0);
    ritm_allow_range(policy, 0x100000, PAGE, 1);
    ritm_handle_range(policy, 0x200000, PAGE, RITM_HANDLER_FILTERED_MMIO, RITM_HANDLER_FILTERED_MMIO);
}

/* What a policy must be after an import: that of the calls made one by one, or as it was. */
static void allow_pairs(struct ritm_policy *policy, const struct pair *pairs, size_t count)
{
    for (size_t k = 0; k < count; k++) {
        if (ritm_allow_range(policy, pairs[k].base, pairs[k].size, ATTRIBUTES) != RITM_ACCEPTED) {
            fprintf(stderr, "devicetree: a pair of the table is refused\n");
            exit(1);
        }
    }
}

/* Imports a slice into a policy, and compares the answer and every byte of both with what they must be. */
static void import_slice(const char *what, const char *how, const struct ritm_policy *before, const uint8_t *slice,
                         const struct blob *blob, size_t length, uint64_t number, const struct ritm_policy *after)
{
    struct ritm_policy policy = *before;
    expect(what, how, ritm_import_memory(&policy, slice, length, ATTRIBUTES), number);
    expect(what, "the policy's bytes that differ", memcmp(&policy, after, sizeof policy) != 0, 0);
    expect(what, "the blob's bytes that differ", memcmp(slice, blob->bytes, blob->length) != 0, 0);
}

static const uint8_t *place_blob(uint8_t *at, const struct blob *blob)
{
    memcpy(at, blob->bytes, blob->length);
    return at;
}

/* Bytes after totalsize do not matter. A slice that is shorter has none. */
static void import_with_tail(const char *what, const struct ritm_policy *before, const struct blob *blob,
                             uint64_t number, const struct ritm_policy *after, int tail)
{
    if (get(blob, TOTALSIZE) > blob->length) {
        return;
    }
    uint8_t *at = room_end - blob->length - TAIL;
    memset(room_end - TAIL, tail, TAIL);
    import_slice(what, "with bytes after it", before, place_blob(at, blob), blob, blob->length + TAIL, number, after);
}

static void import_everywhere(const char *what, const struct ritm_policy *before, const struct blob *blob,
                              uint64_t number, const struct ritm_policy *after)
{
    const size_t length = blob->length;
    import_slice(what, "before a page that cannot be read", before, place_blob(room_end - length, blob), blob, length,
                 number, after);
    for (size_t k = 0; k < 8; k++) {
        import_slice(what, "after a page that cannot be read", before, place_blob(room_start + k, blob), blob, length,
                     number, after);
    }
    import_with_tail(what, before, blob, number, after, 0x00);
    import_with_tail(what, before, blob, number, after, 0xff);
}

/* The same for a policy that is made here, and the pairs that must be allowed. */
static void expect_import(const char *what, const struct blob *blob, uint64_t number, const struct pair *pairs,
                          size_t count)
{
    struct ritm_policy before;
    struct ritm_policy after;
    make_policy(&before);
    after = before;
    allow_pairs(&after, pairs, number == RITM_ACCEPTED ? count : 0);
    import_everywhere(what, &before, blob, number, &after);
}

static uint64_t number_of(enum outcome outcome)
{
    switch (outcome) {
    case INVALID:
        return RITM_INVALID_DEVICETREE;
    case CELL_COUNTS:
        return RITM_UNSUPPORTED_CELL_COUNTS;
    default:
        return RITM_ACCEPTED;
    }
}

static void test_row(void (*make)(struct blob *), const struct row *row, const struct pair *pairs, size_t count)
{
    static struct blob blob;
    make(&blob);
    change(&blob, row->changes, MOST_CHANGES);
    expect_import(row->what, &blob, number_of(row->outcome), pairs, count);
}

static void test_rows(void (*make)(struct blob *), const struct row *rows, size_t count)
{
    static const struct pair good = {GOOD_BASE, GOOD_SIZE};
    for (size_t k = 0; k < count; k++) {
        test_row(make, &rows[k], &good, rows[k].outcome == MEMORY_ALLOWED);
    }
}

static void test_pair_rows(void)
{
    for (size_t k = 0; k < sizeof pair_rows / sizeof pair_rows[0]; k++) {
        test_row(make_good, &pair_rows[k].row, pair_rows[k].pairs, pair_rows[k].count);
    }
}

/*
 * Lengths.
 */

static void test_no_blob(void)
{
    struct ritm_policy before;
    struct ritm_policy policy;
    make_policy(&before);
    policy = before;
    expect("no blob", "null", ritm_import_memory(&policy, NULL, 0, ATTRIBUTES), RITM_INVALID_DEVICETREE);
    expect("no blob", "at a page that cannot be read", ritm_import_memory(&policy, room_end, 0, ATTRIBUTES),
           RITM_INVALID_DEVICETREE);
    expect("no blob", "the policy's bytes that differ", memcmp(&policy, &before, sizeof policy) != 0, 0);
}

/* Every slice of a blob that is shorter than it, as it is and with its totalsize lowered to the slice's length. */
static void test_truncated(const struct blob *whole)
{
    static struct blob blob;
    blob = *whole;
    for (size_t length = 0; length < whole->length; length++) {
        blob.length = length;
        expect_import("a shorter slice", &blob, RITM_INVALID_DEVICETREE, NULL, 0);
    }
    for (size_t length = HEADER_SIZE; length < whole->length; length++) {
        blob.length = length;
        set(&blob, TOTALSIZE, (uint32_t)length);
        expect_import("a lower totalsize", &blob, RITM_INVALID_DEVICETREE, NULL, 0);
    }
}

/* The structure block last in the blob, and ended at every byte of it with totalsize. */
static void test_structure_truncated(void)
{
    static struct blob blob;
    struct pair pair = {GOOD_BASE, GOOD_SIZE};
    make_good(&blob);
    put_gap(&blob, SIZE, 1);
    memcpy(blob.bytes + blob.length, blob.bytes + STRUCTURE, STRINGS - STRUCTURE);
    set(&blob, OFF_DT_STRUCT, (uint32_t)blob.length);
    blob.length += STRINGS - STRUCTURE;
    set(&blob, TOTALSIZE, (uint32_t)blob.length);
    expect_import("the structure block last", &blob, RITM_ACCEPTED, &pair, 1);
    while (get(&blob, SIZE_DT_STRUCT) > 0) {
        blob.length--;
        set(&blob, TOTALSIZE, (uint32_t)blob.length);
        set(&blob, SIZE_DT_STRUCT, get(&blob, SIZE_DT_STRUCT) - 1);
        expect_import("a shorter structure block", &blob, RITM_INVALID_DEVICETREE, NULL, 0);
    }
}

/*
 * Pairs, and what allow answers to them.
 */

/* Memory of these pairs, in one node or in a node for each. */
static void make_pairs(struct blob *blob, const struct pair *pairs, size_t count, int one_node)
{
    size_t place = MEMORY;
    make_good(blob);
    cut(blob, MEMORY, MEMORY_END + 4 - MEMORY);
    for (size_t k = 0; k < count; k++) {
        if (k == 0 || !one_node) {
            PUT_WORDS(blob, place, FDT_BEGIN_NODE, 0x6d000000, FDT_PROP, 7, NAME_DEVICE_TYPE, MEMORY_WORDS, FDT_PROP,
                      one_node ? 16 * (uint32_t)count : 16, NAME_REG, FDT_END_NODE);
            place += 40;
        }
        PUT_WORDS(blob, place, (uint32_t)(pairs[k].base >> 32), (uint32_t)pairs[k].base,
                  (uint32_t)(pairs[k].size >> 32), (uint32_t)pairs[k].size);
        place += one_node ? 16 : 20;
    }
}

static void expect_pairs(const char *what, const struct pair *pairs, size_t count, uint64_t number)
{
    static struct blob blob;
    for (int one_node = 0; one_node < 2; one_node++) {
        make_pairs(&blob, pairs, count, one_node);
        expect_import(what, &blob, number, pairs, count);
    }
}

/* The policy holds a range at 0x100000 and a region at 0x200000. */
static void test_refused_pairs(void)
{
    static const struct {
        const char *what;
        uint64_t number;
        struct pair pairs[3];
    } rows[] = {
        {"three pairs", RITM_ACCEPTED, {{0x300000, 0x1000}, {0x400000, 0x1000}, {0x301000, 0x1000}}},
        {"a base off a page", 1, {{0x300000, 0x1000}, {0x400001, 0}, {0x500000, 0}}},
        {"a size of 0", 2, {{0x300000, 0x1000}, {0x400000, 0}, {0x500001, 0x1000}}},
        {"a size off a page", 3, {{0x300000, 0x1000}, {0x400000, 0x1001}, {0x500001, 0x1000}}},
        {"a range up to 2^64", 4, {{0x300000, 0x1000}, {0xfffffffffffff000, 0x1000}, {0x500001, 0x1000}}},
        {"a range of the import twice", 6, {{0x300000, 0x1000}, {0x300000, 0x1000}, {0x500001, 0x1000}}},
        {"a range that is allowed already", 6, {{0x300000, 0x1000}, {0x0ff000, 0x2000}, {0x500001, 0x1000}}},
        {"a range over a region", 7, {{0x300000, 0x1000}, {0x1ff000, 0x3000}, {0x500001, 0x1000}}},
        {"the last pair", 1, {{0x300000, 0x1000}, {0x400000, 0x1000}, {0x500001, 0x1000}}},
        {"the first pair", 3, {{0x300000, 1}, {0x400001, 0x1000}, {0x500000, 0}}},
    };
    for (size_t k = 0; k < sizeof rows / sizeof rows[0]; k++) {
        expect_pairs(rows[k].what, rows[k].pairs, 3, rows[k].number);
    }
}

/* The policy holds one range, so that 31 more have room. */
static void test_many_pairs(void)
{
    static struct pair pairs[1000];
    for (size_t k = 0; k < 1000; k++) {
        pairs[k] = (struct pair){UINT64_C(0x40000000) + 2 * PAGE * (999 - k), PAGE};
    }
    expect_pairs("31 pairs", pairs, 31, RITM_ACCEPTED);
    expect_pairs("32 pairs", pairs, 32, RITM_TOO_MANY_ALLOWED_RANGES);
    expect_pairs("33 pairs", pairs, 33, RITM_TOO_MANY_ALLOWED_RANGES);
    expect_pairs("1,000 pairs", pairs, 1000, RITM_TOO_MANY_ALLOWED_RANGES);
    pairs[31] = pairs[0];
    expect_pairs("32 pairs, the last one twice", pairs, 32, RITM_TOO_MANY_ALLOWED_RANGES);
    static const struct pair bad[] = {{1, PAGE}, {0, 0}, {0, 1}, {UINT64_C(0xfffffffffffff000), PAGE}};
    for (size_t k = 0; k < 4; k++) {
        pairs[31] = bad[k];
        expect_pairs("32 pairs, and 1 to 4 for the last", pairs, 32, k + 1);
        expect_pairs("1,000 pairs, and 1 to 4 for the 32nd", pairs, 1000, k + 1);
    }
    pairs[31] = pairs[0];
    pairs[32] = bad[0];
    expect_pairs("33 pairs, 5 before 1", pairs, 33, RITM_TOO_MANY_ALLOWED_RANGES);
}

/* A fresh policy takes 32 ranges, and a full one an import of none. */
static void test_full(void)
{
    static struct blob blob;
    struct pair pairs[33];
    struct ritm_policy policy;
    struct ritm_policy singly;
    for (size_t k = 0; k < 33; k++) {
        pairs[k] = (struct pair){UINT64_C(0x40000000) + 2 * PAGE * k, PAGE};
    }
    ritm_fresh_policy(&policy);
    singly = policy;
    make_pairs(&blob, pairs, 33, 1);
    import_everywhere("33 pairs, fresh", &policy, &blob, RITM_TOO_MANY_ALLOWED_RANGES, &singly);
    make_pairs(&blob, pairs, 32, 1);
    allow_pairs(&singly, pairs, 32);
    import_everywhere("32 pairs, fresh", &policy, &blob, RITM_ACCEPTED, &singly);
    make_bare(&blob);
    import_everywhere("no memory, full", &singly, &blob, RITM_ACCEPTED, &singly);
    make_good(&blob);
    import_everywhere("memory, full", &singly, &blob, RITM_TOO_MANY_ALLOWED_RANGES, &singly);
}

/* A tree as deep as 64 KiB has room for, with memory after the deep node. */
static void test_deep(void)
{
    static struct blob blob;
    struct pair pair = {GOOD_BASE, GOOD_SIZE};
    make_good(&blob);
    size_t place = MEMORY;
    for (size_t k = 0; k < 5400; k++) {
        PUT_WORDS(&blob, place, FDT_BEGIN_NODE, 0, FDT_END_NODE);
        place += 8;
    }
    expect_import("5,400 nodes in each other", &blob, RITM_ACCEPTED, &pair, 1);
    cut(&blob, place, 4);
    expect_import("5,400 nodes in each other, one not ended", &blob, RITM_INVALID_DEVICETREE, NULL, 0);
}

/*
 * QEMU's own blob, of which the first bytes are recorded: 1 MiB as it is, and with zero bytes from there on.
 */

static size_t read_dump(const char *folder, uint8_t *bytes, size_t most)
{
    char name[4096];
    snprintf(name, sizeof name, "%s/qemu-128.dumped", folder);
    FILE *file = fopen(name, "rb");
    if (file == NULL) {
        perror(name);
        exit(2);
    }
    const size_t length = fread(bytes, 1, most, file);
    fclose(file);
    return length;
}

/* Sets the bytes to zero that fill up values, and gives how many values have others. */
static size_t clear_padding(struct blob *blob)
{
    size_t values = 0;
    size_t place = get(blob, OFF_DT_STRUCT);
    for (uint32_t token = get(blob, place); token != FDT_END; token = get(blob, place)) {
        place += 4;
        if (token == FDT_BEGIN_NODE) {
            place = (place + strlen((const char *)blob->bytes + place) + 4) / 4 * 4;
        } else if (token == FDT_PROP) {
            const size_t end = place + 8 + get(blob, place);
            size_t others = 0;
            for (place = end; place % 4 != 0; place++) {
                others += blob->bytes[place] != 0;
                blob->bytes[place] = 0;
            }
            values += others != 0;
        }
    }
    return values;
}

static void test_qemu(const char *folder)
{
    static uint8_t dumped[1048576];
    static struct blob blob;
    struct pair pair = {GOOD_BASE, GOOD_SIZE};
    struct ritm_policy policy;
    ritm_fresh_policy(&policy);
    blob.length = read_dump(folder, dumped, sizeof dumped);
    expect("QEMU's blob", "bytes recorded", blob.length, 7510);
    expect("QEMU's blob", "as dumped", ritm_import_memory(&policy, dumped, sizeof dumped, ATTRIBUTES),
           RITM_INVALID_DEVICETREE);
    memcpy(blob.bytes, dumped, blob.length);
    expect("QEMU's blob", "totalsize", get(&blob, TOTALSIZE), sizeof dumped);
    set(&blob, TOTALSIZE, (uint32_t)blob.length);
    expect_import("QEMU's blob with its own length for totalsize", &blob, RITM_INVALID_DEVICETREE, NULL, 0);
    expect("QEMU's blob", "values that are not filled up with zero bytes", clear_padding(&blob), 15);
    expect_import("QEMU's blob filled up with zero bytes", &blob, RITM_ACCEPTED, &pair, 1);
}

#define TEST_ROWS(make, rows) test_rows(make, rows, sizeof(rows) / sizeof(rows)[0])

int main(int argc, char **argv)
{
    static struct blob blob;
    make_room();
    make_good(&blob);
    expect("the good blob", "length", blob.length, SIZE);
    TEST_ROWS(make_good, good_rows);
    TEST_ROWS(make_bare, bare_rows);
    test_pair_rows();
    test_no_blob();
    test_truncated(&blob);
    test_structure_truncated();
    test_refused_pairs();
    test_many_pairs();
    test_full();
    test_deep();
    test_qemu(argc > 1 ? argv[1] : "tests/devicetree");
    if (failures > 0) {
        fprintf(stderr, "devicetree: %zu of %zu checks failed\n", failures, tests);
        return 1;
    }
    printf("devicetree: %zu blobs for single rules, truncated and QEMU's: %zu checks agree\n",
           sizeof good_rows / sizeof good_rows[0] + sizeof bare_rows / sizeof bare_rows[0], tests);
    return 0;
}
