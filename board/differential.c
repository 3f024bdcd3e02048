/*
 * Makes pseudo-random calls of every function of the archive, on fresh states and on any bytes. Built for two machines,
 * it must make the same calls on both and come to the same outcome. It needs memset of a C library and nothing else.
 */
#include <stddef.h>
#include <string.h>

#include "differential.h"
#include "ritm.h"

#define PAGE UINT64_C(0x1000)
#define FILTERED_MMIO_BASE UINT64_C(0x0f000000)

/* Calls between two fresh states. */
#define LIST_LENGTH 256

/* A buffer stands between bytes that no call may change. */
#define MARGIN 16
#define MARK 0xa5
struct buffer {
    _Alignas(16) uint8_t bytes[RITM_CORES_SIZE + 2 * MARGIN];
    uint8_t *start;
    size_t size;
};

static struct buffer policy, cores, map, registers, values, trapped, found, entry, access_result, word, blob;
static struct outcome outcome;
static uint64_t state;

/* A buffer as the header has it, which need not be aligned here. */
#define AS(type, buffer) ((struct type *)(void *)(buffer).start)

/*
 * Random numbers: SplitMix64.
 */

static uint64_t any(void)
{
    uint64_t z = state += UINT64_C(0x9e3779b97f4a7c15);
    z = (z ^ z >> 30) * UINT64_C(0xbf58476d1ce4e5b9);
    z = (z ^ z >> 27) * UINT64_C(0x94d049bb133111eb);
    return z ^ z >> 31;
}

static uint64_t below(uint64_t limit)
{
    return any() % limit;
}

static int once_in(uint64_t times)
{
    return below(times) == 0;
}

/* Numbers at which something may change, besides any. */
static uint64_t number(void)
{
    static const uint64_t edges[] = {0, 1, 7, 8, 30, 31, 32, PAGE - 1, PAGE, PAGE + 1, -PAGE - 1, -PAGE, -PAGE + 1, -1};
    const uint64_t shift = below(64);
    return once_in(2) ? edges[below(sizeof edges / sizeof edges[0])] : any() >> shift;
}

/* The bases that are allowed and handled are few, so that they meet. */
static uint64_t base(void)
{
    if (once_in(16)) {
        return number();
    }
    return once_in(4) ? FILTERED_MMIO_BASE : PAGE * below(96);
}

static uint64_t size(void)
{
    return once_in(12) ? number() : PAGE * (1 + below(3));
}

static uint64_t core(void)
{
    return once_in(24) ? number() : below(RITM_MAX_CORES);
}

/* What a guest calls with in x0: a function identifier near the firmware's, of RITM's test call or of a yielding call,
   often with bit 16 set, a fast call's hint, and at times with bits of the upper half. */
static uint64_t call_register(void)
{
    static const uint64_t starts[] = {0x84000000, 0xc4000000, 0xff000000, 0x04000000};
    const uint64_t start = starts[below(4)];
    const uint64_t identifier = start + below(40) - 4;
    const uint64_t hint = below(2) << 16;
    const uint64_t upper = once_in(4) ? any() << 32 : 0;
    return once_in(8) ? any() : upper | hint | identifier;
}

/* Bits 31:0 are an ISS, of which ISV and 64 bits are frequent. */
static uint64_t iss(void)
{
    uint64_t bits = any();
    if (!once_in(8)) {
        bits |= UINT64_C(1) << 24;
    }
    if (!once_in(3)) {
        bits |= UINT64_C(3) << 22;
    }
    return bits;
}

static uint64_t esr(void)
{
    static const uint64_t classes[] = {0x16, 0x17, 0x24, 0x24, 0x24, 0x24, 0x24, 0x24};
    const uint64_t ec = once_in(24) ? below(64) : classes[below(8)];
    const uint64_t high = once_in(8) ? any() << 32 : 0;
    return high | ec << 26 | (iss() & 0x3ffffff);
}

static uint64_t far(void)
{
    const uint64_t page = any() & ~(PAGE - 1);
    return page | (once_in(4) ? below(PAGE) : 8 * below(7));
}

static uint64_t fipa(void)
{
    const uint64_t page = once_in(2) ? FILTERED_MMIO_BASE / PAGE : base() / PAGE;
    return page | (once_in(16) ? any() << 52 : 0);
}

/*
 * Buffers.
 */

static void fill(struct buffer *buffer)
{
    for (size_t k = 0; k < buffer->size / 8; k++) {
        ritm_put_word(buffer->start, k, once_in(2) ? below(8) : any());
    }
}

/* Of the registers, x0 has what a guest calls with and some the value that the filtered MMIO page takes. */
static void fill_registers(void)
{
    fill(&registers);
    for (size_t k = 0; k < 31; k++) {
        if (once_in(2)) {
            ritm_put_word(registers.start, k, UINT64_C(0x123456789abcdef0));
        }
    }
    ritm_put_word(registers.start, 0, call_register());
}

/*
 * Devicetree blobs: a root with its cell counts, a memory node of few pairs and an empty node, every other time
 * damaged. The longest takes 235 bytes.
 */

#define BLOB_SIZE 256

static void put_big_endian(size_t place, uint32_t w)
{
    for (size_t i = 0; i < 4; i++) {
        blob.start[place + i] = (uint8_t)(w >> (24 - 8 * i));
    }
}

/* Puts a number of one or two cells, and gives the place after it. */
static size_t put_cells(size_t place, uint64_t value, uint64_t cells)
{
    if (cells == 2) {
        put_big_endian(place, (uint32_t)(value >> 32));
        place += 4;
    }
    put_big_endian(place, (uint32_t)value);
    return place + 4;
}

static size_t put_all(size_t place, const uint32_t *words, size_t count)
{
    for (size_t k = 0; k < count; k++) {
        put_big_endian(place + 4 * k, words[k]);
    }
    return place + 4 * count;
}

/* Puts the memory's pairs, and gives the place after them. */
static size_t put_pairs(size_t place, uint64_t pairs, uint64_t address_cells, uint64_t size_cells)
{
    for (uint64_t k = 0; k < pairs; k++) {
        const uint64_t pair_base = base();
        const uint64_t pair_size = size();
        place = put_cells(place, pair_base, address_cells);
        place = put_cells(place, pair_size, size_cells);
    }
    return place;
}

/* A byte of the blob is any, or one of its words a token, a small number or a place. */
static void damage(size_t length)
{
    const uint64_t place = below(length);
    const uint64_t value = any();
    if (once_in(2)) {
        blob.start[place] = (uint8_t)value;
    } else {
        put_big_endian(place & ~UINT64_C(3), (uint32_t)(once_in(8) ? value : value % 300));
    }
}

/* Fills the blob, and gives its length. */
static size_t fill_blob(void)
{
    static const char strings[] = "#address-cells\0#size-cells\0device_type\0reg";
    const uint32_t address_cells = (uint32_t)(once_in(16) ? below(5) : 1 + below(2));
    const uint32_t size_cells = (uint32_t)(once_in(16) ? below(5) : 1 + below(2));
    const uint32_t pairs = (uint32_t)below(3);
    const uint32_t reg_size = 4 * pairs * ((address_cells == 2 ? 2 : 1) + (size_cells == 2 ? 2 : 1));
    const uint32_t root[] = {1, 0, 3, 4, 0, address_cells, 3, 4, 15, size_cells};
    const uint32_t memory[] = {1, 0x6d000000, 3, 7, 27, 0x6d656d6f, 0x72790000, 3, reg_size, 39};
    const uint32_t ends[] = {2, 1, 0x6e000000, 2, 2, 9};
    size_t end = put_all(56, root, sizeof root / 4);
    end = put_all(end, memory, sizeof memory / 4);
    end = put_pairs(end, pairs, address_cells, size_cells);
    end = put_all(end, ends, sizeof ends / 4);
    const uint32_t length = (uint32_t)(end + sizeof strings);
    const uint32_t header[] = {
        0xd00dfeed, length, 56, (uint32_t)end, 40, 17, 16, 0, sizeof strings, (uint32_t)end - 56, 0, 0, 0, 0};
    put_all(0, header, sizeof header / 4);
    for (size_t i = 0; i < sizeof strings; i++) {
        blob.start[end + i] = (uint8_t)strings[i];
    }
    if (once_in(2)) {
        damage(length);
    }
    return length;
}

static void lend(struct buffer *buffer, size_t size, int aligned)
{
    const uint64_t offset = below(8);
    memset(buffer->bytes, MARK, sizeof buffer->bytes);
    buffer->start = buffer->bytes + MARGIN + (aligned ? 0 : offset);
    buffer->size = size;
    fill(buffer);
}

static void take(uint64_t w)
{
    outcome.hash = (outcome.hash ^ w) * UINT64_C(0x9e3779b97f4a7c15);
    outcome.hash ^= outcome.hash >> 29;
}

static void take_buffer(const struct buffer *buffer)
{
    for (size_t k = 0; k < buffer->size / 8; k++) {
        take(ritm_get_word(buffer->start, k));
    }
    for (size_t i = 0; i < MARGIN / 2; i++) {
        outcome.changed_beside += *(buffer->start - 1 - i) != MARK || buffer->start[buffer->size + i] != MARK;
    }
}

/*
 * Calls.
 */

/* Both ABIs leave open what the upper half of a 32-bit argument's register holds. By these declarations of the same
   functions anything stands there. */
uint64_t wide_reply(struct ritm_cores *, uint64_t core, uint64_t kind, const struct ritm_values *,
                    uint64_t error) __asm__("ritm_reply");
uint64_t wide_decode(uint64_t iss, uint64_t fipa, uint64_t far, struct ritm_access_result *) __asm__("ritm_decode");
uint64_t wide_extend(uint64_t iss, uint64_t value, struct ritm_word_result *) __asm__("ritm_extend_read_result");

/* What a call may be given. */
struct arguments {
    uint64_t a;
    uint64_t b;
    uint64_t core;
    uint64_t number;
    uint64_t base;
    uint64_t size;
    uint64_t key;
    uint64_t index;
    uint64_t esr;
    uint64_t iss;
    uint64_t fipa;
    uint64_t far;
    uint64_t vbar;
};

/* C leaves open which argument of a call is worked out first, so they are drawn one after the other before it. */
static struct arguments draw(void)
{
    struct arguments drawn;
    drawn.a = any();
    drawn.b = any();
    drawn.core = core();
    drawn.number = number();
    drawn.base = base();
    drawn.size = size();
    drawn.key = below(12);
    drawn.index = below(34);
    drawn.esr = esr();
    drawn.iss = iss();
    drawn.fipa = fipa();
    drawn.far = far();
    drawn.vbar = once_in(8) ? 0 : number();
    return drawn;
}

static uint64_t fresh_policy(const struct arguments *x)
{
    (void)x;
    return ritm_fresh_policy(AS(ritm_policy, policy));
}

static uint64_t allow_range(const struct arguments *x)
{
    return ritm_allow_range(AS(ritm_policy, policy), x->base, x->size, x->a);
}

/* Mostly the number of a handler, at times the first that is none, or any. */
static uint64_t handler(uint64_t drawn)
{
    const uint64_t choice = drawn % 50;
    return choice < 48 ? choice % RITM_HANDLER_COUNT : choice == 48 ? RITM_HANDLER_COUNT : drawn;
}

static uint64_t handle_range(const struct arguments *x)
{
    return ritm_handle_range(AS(ritm_policy, policy), x->base, x->size, handler(x->a), handler(x->b));
}

/* Mostly the slice is the whole buffer; at times it is the blob alone or of any length, and once in 64 there is none.
 */
static uint64_t import_memory(const struct arguments *x)
{
    const size_t length = fill_blob();
    const uint64_t shorter = once_in(2) ? length : below(BLOB_SIZE);
    const uint64_t slice = once_in(4) ? shorter : BLOB_SIZE;
    if (once_in(64)) {
        return ritm_import_memory(AS(ritm_policy, policy), 0, 0, x->a);
    }
    return ritm_import_memory(AS(ritm_policy, policy), blob.start, slice, x->a);
}

/* Where a record of the policy's ranges or regions begins: one that is held, if any is. */
static size_t record_of(uint64_t drawn)
{
    static const struct {
        size_t start;
        size_t words;
        size_t count;
        uint64_t limit;
    } lists[] = {
        {RITM_POLICY_ALLOWED, RITM_ALLOWED_WORDS, RITM_POLICY_ALLOWED_COUNT, RITM_MAX_ALLOWED_RANGES},
        {RITM_POLICY_REGIONS, RITM_REGION_WORDS, RITM_POLICY_REGION_COUNT, RITM_MAX_MEMORY_ACCESS_HANDLERS},
    };
    const size_t i = drawn % 2;
    const uint64_t count = ritm_get_word(policy.start, lists[i].count);
    const uint64_t places = count - 1 < lists[i].limit ? count : lists[i].limit;
    return lists[i].start + drawn / 2 % places * lists[i].words;
}

/* Mostly of a record's base and size, at times of the last page. The number of ranges tells which list it left. */
static uint64_t release_range(const struct arguments *x)
{
    const size_t record = record_of(x->a);
    const uint64_t other = x->b % 64 ? x->base : -PAGE;
    const uint64_t base = x->b % 8 ? ritm_get_word(policy.start, record + RITM_ALLOWED_BASE) : other;
    const uint64_t size = x->b / 64 % 8 ? ritm_get_word(policy.start, record + RITM_ALLOWED_SIZE) : x->size;
    const uint64_t ranges = ritm_get_word(policy.start, RITM_POLICY_ALLOWED_COUNT);
    const uint64_t answer = ritm_release_range(AS(ritm_policy, policy), base, size);
    if (answer == RITM_ACCEPTED) {
        outcome.released[ritm_get_word(policy.start, RITM_POLICY_ALLOWED_COUNT) == ranges]++;
    }
    return answer;
}

static uint64_t find(const struct arguments *x)
{
    return ritm_find(AS(ritm_policy, policy), x->base + x->a % (2 * PAGE), AS(ritm_find_result, found));
}

static uint64_t fresh_cores(const struct arguments *x)
{
    (void)x;
    return ritm_fresh_cores(AS(ritm_cores, cores));
}

static uint64_t save(const struct arguments *x)
{
    fill_registers();
    return ritm_save(AS(ritm_cores, cores), x->core, AS(ritm_registers, registers));
}

static uint64_t trap(const struct arguments *x)
{
    return ritm_trap(AS(ritm_policy, policy), AS(ritm_cores, cores), x->core, x->esr, x->fipa, x->far, x->vbar,
                     AS(ritm_trap_result, trapped));
}

static uint64_t reply(const struct arguments *x)
{
    fill(&values);
    return wide_reply(AS(ritm_cores, cores), x->core, x->a % 16 % 6, AS(ritm_values, values), x->b);
}

static uint64_t read_gpr(const struct arguments *x)
{
    return ritm_read_gpr(AS(ritm_cores, cores), x->core, x->index, AS(ritm_word_result, word));
}

static uint64_t write_gpr(const struct arguments *x)
{
    return ritm_write_gpr(AS(ritm_cores, cores), x->core, x->index, x->number);
}

static uint64_t fresh_map(const struct arguments *x)
{
    (void)x;
    return ritm_fresh_map(AS(ritm_suspend_map, map));
}

static uint64_t insert(const struct arguments *x)
{
    return ritm_insert(AS(ritm_suspend_map, map), x->key, x->a, x->b);
}

static uint64_t get(const struct arguments *x)
{
    return ritm_get(AS(ritm_suspend_map, map), x->key, AS(ritm_entry_result, entry));
}

static uint64_t remove_key(const struct arguments *x)
{
    return ritm_remove(AS(ritm_suspend_map, map), x->key, AS(ritm_entry_result, entry));
}

static uint64_t decode(const struct arguments *x)
{
    return wide_decode(x->iss, x->number, x->a, AS(ritm_access_result, access_result));
}

static uint64_t extend(const struct arguments *x)
{
    return wide_extend(x->iss, x->a, AS(ritm_word_result, word));
}

static uint64_t align_down(const struct arguments *x)
{
    return ritm_align_down_to_page(x->number, AS(ritm_word_result, word));
}

static uint64_t align_up(const struct arguments *x)
{
    return ritm_align_up_to_page(x->number, AS(ritm_word_result, word));
}

static uint64_t buffer_size(const struct arguments *x)
{
    return ritm_buffer_size(x->key);
}

/* Each call, how often it comes, and all that it is lent. */
struct call {
    uint64_t (*make)(const struct arguments *);
    uint64_t weight;
    const struct buffer *lent[3];
};

static const struct call calls[] = {
    {fresh_policy, 1, {&policy}},
    {allow_range, 12, {&policy}},
    {handle_range, 12, {&policy}},
    {import_memory, 8, {&policy, &blob}},
    {release_range, 6, {&policy}},
    {find, 3, {&policy, &found}},
    {fresh_cores, 1, {&cores}},
    {save, 12, {&cores, &registers}},
    {trap, 20, {&policy, &cores, &trapped}},
    {reply, 16, {&cores, &values}},
    {read_gpr, 3, {&cores, &word}},
    {write_gpr, 3, {&cores}},
    {fresh_map, 1, {&map}},
    {insert, 6, {&map}},
    {get, 3, {&map, &entry}},
    {remove_key, 3, {&map, &entry}},
    {decode, 3, {&access_result}},
    {extend, 3, {&word}},
    {align_down, 2, {&word}},
    {align_up, 2, {&word}},
    {buffer_size, 1, {0}},
};
#define CALLS (sizeof calls / sizeof calls[0])

static void take_what_was_lent(const struct call *call)
{
    for (size_t i = 0; i < 3 && call->lent[i] != 0; i++) {
        take_buffer(call->lent[i]);
    }
}

static const struct call *choose(void)
{
    uint64_t total = 0;
    for (size_t i = 0; i < CALLS; i++) {
        total += calls[i].weight;
    }
    const struct call *call = calls;
    for (uint64_t drawn = below(total); drawn >= call->weight; call++) {
        drawn -= call->weight;
    }
    return call;
}

/* Every list begins with buffers at new places, once in four with any bytes in them, and else fresh but for the
   filtered MMIO page. Every archive takes a blob anywhere. */
static void begin_list(int aligned)
{
    lend(&policy, RITM_POLICY_SIZE, aligned);
    lend(&cores, RITM_CORES_SIZE, aligned);
    lend(&map, RITM_MAP_SIZE, aligned);
    lend(&registers, RITM_REGISTERS_SIZE, aligned);
    lend(&values, RITM_VALUES_SIZE, aligned);
    lend(&trapped, RITM_TRAP_RESULT_SIZE, aligned);
    lend(&found, RITM_FIND_RESULT_SIZE, aligned);
    lend(&entry, RITM_ENTRY_RESULT_SIZE, aligned);
    lend(&access_result, RITM_ACCESS_RESULT_SIZE, aligned);
    lend(&word, RITM_WORD_RESULT_SIZE, aligned);
    lend(&blob, BLOB_SIZE, 0);
    if (!once_in(4)) {
        ritm_fresh_policy(AS(ritm_policy, policy));
        ritm_fresh_cores(AS(ritm_cores, cores));
        ritm_fresh_map(AS(ritm_suspend_map, map));
        ritm_handle_range(AS(ritm_policy, policy), FILTERED_MMIO_BASE, PAGE, 1, 1);
    }
}

/* A trap with a valid syndrome counts for the handler of its region and its direction, if it has a region. */
static void count_access(const struct arguments *x, uint64_t kind)
{
    const uint64_t ipa = x->fipa << 12 | (x->far & (PAGE - 1));
    const uint64_t held = ritm_get_word(policy.start, RITM_POLICY_REGION_COUNT);
    const int is_access = (x->esr >> 26 & 0x3f) == 0x24 && (x->esr >> 24 & 1);
    for (size_t k = 0; is_access && k < held && k < RITM_MAX_MEMORY_ACCESS_HANDLERS; k++) {
        const size_t region = RITM_POLICY_REGIONS + k * RITM_REGION_WORDS;
        if (ritm_get_word(policy.start, region + RITM_REGION_BASE) <= ipa &&
            ipa < ritm_get_word(policy.start, region + RITM_REGION_END)) {
            const size_t half = x->esr >> 6 & 1 ? RITM_REGION_WRITE : RITM_REGION_READ;
            const uint64_t code = ritm_get_word(policy.start, region + half);
            outcome.handler_kinds[code < HANDLERS ? code : HANDLERS - 1][kind]++;
            return;
        }
    }
}

static void count(const struct call *call, const struct arguments *x, uint64_t answer)
{
    if (call->make != buffer_size && answer < ANSWERS) {
        outcome.answers[answer]++;
    }
    if (call->make == import_memory && answer < ANSWERS) {
        outcome.import_answers[answer]++;
    }
    if (call->make == release_range && answer < ANSWERS) {
        outcome.release_answers[answer]++;
    }
    if (call->make == trap) {
        const uint64_t kind = ritm_get_word(trapped.start, RITM_TRAP_KIND) % TRAP_KINDS;
        outcome.trap_kinds[kind]++;
        outcome.hinted_kinds[kind] += ritm_get_word(trapped.start, RITM_TRAP_HINT);
        count_access(x, kind);
    }
}

static void make_call(void)
{
    const struct call *call = choose();
    const struct arguments drawn = draw();
    const uint64_t answer = call->make(&drawn);
    take(answer);
    take_what_was_lent(call);
    count(call, &drawn, answer);
}

struct outcome make_random_calls(uint64_t seed, uint64_t number_of_calls, int aligned)
{
    outcome = (struct outcome){.hash = 0};
    state = seed;
    for (uint64_t i = 0; i < number_of_calls; i++) {
        if (i % LIST_LENGTH == 0) {
            begin_list(aligned);
        }
        make_call();
    }
    return outcome;
}
