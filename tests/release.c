/*
 * Compares ritm_release_range with what document 02 says of it, every word that it leaves: on policies handed in, where
 * the first that matches is one of several and counts, ends and codes are any; and on those that lists of allow, handle
 * and release calls lead to, which must be what the ranges still held build afresh.
 */
#include <inttypes.h>
#include <stdio.h>
#include <stdlib.h>

#include "ritm.h"

#define LENGTH(array) (sizeof(array) / sizeof(array)[0])

#define PAGE UINT64_C(0x1000)

/* Where a record of either list has its base, its size and its end. */
enum { BASE, SIZE, END };
_Static_assert(RITM_ALLOWED_BASE == BASE && RITM_ALLOWED_SIZE == SIZE && RITM_ALLOWED_END == END, "a range's words");
_Static_assert(RITM_REGION_BASE == BASE && RITM_REGION_SIZE == SIZE && RITM_REGION_END == END, "a region's words");

/* A list of a policy: where its records and their count stand, the first of a record's words that is a handler's code,
   and how many it holds at most. */
struct list {
    size_t start;
    size_t words;
    size_t handlers;
    size_t count;
    uint64_t limit;
};
static const struct list ranges = {RITM_POLICY_ALLOWED, RITM_ALLOWED_WORDS, RITM_ALLOWED_WORDS,
                                   RITM_POLICY_ALLOWED_COUNT, RITM_MAX_ALLOWED_RANGES};
static const struct list regions = {RITM_POLICY_REGIONS, RITM_REGION_WORDS, RITM_REGION_READ, RITM_POLICY_REGION_COUNT,
                                    RITM_MAX_MEMORY_ACCESS_HANDLERS};
static const struct list *const lists[] = {&ranges, &regions};

static uint64_t *record_at(struct ritm_policy *policy, const struct list *list, uint64_t place)
{
    return &policy->words[list->start + place * list->words];
}

/*
 * What the documents say.
 */

/* "A count above its limit is read as the limit." */
static uint64_t held(const struct ritm_policy *policy, const struct list *list)
{
    const uint64_t count = policy->words[list->count];
    return count < list->limit ? count : list->limit;
}

/* The place of the first record with this base and size, or how many are held. */
static uint64_t place_of(struct ritm_policy *policy, const struct list *list, uint64_t base, uint64_t size)
{
    uint64_t place = 0;
    for (; place < held(policy, list); place++) {
        const uint64_t *words = record_at(policy, list, place);
        if (words[BASE] == base && words[SIZE] == size) {
            break;
        }
    }
    return place;
}

/* The handler that a code means: an unknown one means the fault. */
static uint64_t meaning(uint64_t code)
{
    return code < RITM_HANDLER_COUNT ? code : RITM_HANDLER_FAULT;
}

/* Stores a record where another stood. A code that means the same handler stays. */
static void put_record(const struct list *list, uint64_t *to, const uint64_t *words)
{
    for (size_t k = 0; k < list->words; k++) {
        if (k < list->handlers) {
            to[k] = words[k];
        } else if (meaning(to[k]) != meaning(words[k])) {
            to[k] = meaning(words[k]);
        }
    }
}

/* Those behind the record move down one place. The last place keeps what it held. */
static void take_record(struct ritm_policy *policy, const struct list *list, uint64_t place)
{
    const uint64_t left = held(policy, list) - 1;
    for (; place < left; place++) {
        put_record(list, record_at(policy, list, place), record_at(policy, list, place + 1));
    }
    policy->words[list->count] = left;
}

/* Document 01's refusals 1 to 4, or 0. */
static uint64_t range_number(uint64_t base, uint64_t size)
{
    if (base % PAGE != 0) {
        return RITM_RANGE_BASE_NOT_PAGE_ALIGNED;
    }
    if (size == 0) {
        return RITM_EMPTY_RANGE;
    }
    if (size % PAGE != 0) {
        return RITM_RANGE_SIZE_NOT_PAGE_MULTIPLE;
    }
    return size > UINT64_MAX - base ? RITM_RANGE_END_OVERFLOW : RITM_ACCEPTED;
}

/* "The first that matches, allowed ranges before regions"; "23 .., after 1 to 4". */
static uint64_t expected(struct ritm_policy *policy, uint64_t base, uint64_t size)
{
    const uint64_t number = range_number(base, size);
    if (number != RITM_ACCEPTED) {
        return number;
    }
    for (size_t i = 0; i < LENGTH(lists); i++) {
        const uint64_t place = place_of(policy, lists[i], base, size);
        if (place < held(policy, lists[i])) {
            take_record(policy, lists[i], place);
            return RITM_ACCEPTED;
        }
    }
    return RITM_RANGE_NOT_HELD;
}

/*
 * What the archive does.
 */

static uint64_t calls;

static void expect(const char *what, uint64_t got, uint64_t wanted)
{
    if (got != wanted) {
        printf("release: %s 0x%" PRIx64 " instead of 0x%" PRIx64 "\n", what, got, wanted);
        exit(1);
    }
}

static void compare(const struct ritm_policy *policy, const struct ritm_policy *wanted, uint64_t base, uint64_t size)
{
    for (size_t k = 0; k < RITM_POLICY_SIZE / 8; k++) {
        if (policy->words[k] != wanted->words[k]) {
            printf("release: base 0x%" PRIx64 ", size 0x%" PRIx64 ", word %zu:\n", base, size, k);
            expect("a word", policy->words[k], wanted->words[k]);
        }
    }
}

/* Releases a range, and compares the number and all words of the policy. */
static uint64_t release(struct ritm_policy *policy, uint64_t base, uint64_t size)
{
    struct ritm_policy wanted = *policy;
    const uint64_t number = expected(&wanted, base, size);
    const uint64_t answer = ritm_release_range(policy, base, size);
    if (answer != number) {
        printf("release: base 0x%" PRIx64 ", size 0x%" PRIx64 ":\n", base, size);
    }
    expect("an answer", answer, number);
    compare(policy, &wanted, base, size);
    calls++;
    return answer;
}

/*
 * Policies handed in. In every place of both lists stands another record, past the counts too, and its stored end is
 * none that its base and size have.
 */

#define RECORD_BASE(k) (PAGE * (8 + 4 * (uint64_t)(k)))
#define RECORD_SIZE(k) (PAGE * (1 + (uint64_t)(k) % 3))
#define NO_END(k) (UINT64_C(0xe5d0) + (uint64_t)(k))
#define MARK(k) (UINT64_C(0xa77) + (uint64_t)(k))

/* The number of a list's first record. */
static const uint64_t first_number[] = {0, RITM_MAX_ALLOWED_RANGES};

static const uint64_t codes[] = {0, 1, 2, 3, UINT64_MAX};

static void fill_policy(struct ritm_policy *policy, uint64_t allowed_count, uint64_t region_count)
{
    for (size_t i = 0; i < LENGTH(lists); i++) {
        for (uint64_t place = 0; place < lists[i]->limit; place++) {
            uint64_t *words = record_at(policy, lists[i], place);
            const uint64_t k = first_number[i] + place;
            words[BASE] = RECORD_BASE(k);
            words[SIZE] = RECORD_SIZE(k);
            words[END] = NO_END(k);
            for (size_t word = END + 1; word < lists[i]->words; word++) {
                words[word] = word < lists[i]->handlers ? MARK(k) : codes[place * word % LENGTH(codes)];
            }
        }
    }
    policy->words[ranges.count] = allowed_count;
    policy->words[regions.count] = region_count;
}

static void put_base_and_size(struct ritm_policy *policy, const struct list *list, uint64_t place, uint64_t base,
                              uint64_t size)
{
    record_at(policy, list, place)[BASE] = base;
    record_at(policy, list, place)[SIZE] = size;
}

/* Refusals 1 to 4 are given whatever is held, a record with that very base and size too, and before 23. */
static void refuse_numbers(void)
{
    static const uint64_t numbers[][3] = {
        {1, 0, RITM_RANGE_BASE_NOT_PAGE_ALIGNED},
        {PAGE - 1, PAGE, RITM_RANGE_BASE_NOT_PAGE_ALIGNED},
        {UINT64_MAX, UINT64_MAX, RITM_RANGE_BASE_NOT_PAGE_ALIGNED},
        {0, 0, RITM_EMPTY_RANGE},
        {-PAGE, 0, RITM_EMPTY_RANGE},
        {0, 1, RITM_RANGE_SIZE_NOT_PAGE_MULTIPLE},
        {PAGE, PAGE + 1, RITM_RANGE_SIZE_NOT_PAGE_MULTIPLE},
        {-PAGE, UINT64_MAX, RITM_RANGE_SIZE_NOT_PAGE_MULTIPLE},
        {-PAGE, PAGE, RITM_RANGE_END_OVERFLOW},
        {PAGE, -PAGE, RITM_RANGE_END_OVERFLOW},
        {-PAGE, -PAGE, RITM_RANGE_END_OVERFLOW},
        {-2 * PAGE, PAGE, RITM_ACCEPTED},
        {0, -PAGE, RITM_ACCEPTED},
        {0, PAGE, RITM_ACCEPTED},
    };
    for (size_t i = 0; i < LENGTH(numbers); i++) {
        const uint64_t *row = numbers[i];
        struct ritm_policy policy;
        ritm_fresh_policy(&policy);
        expect("an answer from fresh", release(&policy, row[0], row[1]), row[2] ? row[2] : RITM_RANGE_NOT_HELD);
        for (size_t list = 0; list < LENGTH(lists); list++) {
            fill_policy(&policy, ranges.limit, regions.limit);
            expect("an answer", release(&policy, row[0], row[1]), row[2] ? row[2] : RITM_RANGE_NOT_HELD);
            put_base_and_size(&policy, lists[list], 1, row[0], row[1]);
            expect("an answer where it is held", release(&policy, row[0], row[1]), row[2]);
        }
    }
}

/* One base and size stands in two places of each list: one record goes a call. A mark tells which is left. */
static void release_the_first(void)
{
    const uint64_t base = RECORD_BASE(1);
    const uint64_t size = RECORD_SIZE(1);
    struct ritm_policy policy;
    fill_policy(&policy, 4, 4);
    put_base_and_size(&policy, &ranges, 3, base, size);
    put_base_and_size(&policy, &regions, 0, base, size);
    put_base_and_size(&policy, &regions, 2, base, size);
    record_at(&policy, &regions, 2)[END] = 7;
    expect("a range that is held twice", release(&policy, base, size), RITM_ACCEPTED);
    expect("ranges", policy.words[ranges.count], 3);
    expect("the range left", record_at(&policy, &ranges, 2)[RITM_ALLOWED_ATTRIBUTES], MARK(3));
    expect("a range that is held once", release(&policy, base, size), RITM_ACCEPTED);
    expect("ranges", policy.words[ranges.count], 2);
    expect("regions", policy.words[regions.count], 4);
    expect("a region that is held twice", release(&policy, base, size), RITM_ACCEPTED);
    expect("regions", policy.words[regions.count], 3);
    expect("the region left", record_at(&policy, &regions, 1)[END], 7);
    expect("a region that is held once", release(&policy, base, size), RITM_ACCEPTED);
    expect("regions", policy.words[regions.count], 2);
    expect("a range that is held no more", release(&policy, base, size), RITM_RANGE_NOT_HELD);
}

/* A base that one record has and a size that another has are no range that is held; nor are those of a place past the
   count; and an end makes no difference. */
static void refuse_what_is_not_held(void)
{
    struct ritm_policy policy;
    for (size_t i = 0; i < LENGTH(lists); i++) {
        const uint64_t k = first_number[i];
        fill_policy(&policy, 3, 3);
        expect("a base alone", release(&policy, RECORD_BASE(k), RECORD_SIZE(k + 1)), RITM_RANGE_NOT_HELD);
        expect("a place past the count", release(&policy, RECORD_BASE(k + 3), RECORD_SIZE(k + 3)), RITM_RANGE_NOT_HELD);
        record_at(&policy, lists[i], 0)[END] = RECORD_BASE(k) + 4 * PAGE;
        expect("a base and an end", release(&policy, RECORD_BASE(k), 4 * PAGE), RITM_RANGE_NOT_HELD);
        expect("a base and a size", release(&policy, RECORD_BASE(k), RECORD_SIZE(k)), RITM_ACCEPTED);
    }
}

/* Every place of either list, whatever number is held, beside another list of any count. */
static void release_every_place(void)
{
    static const uint64_t others[] = {0, 1, 16, 20, 32, 40, UINT64_MAX};
    for (size_t i = 0; i < LENGTH(lists); i++) {
        for (uint64_t count = 1; count <= lists[i]->limit; count++) {
            for (uint64_t place = 0; place < count; place++) {
                const uint64_t other = others[(count + place) % LENGTH(others)];
                const uint64_t k = first_number[i] + place;
                struct ritm_policy policy;
                fill_policy(&policy, i == 0 ? count : other, i == 0 ? other : count);
                expect("a place", release(&policy, RECORD_BASE(k), RECORD_SIZE(k)), RITM_ACCEPTED);
            }
        }
    }
}

/* A count above its limit becomes the number of those left, and the other list's stays. */
static void release_above_the_limit(void)
{
    static const uint64_t counts[][2] = {{33, 17}, {40, 20}, {UINT64_MAX, UINT64_MAX}};
    for (size_t i = 0; i < LENGTH(counts); i++) {
        for (uint64_t k = 0; k < ranges.limit + regions.limit; k++) {
            const int is_range = k < ranges.limit;
            struct ritm_policy policy;
            fill_policy(&policy, counts[i][0], counts[i][1]);
            expect("a place", release(&policy, RECORD_BASE(k), RECORD_SIZE(k)), RITM_ACCEPTED);
            expect("ranges", policy.words[ranges.count], is_range ? 31 : counts[i][0]);
            expect("regions", policy.words[regions.count], is_range ? counts[i][1] : 15);
        }
    }
}

/* A region moves to where another's codes stood, each of them any. */
static void release_below_each_code(void)
{
    const uint64_t pairs = LENGTH(codes) * LENGTH(codes);
    for (uint64_t number = 0; number < pairs * pairs; number++) {
        const uint64_t there = number / pairs;
        const uint64_t moved = number % pairs;
        struct ritm_policy policy;
        fill_policy(&policy, 0, 2);
        record_at(&policy, &regions, 0)[RITM_REGION_READ] = codes[there / LENGTH(codes)];
        record_at(&policy, &regions, 0)[RITM_REGION_WRITE] = codes[there % LENGTH(codes)];
        record_at(&policy, &regions, 1)[RITM_REGION_READ] = codes[moved / LENGTH(codes)];
        record_at(&policy, &regions, 1)[RITM_REGION_WRITE] = codes[moved % LENGTH(codes)];
        const uint64_t k = first_number[1];
        expect("a region", release(&policy, RECORD_BASE(k), RECORD_SIZE(k)), RITM_ACCEPTED);
    }
}

/*
 * The freed place is used again.
 */

/* Calls for a record's range: attributes or handlers come of its number. */
static uint64_t allow(struct ritm_policy *policy, uint64_t k)
{
    return ritm_allow_range(policy, RECORD_BASE(k), RECORD_SIZE(k), MARK(k));
}

static uint64_t handle(struct ritm_policy *policy, uint64_t k)
{
    return ritm_handle_range(policy, RECORD_BASE(k), RECORD_SIZE(k), k % RITM_HANDLER_COUNT,
                             k / 2 % RITM_HANDLER_COUNT);
}

/* Of a full list each place is released in turn. The next range stands last, and the next region by its base. */
static void refill(void)
{
    struct ritm_policy policy;
    for (uint64_t k = 0; k < ranges.limit; k++) {
        ritm_fresh_policy(&policy);
        for (uint64_t next = 0; next < ranges.limit; next++) {
            expect("allow", allow(&policy, next), RITM_ACCEPTED);
        }
        expect("allow beyond the limit", allow(&policy, 40), RITM_TOO_MANY_ALLOWED_RANGES);
        expect("release", release(&policy, RECORD_BASE(k), RECORD_SIZE(k)), RITM_ACCEPTED);
        expect("allow after a release", allow(&policy, 40), RITM_ACCEPTED);
        expect("the place of the next range", place_of(&policy, &ranges, RECORD_BASE(40), RECORD_SIZE(40)), 31);
        expect("allow beyond the limit again", allow(&policy, 41), RITM_TOO_MANY_ALLOWED_RANGES);
    }
    for (uint64_t k = 0; k < regions.limit; k++) {
        ritm_fresh_policy(&policy);
        for (uint64_t next = 0; next < regions.limit; next++) {
            expect("handle", handle(&policy, 1 + next), RITM_ACCEPTED);
        }
        expect("handle beyond the limit", handle(&policy, 0), RITM_TOO_MANY_MEMORY_ACCESS_HANDLER_REGIONS);
        expect("release", release(&policy, RECORD_BASE(1 + k), RECORD_SIZE(1 + k)), RITM_ACCEPTED);
        expect("handle after a release", handle(&policy, 0), RITM_ACCEPTED);
        expect("the place of the next region", place_of(&policy, &regions, RECORD_BASE(0), RECORD_SIZE(0)), 0);
        expect("handle beyond the limit again", handle(&policy, 40), RITM_TOO_MANY_MEMORY_ACCESS_HANDLER_REGIONS);
    }
}

/*
 * Random calls. SplitMix64, so that every machine makes the same.
 */

static uint64_t state;

static uint64_t below(uint64_t limit)
{
    uint64_t z = state += UINT64_C(0x9e3779b97f4a7c15);
    z = (z ^ z >> 30) * UINT64_C(0xbf58476d1ce4e5b9);
    z = (z ^ z >> 27) * UINT64_C(0x94d049bb133111eb);
    return (z ^ z >> 31) % limit;
}

/* Few bases and sizes, so that some stand in several places; any codes, ends and counts. */
static void draw_policy(struct ritm_policy *policy)
{
    static const uint64_t counts[] = {0, 1, 2, 3, 7, 15, 16, 17, 20, 31, 32, 33, 40, UINT64_MAX};
    const uint64_t pages = below(2) ? 6 : 64;
    for (size_t i = 0; i < LENGTH(lists); i++) {
        for (uint64_t place = 0; place < lists[i]->limit; place++) {
            uint64_t *words = record_at(policy, lists[i], place);
            words[BASE] = PAGE * below(pages);
            words[SIZE] = PAGE * (1 + below(2));
            words[END] = PAGE * below(pages);
            for (size_t k = END + 1; k < lists[i]->words; k++) {
                words[k] = codes[below(LENGTH(codes))];
            }
        }
        policy->words[lists[i]->count] = counts[below(LENGTH(counts))];
    }
}

/* The policy's words go from one release to the next, so that what one leaves is what another is given. */
static void release_from_random_policies(uint64_t policies)
{
    uint64_t met[RITM_RANGE_NOT_HELD + 1] = {0};
    for (uint64_t i = 0; i < policies; i++) {
        struct ritm_policy policy;
        draw_policy(&policy);
        for (uint64_t k = 0; k < 8; k++) {
            const struct list *list = lists[below(LENGTH(lists))];
            const uint64_t *words = record_at(&policy, list, below(list->limit));
            const uint64_t base = below(16) ? words[BASE] : below(2) ? words[BASE] + 1 : -PAGE;
            const uint64_t size = below(16) ? words[SIZE] : below(2) ? words[SIZE] + 1 : 0;
            met[release(&policy, base, size)]++;
        }
    }
    for (uint64_t number = 0; number <= RITM_RANGE_NOT_HELD; number++) {
        const int is_due = number <= RITM_RANGE_END_OVERFLOW || number == RITM_RANGE_NOT_HELD;
        expect("whether a number is met", met[number] > 0, is_due);
    }
}

/*
 * Lists of calls from fresh.
 */

/* The ranges and regions held, in their order of arrival: numbers of allow and handle calls. */
struct arrivals {
    struct {
        uint64_t (*add)(struct ritm_policy *policy, uint64_t k);
        uint64_t k;
    } calls[RITM_MAX_ALLOWED_RANGES + RITM_MAX_MEMORY_ACCESS_HANDLERS];
    size_t count;
};

static void forget(struct arrivals *arrivals, uint64_t k)
{
    size_t left = 0;
    for (size_t i = 0; i < arrivals->count; i++) {
        if (arrivals->calls[i].k != k) {
            arrivals->calls[left++] = arrivals->calls[i];
        }
    }
    arrivals->count = left;
}

/* The policy that these arrivals build from fresh holds the same records in the same places. */
static void compare_with_built_afresh(struct ritm_policy *policy, const struct arrivals *arrivals)
{
    struct ritm_policy afresh;
    ritm_fresh_policy(&afresh);
    for (size_t i = 0; i < arrivals->count; i++) {
        expect("a call afresh", arrivals->calls[i].add(&afresh, arrivals->calls[i].k), RITM_ACCEPTED);
    }
    for (size_t i = 0; i < LENGTH(lists); i++) {
        const uint64_t count = policy->words[lists[i]->count];
        expect("a count beside one afresh", count, afresh.words[lists[i]->count]);
        for (size_t k = lists[i]->start; k < lists[i]->start + count * lists[i]->words; k++) {
            expect("a word beside one afresh", policy->words[k], afresh.words[k]);
        }
    }
}

static uint64_t compared_afresh;

/* A range comes, handled or allowed, or the range of this number goes. */
static void change(struct ritm_policy *policy, struct arrivals *arrivals, uint64_t k)
{
    if (below(2) == 0) {
        if (release(policy, RECORD_BASE(k), RECORD_SIZE(k)) == RITM_ACCEPTED) {
            forget(arrivals, k);
            compare_with_built_afresh(policy, arrivals);
            compared_afresh++;
        }
        return;
    }
    uint64_t (*const add)(struct ritm_policy *, uint64_t) = below(2) ? allow : handle;
    if (add(policy, k) == RITM_ACCEPTED) {
        arrivals->calls[arrivals->count].add = add;
        arrivals->calls[arrivals->count++].k = k;
    }
}

/* With few numbers most are held and go again; with many the lists are full at times. */
static void change_from_fresh(uint64_t policies)
{
    static const uint64_t numbers[] = {4, 40, 400};
    for (uint64_t i = 0; i < policies; i++) {
        struct arrivals arrivals = {.count = 0};
        struct ritm_policy policy;
        ritm_fresh_policy(&policy);
        for (uint64_t k = 0; k < 300; k++) {
            change(&policy, &arrivals, below(numbers[i % LENGTH(numbers)]));
        }
    }
}

int main(void)
{
    refuse_numbers();
    release_the_first();
    refuse_what_is_not_held();
    release_every_place();
    release_above_the_limit();
    release_below_each_code();
    refill();
    release_from_random_policies(100000);
    change_from_fresh(600);
    printf("release: %" PRIu64 " calls leave every word as document 02 says; %" PRIu64
           " policies are those built afresh\n",
           calls, compared_afresh);
    return 0;
}
