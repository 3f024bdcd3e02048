/*
 * Sees which words of a cores buffer a call touches, as include/ritm.h promises it to hosts with several processors.
 * The buffer stands across two pages of memory, and its words before or behind one core's are then closed: to a call
 * that reads or writes a closed word the processor sends a signal.
 */
#define _DEFAULT_SOURCE
#include <inttypes.h>
#include <signal.h>
#include <stdio.h>
#include <stdlib.h>
#include <string.h>
#include <sys/mman.h>
#include <sys/wait.h>
#include <unistd.h>

#include "ritm.h"

#define PAGE UINT64_C(0x1000)
#define FILTERED_MMIO_BASE UINT64_C(0x0f000000)
#define VBAR UINT64_C(0x80000)

#define HVC (UINT64_C(0x16) << 26)
#define SMC (UINT64_C(0x17) << 26)
#define UNEXPECTED (UINT64_C(0x25) << 26)
#define LOAD UINT64_C(0x93c58007)
#define LOAD_32 UINT64_C(0x93858007)
#define STORE (LOAD | 0x40)
#define NO_SYNDROME UINT64_C(0x92000007)

/* The offset of the counter word in the filtered MMIO page, and that of the page behind it, where a load is quiet and a
   store a fault, so that no load there is one of the counter. */
#define COUNTER 16
#define QUIET PAGE

static struct ritm_policy policy;
static struct ritm_trap_result trapped;
static uint8_t *pages;
static size_t page_size;
static struct ritm_cores *cores;
static uint64_t calls;

static void expect(const char *what, uint64_t got, uint64_t expected)
{
    calls++;
    if (got != expected) {
        printf("own_core: %s answers %" PRIu64 " instead of %" PRIu64 "\n", what, got, expected);
        exit(1);
    }
}

static uint64_t trap(uint64_t core, uint64_t esr, uint64_t offset, uint64_t vbar)
{
    return ritm_trap(&policy, cores, core, esr, (FILTERED_MMIO_BASE + offset) / PAGE, offset, vbar, &trapped);
}

/* The calls that need no lock. */
static void calls_of_one_core(uint64_t core)
{
    static const struct ritm_registers registers = {{0}};
    static const struct ritm_values values = {{0}};
    struct ritm_word_result word;
    expect("save", ritm_save(cores, core, &registers), RITM_ACCEPTED);
    expect("an HVC", trap(core, HVC, 0, VBAR), RITM_ACCEPTED);
    expect("a trap of a waiting core", trap(core, HVC, 0, VBAR), RITM_CORE_WAITING);
    expect("a save of a waiting core", ritm_save(cores, core, &registers), RITM_CORE_WAITING);
    expect("reply", ritm_reply(cores, core, RITM_REPLY_SUCCESS_LARGE, &values, 0), RITM_ACCEPTED);
    expect("write", ritm_write_gpr(cores, core, 0, UINT64_C(0x84000000)), RITM_ACCEPTED);
    expect("an SMC", trap(core, SMC, 0, VBAR), RITM_ACCEPTED);
    expect("reply", ritm_reply(cores, core, RITM_REPLY_ERROR, &values, -1), RITM_ACCEPTED);
    expect("another class", trap(core, UNEXPECTED, 0, VBAR), RITM_UNEXPECTED_EXCEPTION_CLASS);
    expect("read", ritm_read_gpr(cores, core, 30, &word), RITM_ACCEPTED);
    expect("a ninth core", trap(RITM_MAX_CORES, LOAD, 0, VBAR), RITM_NO_SUCH_CORE);
}

static void expect_abort(uint64_t core, uint64_t esr, uint64_t offset, uint64_t kind)
{
    expect("a data abort", trap(core, esr, offset, VBAR), RITM_ACCEPTED);
    expect("a data abort's kind", ritm_get_word(&trapped, RITM_TRAP_KIND), kind);
}

/* Data aborts of every kind but a load of the counter word. */
static void aborts_that_do_not_count(uint64_t core)
{
    expect_abort(core, LOAD, 0, RITM_TRAP_LOAD_HANDLED);
    expect_abort(core, LOAD, 40, RITM_TRAP_LOAD_HANDLED);
    expect_abort(core, LOAD, 8, RITM_TRAP_ABORT_INJECTED);
    expect_abort(core, LOAD_32, COUNTER, RITM_TRAP_ABORT_INJECTED);
    expect_abort(core, NO_SYNDROME, COUNTER, RITM_TRAP_ABORT_INJECTED);
    expect_abort(core, STORE, COUNTER, RITM_TRAP_ABORT_INJECTED);
    expect_abort(core, LOAD, QUIET + COUNTER, RITM_TRAP_LOAD_HANDLED);
    expect_abort(core, LOAD_32, QUIET + COUNTER, RITM_TRAP_LOAD_HANDLED);
    expect_abort(core, STORE, QUIET + COUNTER, RITM_TRAP_ABORT_INJECTED);
    expect("write", ritm_write_gpr(cores, core, 5, UINT64_C(0x123456789abcdef0)), RITM_ACCEPTED);
    expect_abort(core, STORE, 8, RITM_TRAP_STORE_HANDLED);
    expect("an abort without a vector", trap(core, LOAD, 48, 0), RITM_NO_GUEST_VECTOR);
}

static void load_a_word(uint64_t core)
{
    trap(core, LOAD, 0, VBAR);
}

static void load_the_counter(uint64_t core)
{
    trap(core, LOAD, COUNTER, VBAR);
}

/* Puts fresh cores where word k stands first in the second page, and closes the words before or behind it. */
static void place(uint64_t k, size_t closed_page, int protection)
{
    cores = (struct ritm_cores *)(void *)(pages + page_size - 8 * k);
    ritm_fresh_cores(cores);
    if (mprotect(pages + closed_page * page_size, page_size, protection) != 0) {
        perror("own_core");
        exit(2);
    }
}

static void open_pages(void)
{
    mprotect(pages, 2 * page_size, PROT_READ | PROT_WRITE);
}

/* Makes calls on a core while every word before its own is closed, and then while those behind are. */
static void beside_closed_words(void (*make)(uint64_t), uint64_t core, int protection_behind)
{
    place(core * RITM_CORE_WORDS, 0, PROT_NONE);
    make(core);
    open_pages();
    place((core + 1) * RITM_CORE_WORDS, 1, protection_behind);
    make(core);
    open_pages();
}

#define STOPPED 3

static void stop(int signal_number)
{
    (void)signal_number;
    _exit(STOPPED);
}

/* Whether a process is stopped that makes a call while the words behind its core are closed, or closed to stores. */
static int is_stopped(void (*make)(uint64_t), uint64_t core, int protection)
{
    int status = 0;
    const pid_t child = fork();
    if (child == 0) {
        signal(SIGSEGV, stop);
        place((core + 1) * RITM_CORE_WORDS, 1, protection);
        make(core);
        _exit(0);
    }
    return child > 0 && waitpid(child, &status, 0) == child && WIFEXITED(status) && WEXITSTATUS(status) == STOPPED;
}

int main(void)
{
    page_size = (size_t)sysconf(_SC_PAGESIZE);
    pages = mmap(0, 2 * page_size, PROT_READ | PROT_WRITE, MAP_PRIVATE | MAP_ANONYMOUS, -1, 0);
    if (pages == MAP_FAILED || page_size < RITM_CORES_SIZE) {
        perror("own_core");
        return 2;
    }
    ritm_fresh_policy(&policy);
    ritm_handle_range(&policy, FILTERED_MMIO_BASE, PAGE, RITM_HANDLER_FILTERED_MMIO, RITM_HANDLER_FILTERED_MMIO);
    ritm_handle_range(&policy, FILTERED_MMIO_BASE + QUIET, PAGE, RITM_HANDLER_ABSENT, RITM_HANDLER_FAULT);
    for (uint64_t core = 0; core < RITM_MAX_CORES; core++) {
        beside_closed_words(calls_of_one_core, core, PROT_NONE);
        beside_closed_words(aborts_that_do_not_count, core, PROT_READ);
    }
    expect("a load, which reads the counter, where it is closed", is_stopped(load_a_word, 3, PROT_NONE), 1);
    expect("a load of the counter, which writes it", is_stopped(load_the_counter, 3, PROT_READ), 1);
    expect("a load of another word, which does not", is_stopped(load_a_word, 3, PROT_READ), 0);
    printf("own core: %" PRIu64 " answers, with all other words of the buffer closed\n", calls);
    return 0;
}
