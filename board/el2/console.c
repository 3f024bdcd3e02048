#include "console.h"
#include "board.h"

/* The PL011 of QEMU's virt board: a byte that is stored here is sent. */
#define UART_DATA ((volatile uint32_t *)UINT64_C(0x09000000))

void add(struct line *line, const char *text)
{
    for (; *text != 0 && line->length < sizeof line->text; text++) {
        line->text[line->length++] = *text;
    }
}

static void add_number(struct line *line, uint64_t number, uint64_t base)
{
    char digits[21];
    char *first = digits + 20;
    *first = 0;
    do {
        *--first = "0123456789abcdef"[number % base];
        number /= base;
    } while (number != 0);
    add(line, first);
}

void add_hex(struct line *line, const char *before, uint64_t number)
{
    add(line, before);
    add(line, "0x");
    add_number(line, number, 16);
}

void add_decimal(struct line *line, const char *before, uint64_t number)
{
    add(line, before);
    add_number(line, number, 10);
}

void print_line(const struct line *line)
{
    for (size_t i = 0; i < line->length; i++) {
        *UART_DATA = (uint8_t)line->text[i];
    }
    *UART_DATA = '\n';
}

void print(const char *text)
{
    struct line line = {.length = 0};
    add(&line, text);
    print_line(&line);
}

void print_el2_exception(void)
{
    struct line line = {.length = 0};
    add_hex(&line, "EL2: an exception that no guest made: ESR_EL2 ", READ_REGISTER(esr_el2));
    add_hex(&line, ", ELR_EL2 ", READ_REGISTER(elr_el2));
    add_hex(&line, ", FAR_EL2 ", READ_REGISTER(far_el2));
    print_line(&line);
}

void print_difference(const char *whose, const char *what, uint64_t got, uint64_t expected)
{
    struct line line = {.length = 0};
    add(&line, whose);
    add(&line, ": FAILED: ");
    add(&line, what);
    add_hex(&line, ": ", got);
    add_hex(&line, " instead of ", expected);
    print_line(&line);
}
