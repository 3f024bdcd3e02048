/* Lines for the console. A line is put together first, so that lines of two cores do not mix. */
#ifndef CONSOLE_H
#define CONSOLE_H

#include <stddef.h>
#include <stdint.h>

struct line {
    char text[240];
    size_t length;
};

/* A text, or a text and a number behind it. What does not fit is left out. */
void add(struct line *line, const char *text);
void add_hex(struct line *line, const char *before, uint64_t number);
void add_decimal(struct line *line, const char *before, uint64_t number);

/* Prints the line. */
void print_line(const struct line *line);

/* Prints a line of one text. */
void print(const char *text);

/* At EL2: prints what the processor says of an exception of its own. */
void print_el2_exception(void);

/* Prints that something was not as it should be: WHOSE: WHAT: GOT instead of EXPECTED. */
void print_difference(const char *whose, const char *what, uint64_t got, uint64_t expected);

#endif
