#include "board.h"

void *memset(void *bytes, int value, size_t size)
{
    unsigned char *to = bytes;
    while (size-- > 0) {
        *to++ = (unsigned char)value;
    }
    return bytes;
}

void *memcpy(void *restrict bytes, const void *restrict source, size_t size)
{
    unsigned char *to = bytes;
    const unsigned char *from = source;
    while (size-- > 0) {
        *to++ = *from++;
    }
    return bytes;
}
