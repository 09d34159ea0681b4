/* Reads one frame as hexadecimal digits from standard input and prints its class.
 * White space between the digits is passed over. Anything else, or half a byte, is an error. */
#include <ctype.h>
#include <stdio.h>

#include "yamchok/frame_class.h"

/* One byte more than a frame may have, so that a longer one is seen to be too long. */
#define MOST 1519

static int digit(int c)
{
    if (c >= '0' && c <= '9')
        return c - '0';
    c = tolower(c);
    return c >= 'a' && c <= 'f' ? c - 'a' + 10 : -1;
}

int main(void)
{
    static uint8_t bytes[MOST];
    size_t length = 0;
    int high = -1;
    int c;

    while ((c = getchar()) != EOF) {
        int value;
        if (isspace(c))
            continue;
        value = digit(c);
        if (value < 0) {
            fputs("class_of_frame: not a hexadecimal digit\n", stderr);
            return 1;
        }
        if (high < 0) {
            high = value;
            continue;
        }
        if (length < MOST)
            bytes[length++] = (uint8_t)(high * 16 + value);
        high = -1;
    }
    if (high >= 0) {
        fputs("class_of_frame: half a byte at the end\n", stderr);
        return 1;
    }
    printf("%u\n", frame_class(bytes, length));
    return 0;
}
