/* Characters in and out by stdio. */
#include "console.h"

#include <stdio.h>

int read_char(void) {
    int c = getchar();
    return c == EOF ? -1 : c;
}

void write_char(char c) {
    putchar(c);
}
