/* The program `close` in C: closes the table on standard input. Ends with status 0 for a closed
   table, 1 for a refusal and 2 if reading or writing failed. */
#include "bufshani.h"
#include <stdio.h>
#include <string.h>

static uint8_t text[65537], out[65536];

int main(void) {
    size_t text_len = fread(text, 1, sizeof text, stdin);
    if (ferror(stdin)) {
        perror("standard input");
        return 2;
    }
    size_t len = bufshani_close(text, text_len, out, sizeof out);
    if (fwrite(out, 1, len, stdout) != len || fflush(stdout) != 0) {
        perror("standard output");
        return 2;
    }
    return memcmp(out, "refused=", 8) == 0;
}
