/*
 * Prints the statement of the month file on standard input.
 * From the repository's root, with a folder target: cc -Iinclude examples/c/statement.c crates/host/out/libhost.a -o target/c-statement
 */
#include <stdio.h>

#include "noketualo.h"

/* One byte more than a file may have, so that a longer one is seen. */
static uint8_t text[NOKETUALO_MOST_FILE_BYTES + 1];
static uint8_t out[NOKETUALO_STATEMENT_ROOM];

int main(void) {
    size_t length = fread(text, 1, sizeof text, stdin);
    if (ferror(stdin)) {
        perror("standard input");
        return 1;
    }
    uint64_t answer = noketualo_statement(text, length, out, sizeof out);
    if (noketualo_refusal(answer) != NOKETUALO_ACCEPTED) {
        fprintf(stderr, "refused: %u\n", noketualo_refusal(answer));
        return 1;
    }
    if (fwrite(out, 1, (size_t)noketualo_value(answer), stdout) != noketualo_value(answer) || fflush(stdout) != 0) {
        perror("standard output");
        return 1;
    }
    return 0;
}
