/*
 * Divides 100 cents by 1, 1, 1, prints the shares, and has the check judge them.
 * From the repository's root, with a folder target: cc -Iinclude examples/c/divide.c crates/host/out/libhost.a -o target/c-divide
 */
#include <inttypes.h>
#include <stdio.h>

#include "noketualo.h"

static int refused(uint64_t answer) {
    if (noketualo_refusal(answer) == NOKETUALO_ACCEPTED) {
        return 0;
    }
    printf("refused: %u\n", noketualo_refusal(answer));
    return 1;
}

int main(void) {
    uint8_t weights[NOKETUALO_BYTES(3)];
    uint8_t amounts[NOKETUALO_BYTES(3)];
    for (size_t position = 0; position < 3; position++) {
        noketualo_store(weights + NOKETUALO_BYTES(position), 1);
    }

    if (refused(noketualo_divide(100, weights, sizeof weights, amounts, sizeof amounts))) {
        return 1;
    }
    for (size_t position = 0; position < 3; position++) {
        printf("%" PRIu64 "\n", noketualo_load(amounts + NOKETUALO_BYTES(position)));
    }

    uint64_t answer = noketualo_check(100, weights, sizeof weights, amounts, sizeof amounts);
    if (refused(answer)) {
        return 1;
    }
    puts(answer == NOKETUALO_ANSWER_YES ? "yes" : "no");
    return 0;
}
