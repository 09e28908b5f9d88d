/* What a gate drive's own program does with a card: it has the card checked once,
 * and then asks for the value at one tick after another, to the end of the turn.
 *
 *     drive CARD
 *
 * prints `tick N: V` for each tick of the flow card in the file CARD, as gate does.
 * A card that is refused is told on standard error, and the status is then 1.
 */
#include <inttypes.h>
#include <stdio.h>

#include "zarhatch.h"

/* More octets than the card of 512 legs has. */
static uint8_t card[1 << 16];

/* The eight octets are a signed number in two's complement, the highest first. */
static int64_t value_of(const uint8_t octets[8])
{
    uint64_t bits = 0;

    for (int i = 0; i < 8; i++) {
        bits = bits << 8 | octets[i];
    }
    return (int64_t)bits;
}

int main(int argc, char **argv)
{
    FILE *file = argc == 2 ? fopen(argv[1], "rb") : NULL;
    uint8_t octets[8];
    size_t length;
    uint32_t refusal;

    if (file == NULL) {
        fprintf(stderr, "drive: one file is wanted, that can be read\n");
        return 1;
    }
    length = fread(card, 1, sizeof card, file);
    fclose(file);
    refusal = zarhatch_card_check(card, length);
    if (refusal != 0) {
        fprintf(stderr, "drive: the card is refused: %" PRIu32 "\n", refusal);
        return 1;
    }
    for (uint32_t tick = 0;; tick++) {
        refusal = zarhatch_card_value(card, length, tick, octets, sizeof octets);
        if (refusal != 0) {
            break;
        }
        printf("tick %" PRIu32 ": %" PRId64 "\n", tick, value_of(octets));
    }
    /* 16: the tick is past the last leg. Any other refusal, as of a box card, is told. */
    if (refusal != 16) {
        fprintf(stderr, "drive: there is no value: %" PRIu32 "\n", refusal);
        return 1;
    }
    return 0;
}
