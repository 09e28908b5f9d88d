/* Makes the calls of zarhatch.h for a stream of cases and prints the answers.
 *
 * The cases come on standard input, one after another until its end. All
 * numbers have their most significant octet first. A case is
 *
 *   4 octets    the length of the card
 *   ...         the card
 *   4 octets    the number of asks
 *   and for each ask
 *   4 octets    the tick
 *   1 octet     the length of the result
 *
 * For each case the line `check N` is printed, N being what
 * zarhatch_card_check answers, and then for each ask the line `value N HEX`, N
 * being what zarhatch_card_value answers and HEX all the octets of the result
 * after the call, or `-` where it has none. Before the call the octets of the
 * result are a5, a6, a7 and so on. A call that changes the card is followed by
 * the line `card changed`.
 *
 * Every card and every result is in a block of its own of exactly its length,
 * so that a memory checker sees each octet that is touched beyond. One of no
 * octets is the end of a block, since a null pointer is not allowed.
 *
 * The exit status is 2, with a message on standard error, where the stream is
 * malformed or something else fails.
 */
#include <stdbool.h>
#include <stddef.h>
#include <stdint.h>
#include <stdio.h>
#include <stdlib.h>
#include <string.h>

#include "zarhatch.h"

#define FIRST_PATTERN_OCTET 0xa5u

struct block {
    uint8_t *allocated;
    uint8_t *octets;
    size_t len;
};

static void fail(const char *message, const char *what)
{
    fprintf(stderr, "card_calls: %s%s\n", message, what);
    exit(2);
}

static struct block new_block(size_t len)
{
    struct block block;

    block.allocated = malloc(len > 0 ? len : 1);
    if (block.allocated == NULL) {
        fail("no memory for a block", "");
    }
    block.octets = len > 0 ? block.allocated : block.allocated + 1;
    block.len = len;
    return block;
}

static void read_octets(uint8_t *octets, size_t len, const char *what)
{
    if (fread(octets, 1, len, stdin) != len) {
        fail("malformed stream: it ends within ", what);
    }
}

static uint32_t number_of(const uint8_t octets[4])
{
    return (uint32_t)octets[0] << 24 | (uint32_t)octets[1] << 16 |
           (uint32_t)octets[2] << 8 | (uint32_t)octets[3];
}

static uint32_t read_number(const char *what)
{
    uint8_t octets[4];

    read_octets(octets, sizeof octets, what);
    return number_of(octets);
}

/* The length of the next card; false where the stream ends before it. */
static bool read_card_length(uint32_t *len)
{
    uint8_t octets[4];
    size_t got = fread(octets, 1, sizeof octets, stdin);

    if (got == 0 && feof(stdin)) {
        return false;
    }
    read_octets(octets + got, sizeof octets - got, "the length of a card");
    *len = number_of(octets);
    return true;
}

static void tell_if_changed(const struct block *card, const struct block *kept)
{
    if (memcmp(card->octets, kept->octets, card->len) != 0) {
        puts("card changed");
        memcpy(card->octets, kept->octets, card->len);
    }
}

static void ask(const struct block *card, const struct block *kept)
{
    uint32_t tick = read_number("a tick");
    uint8_t len;
    struct block result;
    uint32_t answer;

    read_octets(&len, 1, "the length of a result");
    result = new_block(len);
    for (size_t i = 0; i < result.len; i++) {
        result.octets[i] = (uint8_t)(FIRST_PATTERN_OCTET + i);
    }
    answer = zarhatch_card_value(card->octets, card->len, tick, result.octets, result.len);
    printf("value %lu ", (unsigned long)answer);
    for (size_t i = 0; i < result.len; i++) {
        printf("%02x", (unsigned)result.octets[i]);
    }
    puts(result.len > 0 ? "" : "-");
    tell_if_changed(card, kept);
    free(result.allocated);
}

static void run_case(uint32_t card_len)
{
    struct block card = new_block(card_len);
    struct block kept = new_block(card_len);
    uint32_t asks;

    read_octets(card.octets, card.len, "a card");
    memcpy(kept.octets, card.octets, card.len);
    printf("check %lu\n", (unsigned long)zarhatch_card_check(card.octets, card.len));
    tell_if_changed(&card, &kept);
    asks = read_number("the number of asks");
    for (uint32_t i = 0; i < asks; i++) {
        ask(&card, &kept);
    }
    free(kept.allocated);
    free(card.allocated);
    /* The answers so far must not be lost if the next case ends the program. */
    if (fflush(stdout) != 0) {
        fail("the answers cannot be written", "");
    }
}

int main(void)
{
    uint32_t card_len;

    while (read_card_length(&card_len)) {
        run_case(card_len);
    }
    return 0;
}
