/* The calls with which a gate drive's own program reads a card.
 *
 * They keep no state, allocate nothing, take any octets and may be made in any
 * order. docs/card.md says what a card is, docs/refusals.md what is refused.
 */
#ifndef ZARHATCH_H
#define ZARHATCH_H

#include <stddef.h>
#include <stdint.h>

#ifdef __cplusplus
extern "C" {
#endif

/* Reads a card of any kind, flow or box.
 *
 * Answers 0 where the card is accepted, or else the first of these refusals
 * that holds:
 *   21  the card has fewer than eight octets
 *   22  the kind, the edition or the record length is wrong
 *   23  the count is above the card's capacity
 *   then record by record, from the first on, 24 before 25:
 *   24  a field that no leg has, or a spare octet that is not zero
 *   25  the chain of legs is broken
 *   then, after the last record:
 *   25  the last leg does not end its span
 *   26  an octet after the last record is not zero
 *
 * `card` must point to `card_len` octets, which are only read. It must not be
 * null, even where `card_len` is 0.
 */
uint32_t zarhatch_card_check(const uint8_t *card, size_t card_len);

/* The value of a flow card at a tick, in grains: that of the first leg that
 * covers the tick, exact and then rounded down.
 *
 * Answers 0 where the value is told, or else the first of these refusals that
 * holds:
 *   18        the result has fewer than eight octets; nothing else is looked at
 *   21 to 26  the card is refused, as above, but read as a flow card: a box
 *             card is refused with 22
 *   16        the tick is past the last leg, or the card has no leg
 *
 * Where the answer is 0, the first eight octets of `result` are the value, a
 * signed number in two's complement, the most significant octet first; those
 * past the eighth are left as they were. Where it is not 0, all of `result` is
 * left as it was.
 *
 * `card` must point to `card_len` octets, which are only read, and `result` to
 * `result_len` octets. The two must not overlap. Neither may be null, even
 * where its length is 0.
 */
uint32_t zarhatch_card_value(const uint8_t *card, size_t card_len, uint32_t tick,
                             uint8_t *result, size_t result_len);

#ifdef __cplusplus
}
#endif

#endif
