/* The two calls that a host makes of futeq: the market-wide limit of a stock, and the charge of a violation.
 *
 * Both are proved (crates/capi). They read what they are handed and nothing else, write and keep nothing, allocate nothing and
 * always return. Any number of threads may call them at once. docs/HOST.md says how to link them.
 */
#ifndef FUTEQ_H
#define FUTEQ_H

#include <stddef.h>
#include <stdint.h>

#ifdef __cplusplus
extern "C" {
#endif

/* The market-wide limit of a stock, in units.
 *
 * free_float: the free float F, 10 to 1,000,000,000,000 units.
 * deliveries: the daily delivery quantities, 8 bytes a day, the high byte first; each 0 to 10,000,000,000 units.
 * length: how many bytes there are: 8 for each of 1 to 92 days.
 *
 * Answers the larger of 10% of F and the smaller of 15% of F and 65 x sum / days, computed with exact fractions and rounded
 * down once, at the end. It is 1 or more.
 * Answers 0, which is never a limit, if
 *   F is out of range,
 *   length is not a multiple of 8,
 *   there are no days, or more than 92, or
 *   the quantity of any day is out of range.
 *
 * The caller owes: deliveries is not NULL, even where length is 0; length bytes may be read there, and nobody writes them
 * meanwhile; length is at most PTRDIFF_MAX. */
uint64_t futeq_limit(uint64_t free_float, const uint8_t *deliveries, size_t length);

/* The charge of a violated quantity, in paise.
 *
 * violated: the violated quantity, 1 to 320,000,000,000,000 ten-thousandths of a unit (32 contracts of 1,000,000,000 units).
 * price: the closing price, 1 to 100,000,000 paise.
 *
 * Answers violated x price / 1,000,000, rounded down, at least 500,000 and at most 10,000,000.
 * Answers 0, which is never a charge, if either is out of range. */
uint64_t futeq_charge(uint64_t violated, uint64_t price);

#ifdef __cplusplus
}
#endif

#endif
