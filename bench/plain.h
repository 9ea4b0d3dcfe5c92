/* Plain C versions of what the library computes, for the ratios of bench/: the same rules, no proof, no checks beyond the rules' own. */
#ifndef PLAIN_H
#define PLAIN_H
#include <stdbool.h>
#include <stddef.h>
#include <stdint.h>

#define PLAIN_L UINT64_C(999999999999999)

/* a x b / d under a mode, 0 to 6; *refusal is 0 or the number */
int64_t plain_round(uint8_t mode, int64_t a, int64_t b, uint64_t d, int *refusal);

/* an amount in currency `from` at its own digits to currency `to` */
int64_t plain_convert(uint8_t from, uint8_t scale, int64_t n, uint8_t to, int *refusal);

/* net, tax and gross of a price, from the net or from the gross */
int plain_tax(int from_gross, uint8_t currency, uint8_t scale, int64_t n, uint32_t rate, uint8_t mode, int64_t parts[3]);

typedef struct { uint16_t year; uint8_t month, day; } plain_date;
int64_t plain_interest(int64_t principal, uint32_t rate, uint8_t basis, plain_date start, plain_date end, uint8_t mode, int *refusal);

/* a principal and its balance after each period */
int plain_compound(int64_t principal, uint32_t rate, uint32_t periods, int64_t *out, size_t room);

/* one-off sharing by largest remainder */
int plain_share(int64_t n, const uint32_t *weights, size_t count, int64_t *out, size_t room);

/* vouchers by highest average: from each share rounded down, or one at a time from none */
int plain_vouchers(uint32_t vouchers, const uint32_t *weights, size_t count, uint32_t *out, size_t room, int one_by_one);

typedef struct { uint8_t currency, count; uint32_t weights[16]; int64_t net; } plain_book;

/* the running totals at n: unit by unit (the first form), and by the shares (the second form) */
void plain_totals_by_unit(const uint32_t weights[16], uint64_t n, uint64_t totals[16]);
void plain_totals_by_share(const uint32_t weights[16], uint64_t n, uint64_t totals[16]);

/* one posting; `by_unit` chooses the form */
int plain_post(plain_book *book, int64_t amount, uint64_t payouts[16], int by_unit);

/* a run of movements by a table of one cycle, a mask of who is ahead for each net total below W */
void plain_run(plain_book *book, const bool *refunds, const int64_t *coefficients, size_t calls, uint64_t *payouts, uint8_t *numbers);

/* the record that comes next in a statement's bytes, if there is one before the trailer */
typedef struct { const uint8_t *bytes; size_t length, next; } plain_view;
typedef struct { uint16_t place, currency; int64_t coefficient; } plain_payout;
bool plain_next_payout(plain_view *view, plain_payout *payout);
#endif
