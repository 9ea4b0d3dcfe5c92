/* Morskebab from C: money arithmetic whose every function is proved to keep its promise.
 *
 * What the caller owes, since C can't say it: a pointer that goes with a count isn't null and points to that many elements, which nothing
 * else writes during the call, two lists lent to one call don't overlap, and each bool in a list is 0 or 1. A struct's fields may hold any
 * values at all, and so may every number. Every call returns; none keeps a pointer, allocates, or keeps anything between calls, so calls from
 * several threads are free.
 *
 * A number outside a list is taken as an int64_t, or an int32_t in a struct, so that an `int` arrives as it is; one that is negative or past
 * its limit is refused with its own number and never taken for another: mkb_convert(a, 260) is refusal 4.
 *
 * Each answer begins with `refusal`, which is 0 or the number of document 01's table, and `blamed`, which is 1 or 2 for the first or the
 * second date with refusal 7 and else 0. Where a call is refused, every field behind them is 0, except that a refused posting, refund or run
 * hands the given book back, field for field. A refusal leaves every place of a lent list as it stood.
 */
#ifndef MORSKEBAB_H
#define MORSKEBAB_H
#include <stdbool.h>
#include <stddef.h>
#include <stdint.h>

#ifdef __cplusplus
extern "C" {
#endif

/* 10,000 x major + 100 x minor + patch of this header; mkb_version() is that of the library which is linked */
#define MKB_VERSION UINT32_C(30000)

/* Document 01's table: a number is given exactly when its row holds for something that the call takes or makes and no smaller row does. */
enum mkb_refusal {
    MKB_ACCEPTED = 0,
    MKB_MODE = 1,      /* the mode isn't 0 to 6 */
    MKB_SCALE = 2,     /* a scale is over 6, or (conversions, the book) isn't the known currency's own digits, a euro step's decimals aren't 3 to 6, or (doubles) is over 3 */
    MKB_MAGNITUDE = 3, /* a given coefficient, net total or settled total is over L, or the settled totals and the net total in sum, or a factor's magnitude is over 10^18 */
    MKB_UNKNOWN = 4,   /* a currency number is over 20 */
    MKB_DIFFER = 5,    /* two currencies that must agree differ */
    MKB_RATE = 6,      /* a plain divisor isn't 1 to 10^18, a rate, a number of vouchers or of periods is outside its limits, or the basis isn't 0 to 3 */
    MKB_DATE = 7,      /* a date doesn't exist or its year isn't 1900 to 2199 */
    MKB_DAYS = 8,      /* the end is before the start, or the day count is over 366 */
    MKB_WEIGHTS = 9,   /* weights, a card number or settled totals past the count break their rule, lists differ in length, or a statement's place is over 15 or its reason over 99 */
    MKB_NEGATIVE = 10, /* a posting, a refund, a table's principal, a given net total or a settled total is negative */
    MKB_ROOM = 11,     /* the lent output is too short */
    MKB_REFUND = 12,   /* a refund is greater than the net total */
    MKB_LIMIT = 13,    /* the result, the euro step, a row of a table or the new net total, the settled totals added, is over L, or a plain quotient over 10^18 */
    MKB_MALFORMED = 14, /* a text isn't of its form, or the bytes end in no statement file */
    MKB_NO_NET = 15,   /* no net has the gross */
    MKB_NO_NUMBER = 16, /* a double is no number or infinite */
    MKB_NEWER = 17 /* the bytes end in a statement file's trailer of version 2; stands before 14 */
};

/* away from zero, toward zero, toward the greater, toward the lesser; to the nearest, a half away from zero, toward zero, to the even */
enum mkb_mode { MKB_UP, MKB_DOWN, MKB_CEILING, MKB_FLOOR, MKB_HALF_UP, MKB_HALF_DOWN, MKB_HALF_EVEN };

/* actual days / 360, actual days / 365; 30/360 by the American rule (the bond basis of ISDA 2006, which loan contracts mean) and by the European
   (30E/360) */
enum mkb_basis { MKB_ACTUAL_360, MKB_ACTUAL_365, MKB_THIRTY_360_AMERICAN, MKB_THIRTY_360_EUROPEAN };

/* the largest magnitude of a coefficient, the most characters of a text that is read or written, the places of a book, the largest sum of a book's
   weights */
#define MKB_L INT64_C(999999999999999)
#define MKB_TEXT 20
#define MKB_PARTNERS 16
#define MKB_WEIGHT_SUM 10000

/* its worth is coefficient / 10^scale */
typedef struct {
    int32_t currency, scale;
    int64_t coefficient;
} mkb_amount;

typedef struct {
    int32_t year, month, day;
} mkb_date;

/* a count of 1 to 16, as many weights with a sum of 1 to 10,000 and noughts behind them, a net total of 0 to L, a card number of 1 to 1,000, and as
 * many settled totals with noughts behind them, which sum to L at most with the net total */
typedef struct {
    int32_t currency, count;
    uint32_t weights[MKB_PARTNERS];
    int64_t net, card;
    int64_t settled[MKB_PARTNERS];
} mkb_book;

/* the code's letters, without an end; one euro is figures / 10^places units; the currency's own scale */
typedef struct {
    uint8_t code[3], places, digits;
    uint64_t figures;
} mkb_line;

typedef struct {
    uint8_t refusal, blamed;
    int64_t value;
} mkb_whole;

typedef struct {
    uint8_t refusal, blamed;
    mkb_amount amount;
} mkb_amount_answer;

typedef struct {
    uint8_t refusal, blamed;
    int8_t order;
} mkb_order_answer;

typedef struct {
    uint8_t refusal, blamed;
    uint32_t days;
} mkb_days;

typedef struct {
    uint8_t refusal, blamed;
    mkb_amount net, tax, gross;
} mkb_split;

/* a row of a spreadsheet */
typedef struct {
    double net, tax;
} mkb_columns;

typedef struct {
    uint8_t refusal, blamed;
    mkb_amount net, tax;
} mkb_row_answer;

typedef struct {
    uint8_t refusal, blamed;
    double value;
} mkb_double;

typedef struct {
    uint8_t refusal, blamed;
    uint64_t length;
} mkb_written;

typedef struct {
    uint8_t refusal, blamed;
    mkb_book book;
} mkb_opened;

typedef struct {
    uint8_t refusal, blamed;
    mkb_book book;
    uint64_t payouts[MKB_PARTNERS];
} mkb_moved;

typedef struct {
    uint8_t refusal, blamed;
    uint64_t totals[MKB_PARTNERS];
} mkb_totals;

typedef struct {
    uint8_t refusal, blamed;
    mkb_book book;
    uint64_t served;
} mkb_ran;

/* the place behind a statement's last byte */
typedef struct {
    uint8_t refusal, blamed;
    uint64_t end;
} mkb_end;

/* a statement's first record, the count of its records and the sum of their coefficients */
typedef struct {
    uint8_t refusal, blamed;
    uint64_t first, count;
    int64_t sum;
} mkb_statement;

/* where a view of a statement begins: its first record's start */
typedef struct {
    uint8_t refusal, blamed;
    uint64_t first;
} mkb_first;

/* what a view hands out: the place of what comes next, and a record's partner, currency and coefficient, or noughts where it has ended */
typedef struct {
    uint64_t next;
    bool ended;
    uint16_t place, currency;
    int64_t coefficient;
} mkb_step;

/* a view of a statement: its bytes, which stay the caller's and in their place, and the place of the record that comes next */
typedef struct {
    const uint8_t *bytes;
    size_t length;
    uint64_t next;
} mkb_view;

/* a statement of either version: its version, 1 or 2, its first record's start, the count of its records and the sum of their coefficients */
typedef struct {
    uint8_t refusal, blamed;
    uint16_t version;
    uint64_t first, count;
    int64_t sum;
} mkb_any_statement;

/* what a view of either version hands out: as mkb_step, with the reason, which is 0 in version 1 */
typedef struct {
    uint64_t next;
    bool ended;
    uint16_t place, currency, reason;
    int64_t coefficient;
} mkb_any_step;

/* a view of a statement of either version, as mkb_view */
typedef struct {
    const uint8_t *bytes;
    size_t length;
    uint64_t next;
    uint16_t version;
} mkb_any_view;

/* the version of the library */
uint32_t mkb_version(void);

/* a x b / d rounded by the mode, the product exact: refusals 1, 3, 6, 13; n / d is the one of the factors n and 1 */
mkb_whole mkb_round(int64_t mode, int64_t a, int64_t b, int64_t d);

/* the table's line of a currency number; all 0 for any number but 0 to 20 */
mkb_line mkb_currency(int64_t currency);

/* exact, at the greater of the two scales: refusals 2, 3, 4, 5, 13 */
mkb_amount_answer mkb_sum(mkb_amount a, mkb_amount b);
/* -1, 0 or 1 where a is worth less than b, as much or more: refusals 2, 3, 4, 5 */
mkb_order_answer mkb_order(mkb_amount a, mkb_amount b);
/* the opposite, exact: refusals 2, 3, 4 */
mkb_amount_answer mkb_negate(mkb_amount a);
/* exact to a greater scale, rounded by the mode to a smaller one: refusals 1, 2, 3, 4, 13 */
mkb_amount_answer mkb_rescale(mkb_amount a, int64_t scale, int64_t mode);

/* the amount that an ASCII text of the currency is: an optional minus, digits, optionally a point with 1 to 6 digits, which are the scale; no leading zeros
 * but a single 0 before the point, no minus on zero, at most 20 characters: refusals 4, 14, 13 */
mkb_amount_answer mkb_read(int64_t currency, const uint8_t *text, size_t length);
/* the amount's only text into the first places of out, without an end, and its length, at most MKB_TEXT; the other places untouched; a refusal writes
 * nothing: refusals 2, 3, 4, 11 */
mkb_written mkb_write(mkb_amount a, uint8_t *out, size_t room);
/* the number of the currency with this code of three capitals, and 255 where the table has none */
uint8_t mkb_currency_of(const uint8_t *code, size_t length);

/* the amount in the currency `to`, by Council Regulation (EC) No 1103/97, articles 4 and 5: refusals 2, 3, 4, 13 */
mkb_amount_answer mkb_convert(mkb_amount a, int64_t to);
/* the same by a euro step of 3 to 6 decimals between two old units (mkb_convert's is 3); a step over L is 13, which at 6 decimals is one over
 * 999,999,999.999999 euro: refusals 2, 3, 4, 13 */
mkb_amount_answer mkb_convert_by(mkb_amount a, int64_t to, int64_t decimals);

/* whether the Gregorian calendar has the date, from 1900 to 2199 */
bool mkb_date_exists(mkb_date date);
/* the days from the start to the end by the basis: refusals 6, 7, 8 */
mkb_days mkb_day_count(int64_t basis, mkb_date start, mkb_date end);
/* principal x rate x days / (10,000 x year), rounded once at the principal's scale: refusals 1, 2, 3, 4, 6, 7, 8, 13 */
mkb_amount_answer mkb_interest(mkb_amount principal, int64_t rate, int64_t basis, mkb_date start, mkb_date end, int64_t mode);

/* the principal and its balance after each period, each the one before and its interest, rate / 10,000 rounded HALF_EVEN, into the first periods + 1
 * places of out, at the principal's scale, the others untouched; a refusal writes nothing; 0, or 2, 3, 4, 6, 10, 11, 13 */
uint8_t mkb_compound(mkb_amount principal, int64_t rate, int64_t periods, int64_t *out, size_t room);

/* tax = net x rate / 1,000,000 rounded by the mode, gross = net + tax: refusals 1, 2, 3, 4, 6, 13 */
mkb_split mkb_tax_from_net(mkb_amount net, int64_t rate, int64_t mode);
/* tax = gross x rate / (1,000,000 + rate) rounded by the mode, net = gross - tax: refusals 1, 2, 3, 4, 6 */
mkb_split mkb_tax_from_gross(mkb_amount gross, int64_t rate, int64_t mode);

/* the price of the only net that has this gross by mkb_tax_from_net: refusals 1, 2, 3, 4, 6, and 15 where no net has it */
mkb_split mkb_net_for(mkb_amount gross, int64_t rate, int64_t mode);

/* both columns as amounts of the currency at the scale, 0 to 3, from the exact worth of the doubles, rounded by the mode: refusals 1, 2, 4, 13, and 16
 * where a column is no number or infinite and no other row holds */
mkb_row_answer mkb_row(mkb_columns row, int64_t currency, int64_t scale, int64_t mode);
/* the coefficient as a double, divided once by 10^scale, for a scale of 0 to 3: refusals 2, 3, 4 */
mkb_double mkb_export(mkb_amount a);

/* shares by largest remainder into the first `count` places of out, the others untouched; a refusal writes nothing; 0, or 2, 3, 4, 9, 11 */
uint8_t mkb_share(mkb_amount a, const uint32_t *weights, size_t count, int64_t *out, size_t room);
/* `vouchers` whole vouchers, up to 10,000, by highest average into the first `count` places of out, the others untouched; a refusal writes
 * nothing; 0, or 6, 9, 11 */
uint8_t mkb_vouchers(int64_t vouchers, const uint32_t *weights, size_t count, uint32_t *out, size_t room);

/* a book with these weights and a net total of 0, on card 1 with nothing settled: refusals 4, 9 */
mkb_opened mkb_open(int64_t currency, const uint32_t *weights, size_t count);
/* the next book and what each partner is paid: refusals 2, 3, 4, 5, 9, 10, 13 */
mkb_moved mkb_post(mkb_book book, mkb_amount a);
/* the next book and what is taken back from each partner: refusals 2, 3, 4, 5, 9, 10, 12 */
mkb_moved mkb_refund(mkb_book book, mkb_amount a);
/* the book on its next card, with these weights for the same count: the running totals are added to the settled ones, the net total is 0, and the
 * payouts are sixteen noughts: refusals 3, 4, 9, 10 */
mkb_moved mkb_new_card(mkb_book book, const uint32_t *weights, size_t count);
/* each partner's running total at the book's net total: refusals 3, 4, 9, 10 */
mkb_totals mkb_running_totals(mkb_book book);
/* the movements in turn, each as mkb_refund where `refunds` has true, else as mkb_post, of its coefficient in the book's currency at its own digits:
 * call j's payouts at the sixteen places from 16 x j on, its refusal number (0: accepted) at place j; the last book and the calls served.
 * Where the run itself is refused: the given book, 0 calls served, and every lent place as it stood; refusals 3, 4, 9, 10 of the given book,
 * 9 where the lists' lengths differ, 11 where there is too little room */
mkb_ran mkb_run(mkb_book book, const bool *refunds, size_t calls, const int64_t *coefficients, size_t count, uint64_t *payouts, size_t payouts_room,
                uint8_t *numbers, size_t numbers_room);

/* a statement file in out from the byte `start` on: a record of 16 bytes for each payout, its partner's place (0 to 15), the currency and the
 * coefficient, at most 4,000 of them, and a trailer of 24 bytes that points back; the file's end. No other byte changes, and none where the call
 * is refused: 3, 4, 9 where the lists' lengths differ or a place is over 15, 11 where there are more than 4,000 or too little room */
mkb_end mkb_write_statement(int64_t currency, const uint16_t *places, size_t count, const int64_t *coefficients, size_t others, uint8_t *out, size_t room,
                            int64_t start);
/* the statement file that the bytes end in: its first record's start, its count and its sum; 17 where their trailer is of version 2, else 14 where
 * they end in none */
mkb_statement mkb_check_statement(const uint8_t *bytes, size_t count);

/* where a view of the statement file that the bytes end in begins: refusals 17 and 14 as above */
mkb_first mkb_first_payout(const uint8_t *bytes, size_t count);
/* the record at a place of such bytes, and the place behind it; ended, and the place itself, where no whole record stands there before the trailer */
mkb_step mkb_payout_at(const uint8_t *bytes, size_t count, int64_t at);

/* a view of the statement file that the bytes end in: 0, or 17 or 14, and the view has ended then */
static inline uint8_t mkb_open_view(mkb_view *view, const uint8_t *bytes, size_t count)
{
    mkb_first start = mkb_first_payout(bytes, count);
    view->bytes = bytes;
    view->length = count;
    view->next = start.refusal ? count : start.first;
    return start.refusal;
}

/* the record that comes next, in file order and each once; then ended, as often as it is asked */
static inline mkb_step mkb_next_payout(mkb_view *view)
{
    mkb_step step = mkb_payout_at(view->bytes, view->length, (int64_t)view->next);
    view->next = step.next;
    return step;
}

/* as mkb_write_statement, with a reason code of 0 to 99 beside each payout: a file of version 2, whose records have 24 bytes. A code over 99 and a
 * list of reasons of another length are 9 too */
mkb_end mkb_write_reasons(int64_t currency, const uint16_t *places, size_t count, const uint16_t *reasons, size_t codes, const int64_t *coefficients,
                          size_t others, uint8_t *out, size_t room, int64_t start);
/* the statement file of either version that the bytes end in; 14 where they end in none */
mkb_any_statement mkb_check_any(const uint8_t *bytes, size_t count);
/* the record at a place of the bytes of a version's statement, and the place behind it; ended, and the place itself, where no whole record stands there
 * before the trailer, or the version is neither 1 nor 2 */
mkb_any_step mkb_reasoned_at(const uint8_t *bytes, size_t count, int64_t version, int64_t at);

/* a view of the statement file of either version that the bytes end in: 0, or 14 where they end in none, and the view has ended then */
static inline uint8_t mkb_open_any_view(mkb_any_view *view, const uint8_t *bytes, size_t count)
{
    mkb_any_statement said = mkb_check_any(bytes, count);
    view->bytes = bytes;
    view->length = count;
    view->next = said.refusal ? count : said.first;
    view->version = said.version;
    return said.refusal;
}

/* as mkb_next_payout, with the reason */
static inline mkb_any_step mkb_next_reasoned(mkb_any_view *view)
{
    mkb_any_step step = mkb_reasoned_at(view->bytes, view->length, view->version, (int64_t)view->next);
    view->next = step.next;
    return step;
}

#ifdef __cplusplus
}
#endif
#endif
