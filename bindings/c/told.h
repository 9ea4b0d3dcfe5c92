/* What the C face's cases are told by: a call's answer is compared in every field. */
#ifndef TOLD_H
#define TOLD_H
#include "morskebab.h"
#include <stdio.h>
#include <string.h>

enum { EUR = 0, BEF = 1, DEM = 2, FRF = 4, IEP = 5, ITL = 6, HRK = 20 };

extern int passed, failed;

static inline void tell(int ok, const char *name)
{
    passed += ok;
    failed += !ok;
    if (!ok)
        fprintf(stderr, "c face: differs: %s\n", name);
}

static inline mkb_amount money(int32_t currency, int32_t scale, int64_t n) { return (mkb_amount){.currency = currency, .scale = scale, .coefficient = n}; }

static inline int same_amount(mkb_amount a, mkb_amount b)
{
    return a.currency == b.currency && a.scale == b.scale && a.coefficient == b.coefficient;
}

static inline int same_book(const mkb_book *a, const mkb_book *b)
{
    return a->currency == b->currency && a->count == b->count && !memcmp(a->weights, b->weights, sizeof a->weights) && a->net == b->net &&
           a->card == b->card && !memcmp(a->settled, b->settled, sizeof a->settled);
}

/* an answer that is an amount, or the refusal and the date blamed */
static inline void amount_is(const char *name, mkb_amount_answer r, mkb_amount a)
{
    tell(!r.refusal && !r.blamed && same_amount(r.amount, a), name);
}

static inline void amount_refused(const char *name, mkb_amount_answer r, int number, int blamed)
{
    tell(r.refusal == number && r.blamed == blamed && same_amount(r.amount, money(0, 0, 0)), name);
}

static inline void whole_is(const char *name, mkb_whole r, int number, int64_t value)
{
    tell(r.refusal == number && !r.blamed && r.value == value, name);
}

static const mkb_date feb = {2023, 2, 28}, mar = {2023, 3, 31}, none = {1900, 2, 29};

static inline void days_are(const char *name, mkb_days r, int number, int blamed, uint32_t days)
{
    tell(r.refusal == number && r.blamed == blamed && r.days == days, name);
}

static inline void split_refused(const char *name, mkb_split r, int number)
{
    mkb_amount z = money(0, 0, 0);
    tell(r.refusal == number && !r.blamed && same_amount(r.net, z) && same_amount(r.tax, z) && same_amount(r.gross, z), name);
}

/* a call is refused: the given book field for field, and sixteen noughts */
static inline void not_moved(const char *name, mkb_moved r, int number, mkb_book given)
{
    int ok = r.refusal == number && !r.blamed && same_book(&r.book, &given);
    for (int i = 0; i < MKB_PARTNERS; i++)
        ok = ok && !r.payouts[i];
    tell(ok, name);
}

/* numbers past their limits, the table of currencies, and books that are broken in each field (limits.c) */
void limits(void);
/* rows of doubles and exports (doubles.c) */
void doubles(void);
void statements(void);
/* views of statements (views.c) */
void views(void);
/* statements with reasons, and readers of either version (reasons.c) */
void reasons(void);
/* amounts as text (texts.c) */
void texts(void);
#endif
