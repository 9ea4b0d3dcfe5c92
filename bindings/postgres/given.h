/* What SQL hands over, as the library's types hold it. A number that its type can't hold, or that isn't whole where a whole one is asked for, is passed
 * as the type's largest value, and one below the range of a signed type as its least: it is refused with its row's number, never cut or rounded to
 * another. A name that the documents don't have is passed as a number past theirs. */
#ifndef MORSKEBAB_GIVEN_H
#define MORSKEBAB_GIVEN_H
#include "postgres.h"

#include "fmgr.h"
#include "morskebab.h"
#include "utils/array.h"
#include "utils/date.h"

/* no list of weights is longer; what is longer is passed as one more, which is refused */
#define MOST_WEIGHTS 64

/* the weights of a call; what is wrong with the list itself, or NULL */
typedef struct {
    size_t count;
    uint32_t places[MOST_WEIGHTS + 1];
    const char *flaw;
} given_weights;

/* an amount's scale is the number of the numeric's digits after the point. What no coefficient holds has the largest; so have NaN and the
   infinities, at the currency's own digits: they are refused with 3 everywhere. */
mkb_amount amount_given(Datum numeric, int32_t currency);
/* a whole number, and the largest of its type where it isn't one */
int64_t whole_given(Datum numeric);
/* the number of a code, 255 where the table has none */
int32_t currency_given(Datum code);
/* the number of a mode's name, UP to HALF_EVEN, and 7 for any other */
int64_t mode_given(Datum name);
/* the number of a basis's name, ACTUAL_360 to THIRTY_360_EUROPEAN, and 4 for any other */
int64_t basis_given(Datum name);
/* infinity is passed as a year that no calendar has */
mkb_date date_given(DateADT date);
/* an array of integer or numeric; a null among them is a weight that breaks the rule, and an array of several dimensions an empty list */
void weights_given(ArrayType *list, given_weights *weights);
/* the book of these weights at a net total, on its first card; broken where they are */
mkb_book book_given(int32_t currency, const given_weights *weights, int64_t net);
/* whether the amount is at other digits than its known currency's own, or over 6: row 2 of every conversion, asked of the library */
bool at_other_digits(mkb_amount amount);
/* whether a text is this word */
bool is_word(const text *given, const char *word);

/* the elements of an array, of the type that it is declared with; what is wrong with the list itself, or NULL */
typedef struct {
    int count;
    Datum *values;
    bool *nulls;
    const char *flaw;
} given_list;
given_list list_given(ArrayType *array, const char *name);

#endif
