/* What a call answers, and the two ways in which SQL gets it: the value, or an error where the call is refused; and, from the call's sister, the
 * refusal's number with the value, which is null where the number isn't 0. */
#ifndef MORSKEBAB_ANSWERS_H
#define MORSKEBAB_ANSWERS_H
#include "given.h"
#include "words.h"

/* the most fields of a value */
#define MOST_FIELDS 4

/* `blames` says whether the sister tells which date a refusal blames; `flaw` says more of a refused list, or is NULL; `absent`: the first field is null */
typedef struct {
    uint8_t refusal, blamed;
    bool blames, absent;
    const char *flaw;
    int count;
    Datum fields[MOST_FIELDS];
} answer;

/* a coefficient at a scale, as a numeric with as many digits after the point */
Datum numeric_at(int128 coefficient, int32_t scale);
/* coefficients at a scale, as an array of numeric */
Datum numerics_at(const int128 *coefficients, int count, int32_t scale);

/* an answer of one field */
answer one_field(uint8_t refusal, Datum value);
/* that of a call which answers an amount */
answer of_amount(mkb_amount_answer found);

/* an error with the number, the row's words and the date that is blamed; its SQLSTATE is MK and the number in three digits */
void raise_refusal(uint8_t refusal, uint8_t blamed, const char *flaw) __attribute__((noreturn));
Datum value_or_error(FunctionCallInfo fcinfo, answer found);
Datum number_and_value(FunctionCallInfo fcinfo, answer found);
/* a row of the type that the function is declared with; it is looked up once for each place in a query that calls the function */
Datum row_of(FunctionCallInfo fcinfo, Datum *fields, bool *nulls);

/* a function that SQL calls */
#define SQL_FUNCTION(name) PGDLLEXPORT PG_FUNCTION_INFO_V1(name)

/* the two functions of a call whose answer NAME_answer gives */
#define CALL(name)                                                                                                                                   \
    SQL_FUNCTION(sql_##name);                                                                                                                        \
    SQL_FUNCTION(try_##name);                                                                                                                        \
    Datum sql_##name(PG_FUNCTION_ARGS) { return value_or_error(fcinfo, name##_answer(fcinfo)); }                                                     \
    Datum try_##name(PG_FUNCTION_ARGS) { return number_and_value(fcinfo, name##_answer(fcinfo)); }

#endif
