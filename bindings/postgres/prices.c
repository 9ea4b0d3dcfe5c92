/* Days and interest, compound tables, tax both ways and the net for a gross. */
#include "answers.h"

#define AMOUNT(place) amount_given(PG_GETARG_DATUM(place), currency_given(PG_GETARG_DATUM((place) + 1)))

/* the most periods of a table that is accepted */
#define MOST_PERIODS 120

/* mkb_day_count(basis, start, end) */
static answer
day_count_answer(FunctionCallInfo fcinfo)
{
    mkb_days found = mkb_day_count(basis_given(PG_GETARG_DATUM(0)), date_given(PG_GETARG_DATEADT(1)), date_given(PG_GETARG_DATEADT(2)));
    answer told = one_field(found.refusal, Int32GetDatum((int32_t) found.days));
    told.blamed = found.blamed;
    told.blames = true;
    return told;
}
CALL(day_count)

/* mkb_interest(principal, currency, rate, basis, start, end, mode) */
static answer
interest_answer(FunctionCallInfo fcinfo)
{
    mkb_date start = date_given(PG_GETARG_DATEADT(4)), end = date_given(PG_GETARG_DATEADT(5));
    answer told = of_amount(mkb_interest(AMOUNT(0), whole_given(PG_GETARG_DATUM(2)), basis_given(PG_GETARG_DATUM(3)), start, end,
                                         mode_given(PG_GETARG_DATUM(6))));
    told.blames = true;
    return told;
}
CALL(interest)

/* mkb_compound(principal, currency, rate, periods) */
static answer
compound_answer(FunctionCallInfo fcinfo)
{
    mkb_amount principal = AMOUNT(0);
    int64_t periods = whole_given(PG_GETARG_DATUM(3)), balances[MOST_PERIODS + 1];
    int128 rows[MOST_PERIODS + 1];
    answer told = one_field(mkb_compound(principal, whole_given(PG_GETARG_DATUM(2)), periods, balances, MOST_PERIODS + 1), (Datum) 0);
    if (told.refusal != MKB_ACCEPTED)
        return told;
    for (int64_t row = 0; row <= periods; row++)
        rows[row] = balances[row];
    told.fields[0] = numerics_at(rows, (int) periods + 1, principal.scale);
    return told;
}
CALL(compound)

static answer
of_split(mkb_split found)
{
    answer told = {.refusal = found.refusal, .blamed = found.blamed, .count = 3};
    if (found.refusal != MKB_ACCEPTED)
        return told;
    told.fields[0] = numeric_at(found.net.coefficient, found.net.scale);
    told.fields[1] = numeric_at(found.tax.coefficient, found.tax.scale);
    told.fields[2] = numeric_at(found.gross.coefficient, found.gross.scale);
    return told;
}

/* mkb_tax_from_net(net, currency, rate, mode) */
static answer
tax_from_net_answer(FunctionCallInfo fcinfo)
{
    return of_split(mkb_tax_from_net(AMOUNT(0), whole_given(PG_GETARG_DATUM(2)), mode_given(PG_GETARG_DATUM(3))));
}
CALL(tax_from_net)

/* mkb_tax_from_gross(gross, currency, rate, mode) */
static answer
tax_from_gross_answer(FunctionCallInfo fcinfo)
{
    return of_split(mkb_tax_from_gross(AMOUNT(0), whole_given(PG_GETARG_DATUM(2)), mode_given(PG_GETARG_DATUM(3))));
}
CALL(tax_from_gross)

/* mkb_net_for(gross, currency, rate, mode) */
static answer
net_for_answer(FunctionCallInfo fcinfo)
{
    return of_split(mkb_net_for(AMOUNT(0), whole_given(PG_GETARG_DATUM(2)), mode_given(PG_GETARG_DATUM(3))));
}
CALL(net_for)
