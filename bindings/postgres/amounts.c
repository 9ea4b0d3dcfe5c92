/* Rounding, amounts and their texts, conversion, rows of doubles. */
#include "answers.h"

#include "utils/builtins.h"

#define AMOUNT(place) amount_given(PG_GETARG_DATUM(place), currency_given(PG_GETARG_DATUM((place) + 1)))

/* mkb_round(mode, n, d) and mkb_round(mode, a, b, d) */
static answer
round_answer(FunctionCallInfo fcinfo)
{
    bool product = PG_NARGS() == 4;
    int64_t other = product ? whole_given(PG_GETARG_DATUM(2)) : 1;
    mkb_whole found = mkb_round(mode_given(PG_GETARG_DATUM(0)), whole_given(PG_GETARG_DATUM(1)), other, whole_given(PG_GETARG_DATUM(product ? 3 : 2)));
    return one_field(found.refusal, numeric_at(found.value, 0));
}
CALL(round)

/* mkb_sum(amount, currency, other, currency) */
static answer
sum_answer(FunctionCallInfo fcinfo)
{
    return of_amount(mkb_sum(AMOUNT(0), AMOUNT(2)));
}
CALL(sum)

/* mkb_order(amount, currency, other, currency) */
static answer
order_answer(FunctionCallInfo fcinfo)
{
    mkb_order_answer found = mkb_order(AMOUNT(0), AMOUNT(2));
    return one_field(found.refusal, Int32GetDatum(found.order));
}
CALL(order)

/* mkb_negate(amount, currency) */
static answer
negate_answer(FunctionCallInfo fcinfo)
{
    return of_amount(mkb_negate(AMOUNT(0)));
}
CALL(negate)

/* mkb_rescale(amount, currency, scale, mode) */
static answer
rescale_answer(FunctionCallInfo fcinfo)
{
    return of_amount(mkb_rescale(AMOUNT(0), whole_given(PG_GETARG_DATUM(2)), mode_given(PG_GETARG_DATUM(3))));
}
CALL(rescale)

/* mkb_convert(amount, currency, target) and mkb_convert(amount, currency, target, decimals) */
static answer
convert_answer(FunctionCallInfo fcinfo)
{
    int32_t target = currency_given(PG_GETARG_DATUM(2));
    if (PG_NARGS() == 3)
        return of_amount(mkb_convert(AMOUNT(0), target));
    return of_amount(mkb_convert_by(AMOUNT(0), target, whole_given(PG_GETARG_DATUM(3))));
}
CALL(convert)

/* mkb_read(text, currency) */
static answer
read_answer(FunctionCallInfo fcinfo)
{
    const text *given = PG_GETARG_TEXT_PP(0);
    return of_amount(mkb_read(currency_given(PG_GETARG_DATUM(1)), (const uint8_t *) VARDATA_ANY(given), VARSIZE_ANY_EXHDR(given)));
}
CALL(read)

/* mkb_write(amount, currency) */
static answer
write_answer(FunctionCallInfo fcinfo)
{
    uint8_t out[MKB_TEXT];
    mkb_written found = mkb_write(AMOUNT(0), out, sizeof out);
    return one_field(found.refusal, PointerGetDatum(cstring_to_text_with_len((const char *) out, (int) found.length)));
}
CALL(write)

/* mkb_row(net, tax, currency, scale, mode), of two doubles */
static answer
row_answer(FunctionCallInfo fcinfo)
{
    mkb_columns columns = {.net = PG_GETARG_FLOAT8(0), .tax = PG_GETARG_FLOAT8(1)};
    mkb_row_answer found =
        mkb_row(columns, currency_given(PG_GETARG_DATUM(2)), whole_given(PG_GETARG_DATUM(3)), mode_given(PG_GETARG_DATUM(4)));
    answer told = {.refusal = found.refusal, .count = 2};
    if (found.refusal == MKB_ACCEPTED) {
        told.fields[0] = numeric_at(found.net.coefficient, found.net.scale);
        told.fields[1] = numeric_at(found.tax.coefficient, found.tax.scale);
    }
    return told;
}
CALL(row)

/* mkb_export(amount, currency) */
static answer
export_answer(FunctionCallInfo fcinfo)
{
    mkb_double found = mkb_export(AMOUNT(0));
    return one_field(found.refusal, Float8GetDatum(found.value));
}
CALL(export)

/* mkb_digits(currency): a currency's own scale */
static answer
digits_answer(FunctionCallInfo fcinfo)
{
    mkb_line line = mkb_currency(currency_given(PG_GETARG_DATUM(0)));
    return one_field(line.figures == 0 ? MKB_UNKNOWN : MKB_ACCEPTED, Int32GetDatum(line.digits));
}
CALL(digits)

/* mkb_version(): the linked library's */
SQL_FUNCTION(sql_version);
Datum
sql_version(PG_FUNCTION_ARGS)
{
    uint32_t version = mkb_version();
    PG_RETURN_TEXT_P(cstring_to_text(psprintf("%u.%u.%u", version / 10000, version / 100 % 100, version % 100)));
}
