/* Answers as SQL's values. */
#include "answers.h"

#include "catalog/pg_type.h"
#include "funcapi.h"
#include "utils/builtins.h"
#include "utils/numeric.h"

PG_MODULE_MAGIC;

/* room for the digits of 128 bits, a point, a sign and the end */
#define LONGEST 48

Datum
numeric_at(int128 coefficient, int32_t scale)
{
    char text[LONGEST], *first = text + LONGEST - 1;
    uint128 left = coefficient < 0 ? -(uint128) coefficient : (uint128) coefficient;
    *first = '\0';
    for (int32_t digits = 0; left > 0 || digits <= scale; digits++) {
        if (digits == scale && scale > 0)
            *--first = '.';
        *--first = '0' + (char) (left % 10);
        left /= 10;
    }
    if (coefficient < 0)
        *--first = '-';
    return DirectFunctionCall3(numeric_in, CStringGetDatum(first), ObjectIdGetDatum(InvalidOid), Int32GetDatum(-1));
}

Datum
numerics_at(const int128 *coefficients, int count, int32_t scale)
{
    Datum *values = palloc(sizeof(Datum) * (count + 1));
    for (int place = 0; place < count; place++)
        values[place] = numeric_at(coefficients[place], scale);
    return PointerGetDatum(construct_array(values, count, NUMERICOID, -1, false, TYPALIGN_INT));
}

answer
one_field(uint8_t refusal, Datum value)
{
    return (answer) {.refusal = refusal, .count = 1, .fields = {value}};
}

answer
of_amount(mkb_amount_answer found)
{
    answer told = one_field(found.refusal, (Datum) 0);
    told.blamed = found.blamed;
    if (found.refusal == MKB_ACCEPTED)
        told.fields[0] = numeric_at(found.amount.coefficient, found.amount.scale);
    return told;
}

Datum
row_of(FunctionCallInfo fcinfo, Datum *fields, bool *nulls)
{
    TupleDesc row = fcinfo->flinfo->fn_extra;
    if (row == NULL) {
        MemoryContext before = MemoryContextSwitchTo(fcinfo->flinfo->fn_mcxt);
        if (get_call_result_type(fcinfo, NULL, &row) != TYPEFUNC_COMPOSITE)
            ereport(ERROR, (errcode(ERRCODE_FEATURE_NOT_SUPPORTED), errmsg("this function is declared with another type")));
        row = BlessTupleDesc(CreateTupleDescCopy(row));
        fcinfo->flinfo->fn_extra = row;
        MemoryContextSwitchTo(before);
    }
    return HeapTupleGetDatum(heap_form_tuple(row, fields, nulls));
}

Datum
value_or_error(FunctionCallInfo fcinfo, answer found)
{
    bool nulls[MOST_FIELDS] = {found.absent};
    if (found.refusal != MKB_ACCEPTED)
        raise_refusal(found.refusal, found.blamed, found.flaw);
    return found.count == 1 ? found.fields[0] : row_of(fcinfo, found.fields, nulls);
}

Datum
number_and_value(FunctionCallInfo fcinfo, answer found)
{
    Datum fields[2 + MOST_FIELDS] = {Int32GetDatum(found.refusal), Int32GetDatum(found.blamed)};
    bool nulls[2 + MOST_FIELDS] = {false};
    int before = found.blames ? 2 : 1;
    for (int field = 0; field < found.count; field++) {
        fields[before + field] = found.fields[field];
        nulls[before + field] = found.refusal != MKB_ACCEPTED || (field == 0 && found.absent);
    }
    return row_of(fcinfo, fields, nulls);
}
