/* Sharing and vouchers over a list of weights. */
#include "answers.h"

#include "catalog/pg_type.h"

/* mkb_share(amount, currency, weights) */
static answer
share_answer(FunctionCallInfo fcinfo)
{
    mkb_amount amount = amount_given(PG_GETARG_DATUM(0), currency_given(PG_GETARG_DATUM(1)));
    given_weights weights;
    int64_t shares[MOST_WEIGHTS + 1];
    int128 found[MOST_WEIGHTS + 1];
    answer told;
    weights_given(PG_GETARG_ARRAYTYPE_P(2), &weights);
    told = one_field(mkb_share(amount, weights.places, weights.count, shares, lengthof(shares)), (Datum) 0);
    told.flaw = told.refusal == MKB_WEIGHTS ? weights.flaw : NULL;
    if (told.refusal != MKB_ACCEPTED)
        return told;
    for (size_t place = 0; place < weights.count; place++)
        found[place] = shares[place];
    told.fields[0] = numerics_at(found, (int) weights.count, amount.scale);
    return told;
}
CALL(share)

/* mkb_vouchers(vouchers, weights) */
static answer
vouchers_answer(FunctionCallInfo fcinfo)
{
    given_weights weights;
    uint32_t vouchers[MOST_WEIGHTS + 1];
    Datum found[MOST_WEIGHTS + 1];
    answer told;
    weights_given(PG_GETARG_ARRAYTYPE_P(1), &weights);
    told = one_field(mkb_vouchers(whole_given(PG_GETARG_DATUM(0)), weights.places, weights.count, vouchers, lengthof(vouchers)), (Datum) 0);
    told.flaw = told.refusal == MKB_WEIGHTS ? weights.flaw : NULL;
    if (told.refusal != MKB_ACCEPTED)
        return told;
    for (size_t place = 0; place < weights.count; place++)
        found[place] = Int32GetDatum((int32_t) vouchers[place]);
    told.fields[0] = PointerGetDatum(construct_array(found, (int) weights.count, INT4OID, sizeof(int32), true, TYPALIGN_INT));
    return told;
}
CALL(vouchers)
