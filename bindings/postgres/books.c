/* A book at a net total: its totals, and what a posting or a refund pays. */
#include "answers.h"

static Datum
of_places(const uint64_t *places, int count, int32_t scale)
{
    int128 found[MKB_PARTNERS];
    for (int place = 0; place < count; place++)
        found[place] = places[place];
    return numerics_at(found, count, scale);
}

/* the refusal and, of a list that breaks its rule, what is wrong with it */
static answer
of_book(uint8_t refusal, const given_weights *weights)
{
    answer told = one_field(refusal, (Datum) 0);
    told.flaw = refusal == MKB_WEIGHTS ? weights->flaw : NULL;
    return told;
}

/* mkb_totals(net, currency, weights) */
static answer
totals_answer(FunctionCallInfo fcinfo)
{
    mkb_amount net = amount_given(PG_GETARG_DATUM(0), currency_given(PG_GETARG_DATUM(1)));
    given_weights weights;
    mkb_totals found;
    answer told;
    weights_given(PG_GETARG_ARRAYTYPE_P(2), &weights);
    if (at_other_digits(net))
        return one_field(MKB_SCALE, (Datum) 0);
    found = mkb_running_totals(book_given(net.currency, &weights, net.coefficient));
    told = of_book(found.refusal, &weights);
    if (found.refusal == MKB_ACCEPTED)
        told.fields[0] = of_places(found.totals, (int) weights.count, net.scale);
    return told;
}
CALL(totals)

/* the payouts of a call on the book at a net total; the amount's currency is the book's where none is given */
static answer
moved_answer(FunctionCallInfo fcinfo, mkb_moved (*call)(mkb_book, mkb_amount))
{
    mkb_amount net = amount_given(PG_GETARG_DATUM(0), currency_given(PG_GETARG_DATUM(1)));
    mkb_amount amount = amount_given(PG_GETARG_DATUM(3), PG_NARGS() == 5 ? currency_given(PG_GETARG_DATUM(4)) : net.currency);
    given_weights weights;
    mkb_moved found;
    answer told;
    weights_given(PG_GETARG_ARRAYTYPE_P(2), &weights);
    if (at_other_digits(net))
        return one_field(MKB_SCALE, (Datum) 0);
    found = call(book_given(net.currency, &weights, net.coefficient), amount);
    told = of_book(found.refusal, &weights);
    if (found.refusal == MKB_ACCEPTED)
        told.fields[0] = of_places(found.payouts, (int) weights.count, net.scale);
    return told;
}

/* mkb_post(net, currency, weights, amount) and mkb_post(net, currency, weights, amount, currency) */
static answer
post_answer(FunctionCallInfo fcinfo)
{
    return moved_answer(fcinfo, mkb_post);
}
CALL(post)

/* mkb_refund, likewise */
static answer
refund_answer(FunctionCallInfo fcinfo)
{
    return moved_answer(fcinfo, mkb_refund);
}
CALL(refund)
