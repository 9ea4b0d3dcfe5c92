/* A run of calls given as lists: each call's number, the net total behind it and its payouts, by the proved run. */
#include "books.h"

#include "funcapi.h"
#include "utils/builtins.h"

/* A call of a run. `at` is its place among those that are served together, -1 where it is refused at any net total; `understood`: its kind is 'post'
 * or 'refund'. */
typedef struct {
    bool understood, refund;
    int at;
    uint8_t number;
    int64_t coefficient;
} call;

/* the calls, and what the served ones answer */
typedef struct {
    int count, served;
    call *calls;
    bool *refunds;
    int64_t *coefficients;
    uint64_t *payouts;
    uint8_t *numbers;
} calls;

/* a null among the elements is an error, as it is in a row of the aggregate */
static given_list
elements(Datum datum, const char *name)
{
    ArrayType *array = DatumGetArrayTypeP(datum);
    given_list list = list_given(array, name);
    if (list.flaw != NULL)
        ereport(ERROR, (errcode(ARR_NDIM(array) > 1 ? ERRCODE_ARRAY_SUBSCRIPT_ERROR : ERRCODE_NULL_VALUE_NOT_ALLOWED), errmsg("%s", list.flaw)));
    return list;
}

static call
call_given(Datum kind, mkb_amount amount, const mkb_opened *found, calls *all)
{
    const text *word = DatumGetTextPP(kind);
    call given = {.refund = is_word(word, "refund"), .at = -1, .coefficient = amount.coefficient};
    given.understood = given.refund || is_word(word, "post");
    if (!given.understood)
        return given;
    if (found->refusal == MKB_ACCEPTED && amount.scale == mkb_currency(amount.currency).digits) {
        given.at = all->served++;
        all->refunds[given.at] = given.refund;
        all->coefficients[given.at] = amount.coefficient;
    } else
        given.number = (given.refund ? mkb_refund(found->book, amount) : mkb_post(found->book, amount)).refusal;
    return given;
}

/* lists of unequal length are refused with 9 */
static calls
calls_given(Datum kinds, Datum amounts, int32_t currency, const mkb_opened *found)
{
    given_list words = elements(kinds, "kinds"), numbers = elements(amounts, "amounts");
    calls all = {.count = words.count};
    if (words.count != numbers.count)
        raise_refusal(MKB_WEIGHTS, 0, psprintf("kinds has %d elements and amounts %d", words.count, numbers.count));
    all.calls = palloc(sizeof(call) * (words.count + 1));
    all.refunds = palloc(words.count + 1);
    all.coefficients = palloc(sizeof(int64_t) * (words.count + 1));
    for (int place = 0; place < words.count; place++)
        all.calls[place] = call_given(words.values[place], amount_given(numbers.values[place], currency), found, &all);
    return all;
}

/* serves those that wait, a batch at a time */
static void
serve_all(calls *all, mkb_book book)
{
    all->numbers = palloc(all->served + 1);
    all->payouts = palloc_extended(sizeof(uint64_t) * MKB_PARTNERS * (all->served + 1), MCXT_ALLOC_HUGE);
    for (int first = 0; first < all->served; first += BATCH) {
        size_t batch = Min(BATCH, all->served - first), places = MKB_PARTNERS * batch;
        uint64_t *payouts = all->payouts + (size_t) MKB_PARTNERS * first;
        mkb_ran ran =
            mkb_run(book, all->refunds + first, batch, all->coefficients + first, batch, payouts, places, all->numbers + first, batch);
        if (ran.refusal != MKB_ACCEPTED)
            raise_refusal(ran.refusal, ran.blamed, NULL);
        book = ran.book;
    }
}

/* A row for each call: its place from 1 on; its refusal, null where its kind is not understood; the net total behind it, null where no book was opened;
 * its payouts, null where it is refused. */
static void
put_row(ReturnSetInfo *result, const calls *all, int place, mkb_book *book)
{
    const call *each = &all->calls[place];
    uint8_t number = each->at < 0 ? each->number : all->numbers[each->at];
    bool opened = book->count > 0, accepted = each->at >= 0 && number == MKB_ACCEPTED;
    int32_t digits = mkb_currency(book->currency).digits;
    int128 paid[MKB_PARTNERS] = {0};
    Datum fields[4] = {Int32GetDatum(place + 1), Int32GetDatum(number)};
    bool nulls[4] = {false, !each->understood, !opened, !accepted};
    if (accepted) {
        book->net += each->refund ? -each->coefficient : each->coefficient;
        for (int partner = 0; partner < book->count; partner++)
            paid[partner] = all->payouts[(size_t) MKB_PARTNERS * each->at + partner];
        fields[3] = numerics_at(paid, book->count, digits);
    }
    if (opened)
        fields[2] = numeric_at(book->net, digits);
    tuplestore_putvalues(result->setResult, result->setDesc, fields, nulls);
}

static void
put_rows(FunctionCallInfo fcinfo, const calls *all, mkb_book book)
{
    MemoryContext row = AllocSetContextCreate(CurrentMemoryContext, "a call of mkb_run", ALLOCSET_DEFAULT_SIZES);
    MemoryContext before = MemoryContextSwitchTo(row);
    for (int place = 0; place < all->count; place++) {
        put_row((ReturnSetInfo *) fcinfo->resultinfo, all, place, &book);
        MemoryContextReset(row);
    }
    MemoryContextSwitchTo(before);
    MemoryContextDelete(row);
}

/* mkb_run(currency, weights, kinds, amounts) */
static Datum
run(FunctionCallInfo fcinfo, bool raise)
{
    int32_t currency = currency_given(PG_GETARG_DATUM(0));
    given_weights weights;
    mkb_opened found;
    calls all;
    weights_given(PG_GETARG_ARRAYTYPE_P(1), &weights);
    found = mkb_open(currency, weights.places, weights.count);
    if (raise && found.refusal != MKB_ACCEPTED)
        raise_refusal(found.refusal, 0, found.refusal == MKB_WEIGHTS ? weights.flaw : NULL);
    InitMaterializedSRF(fcinfo, 0);
    all = calls_given(PG_GETARG_DATUM(2), PG_GETARG_DATUM(3), currency, &found);
    serve_all(&all, found.book);
    put_rows(fcinfo, &all, found.book);
    return (Datum) 0;
}

SQL_FUNCTION(sql_run);
Datum
sql_run(PG_FUNCTION_ARGS)
{
    return run(fcinfo, true);
}

SQL_FUNCTION(try_run);
Datum
try_run(PG_FUNCTION_ARGS)
{
    return run(fcinfo, false);
}
