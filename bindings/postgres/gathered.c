/* The aggregate's rows: each is read, understood and gathered, and a batch is served when it is full. */
#include "books.h"

/* the arguments of a row, whose number says the form: weights, kind, amount; before them the book's currency; behind them the amount's own */
typedef struct {
    int currency, weights, kind, amount, own;
} form;

static form
form_of(FunctionCallInfo fcinfo)
{
    if (PG_NARGS() == 4)
        return (form) {.weights = 1, .kind = 2, .amount = 3};
    return (form) {.currency = 1, .weights = 2, .kind = 3, .amount = 4, .own = PG_NARGS() == 6 ? 5 : 0};
}

static void
need(FunctionCallInfo fcinfo, int place, const char *name)
{
    if (place != 0 && PG_ARGISNULL(place))
        ereport(ERROR, (errcode(ERRCODE_NULL_VALUE_NOT_ALLOWED), errmsg("a row of a book has no %s", name)));
}

/* the all-zero book of document 01 where the opening is refused */
static rerun *
opened(FunctionCallInfo fcinfo, form at, MemoryContext context)
{
    MemoryContext before = MemoryContextSwitchTo(context);
    rerun *run = palloc0(sizeof *run);
    mkb_opened found;
    run->contract.currency = at.currency == 0 ? 0 : currency_given(PG_GETARG_DATUM(at.currency));
    run->contract.array = PG_DETOAST_DATUM_COPY(PG_GETARG_DATUM(at.weights));
    weights_given((ArrayType *) run->contract.array, &run->contract.weights);
    found = mkb_open(run->contract.currency, run->contract.weights.places, run->contract.weights.count);
    run->opening = found.refusal;
    run->book = found.book;
    run->digits = mkb_currency(found.book.currency).digits;
    MemoryContextSwitchTo(before);
    return run;
}

/* whether the row's weights are those of the first row */
static bool
same_weights(FunctionCallInfo fcinfo, form at, const contract *first)
{
    struct varlena *array = PG_DETOAST_DATUM_PACKED(PG_GETARG_DATUM(at.weights));
    given_weights weights;
    if (VARSIZE_ANY_EXHDR(array) == VARSIZE_ANY_EXHDR(first->array) &&
        memcmp(VARDATA_ANY(array), VARDATA_ANY(first->array), VARSIZE_ANY_EXHDR(array)) == 0)
        return true;
    weights_given(PG_GETARG_ARRAYTYPE_P(at.weights), &weights);
    return weights.count == first->weights.count && memcmp(weights.places, first->weights.places, sizeof weights.places) == 0;
}

static void
need_same_contract(FunctionCallInfo fcinfo, form at, const contract *first)
{
    if (at.currency != 0 && currency_given(PG_GETARG_DATUM(at.currency)) != first->currency)
        ereport(ERROR, (errcode(ERRCODE_INVALID_PARAMETER_VALUE), errmsg("the rows of a book have different currencies"),
                        errhint("The amount's own currency is the argument behind the amount.")));
    if (!same_weights(fcinfo, at, first))
        ereport(ERROR, (errcode(ERRCODE_INVALID_PARAMETER_VALUE), errmsg("the rows of a book have different weights"),
                        errhint("New weights are a new card: group by it too.")));
}

static void
count_one(tally *tally, int64_t place)
{
    if (tally->times++ == 0)
        tally->first = place;
}

/* room for one call more, up to a batch */
static void
make_room(rerun *run, MemoryContext context)
{
    MemoryContext before;
    if (run->calls < run->room)
        return;
    before = MemoryContextSwitchTo(context);
    run->room = run->room == 0 ? 64 : Min(run->room * 4, BATCH);
    run->refunds = run->refunds == NULL ? palloc(run->room) : repalloc(run->refunds, run->room);
    run->coefficients = run->coefficients == NULL ? palloc(sizeof(int64_t) * run->room) : repalloc(run->coefficients, sizeof(int64_t) * run->room);
    run->places = run->places == NULL ? palloc(sizeof(int64_t) * run->room) : repalloc(run->places, sizeof(int64_t) * run->room);
    MemoryContextSwitchTo(before);
}

/* An amount in the book's currency at its own digits awaits its batch. Any other, and every one where no book was opened, is refused at any net total:
 * its number is asked at once, and its place among the calls changes nothing. */
static void
take(rerun *run, bool refund, mkb_amount amount, MemoryContext context)
{
    if (run->opening != MKB_ACCEPTED || amount.currency != run->book.currency || amount.scale != run->digits) {
        mkb_moved found = refund ? mkb_refund(run->book, amount) : mkb_post(run->book, amount);
        count_one(&run->refused[found.refusal], run->rows);
        return;
    }
    if (run->calls == BATCH)
        serve(run);
    make_room(run, context);
    run->refunds[run->calls] = refund;
    run->coefficients[run->calls] = amount.coefficient;
    run->places[run->calls++] = run->rows;
}

/* A row of a book. One whose kind and amount are both null is no movement, as an outer join gives it of a book without any; a kind that is neither 'post'
 * nor 'refund' is not understood. */
SQL_FUNCTION(sql_book_row);
Datum
sql_book_row(PG_FUNCTION_ARGS)
{
    MemoryContext context;
    form at = form_of(fcinfo);
    rerun *run = PG_ARGISNULL(0) ? NULL : (rerun *) PG_GETARG_POINTER(0);
    const text *kind;
    if (!AggCheckCallContext(fcinfo, &context))
        ereport(ERROR, (errcode(ERRCODE_FEATURE_NOT_SUPPORTED), errmsg("this function is part of the aggregate mkb_book")));
    need(fcinfo, at.currency, "currency");
    need(fcinfo, at.weights, "weights");
    if (run == NULL)
        run = opened(fcinfo, at, context);
    else
        need_same_contract(fcinfo, at, &run->contract);
    if (PG_ARGISNULL(at.kind) && PG_ARGISNULL(at.amount))
        PG_RETURN_POINTER(run);
    need(fcinfo, at.kind, "kind");
    need(fcinfo, at.amount, "amount");
    need(fcinfo, at.own, "currency of its amount");
    run->rows++;
    kind = PG_GETARG_TEXT_PP(at.kind);
    if (is_word(kind, "post") || is_word(kind, "refund")) {
        int32_t currency = at.own == 0 ? run->contract.currency : currency_given(PG_GETARG_DATUM(at.own));
        take(run, is_word(kind, "refund"), amount_given(PG_GETARG_DATUM(at.amount), currency), context);
    } else
        count_one(&run->not_understood, run->rows);
    PG_RETURN_POINTER(run);
}
