/* The aggregate's report: a batch served, its payouts counted, and rerun's report as a row. */
#include "books.h"

#include "catalog/pg_type.h"
#include "utils/builtins.h"

/* the number and the payouts of one served call */
static void
count_call(rerun *run, int call, uint8_t number, const uint64_t *payouts)
{
    int128 *sums = run->refunds[call] ? run->taken : run->paid;
    tally *refused = &run->refused[number];
    if (number != MKB_ACCEPTED) {
        if (refused->times++ == 0 || run->places[call] < refused->first)
            refused->first = run->places[call];
        return;
    }
    run->accepted++;
    *(run->refunds[call] ? &run->refunded : &run->posted) += run->coefficients[call];
    for (int place = 0; place < run->book.count; place++)
        sums[place] += payouts[place];
}

void
serve(rerun *run)
{
    size_t calls = run->calls;
    uint64_t *payouts;
    uint8_t *numbers;
    mkb_ran ran;
    if (calls == 0)
        return;
    payouts = palloc(sizeof(uint64_t) * MKB_PARTNERS * calls);
    numbers = palloc(calls);
    ran = mkb_run(run->book, run->refunds, calls, run->coefficients, calls, payouts, MKB_PARTNERS * calls, numbers, calls);
    if (ran.refusal != MKB_ACCEPTED)
        raise_refusal(ran.refusal, ran.blamed, NULL);
    run->book = ran.book;
    for (size_t call = 0; call < calls; call++)
        count_call(run, (int) call, numbers[call], payouts + MKB_PARTNERS * call);
    run->calls = 0;
    pfree(payouts);
    pfree(numbers);
}

/* the partners' lines of a report: running totals, least and most; and whether the check is ok */
typedef struct {
    int128 totals[MKB_PARTNERS], least[MKB_PARTNERS], most[MKB_PARTNERS];
    bool ok;
} partners;

static partners
partners_of(const rerun *run)
{
    const mkb_book *book = &run->book;
    mkb_totals running = mkb_running_totals(*book);
    int128 together = 0;
    int64_t sum = 0;
    partners found = {.ok = run->posted - run->refunded == book->net};
    for (int place = 0; place < book->count; place++)
        sum += book->weights[place];
    for (int place = 0; place < book->count; place++) {
        int128 total = running.totals[place];
        found.totals[place] = total;
        found.least[place] = mkb_round(MKB_FLOOR, book->net, book->weights[place], sum).value;
        found.most[place] = mkb_round(MKB_CEILING, book->net, book->weights[place], sum).value;
        found.ok &= found.least[place] <= total && total <= found.most[place] && run->paid[place] - run->taken[place] == total;
        together += total;
    }
    found.ok &= together == book->net;
    return found;
}

/* the places of the type mkb_report */
enum field {
    REFUSAL, CURRENCY, WEIGHTS, ACCEPTED, REFUSED, NOT_UNDERSTOOD, NOT_UNDERSTOOD_FIRST, REFUSED_TIMES, REFUSED_FIRST,
    POSTED, REFUNDED, NET, PAID, TAKEN, TOTALS, LEAST, MOST, CHECK_OK, FIELDS
};

static Datum
bigints(const int64_t *numbers, int count)
{
    Datum values[REFUSALS];
    for (int place = 0; place < count; place++)
        values[place] = Int64GetDatum(numbers[place]);
    return PointerGetDatum(construct_array(values, count, INT8OID, sizeof(int64), FLOAT8PASSBYVAL, TYPALIGN_DOUBLE));
}

/* the rows that were counted; a place of a list is the refusal's number */
static void
fill_counts(const rerun *run, Datum *fields, bool *nulls)
{
    int64_t times[REFUSALS], first[REFUSALS], all = 0;
    for (int number = 1; number <= REFUSALS; number++) {
        times[number - 1] = run->refused[number].times;
        first[number - 1] = run->refused[number].first;
        all += run->refused[number].times;
    }
    fields[REFUSAL] = Int32GetDatum(run->opening);
    fields[ACCEPTED] = Int64GetDatum(run->accepted);
    fields[REFUSED] = Int64GetDatum(all);
    fields[NOT_UNDERSTOOD] = Int64GetDatum(run->not_understood.times);
    fields[NOT_UNDERSTOOD_FIRST] = Int64GetDatum(run->not_understood.first);
    fields[REFUSED_TIMES] = bigints(times, REFUSALS);
    fields[REFUSED_FIRST] = bigints(first, REFUSALS);
    nulls[REFUSAL] = false;
    for (int field = ACCEPTED; field <= REFUSED_FIRST; field++)
        nulls[field] = false;
}

/* what an opened book has besides */
static void
fill_book(const rerun *run, Datum *fields, bool *nulls)
{
    const mkb_book *book = &run->book;
    mkb_line line = mkb_currency(book->currency);
    partners found = partners_of(run);
    Datum weights[MKB_PARTNERS];
    for (int place = 0; place < book->count; place++)
        weights[place] = Int32GetDatum((int32_t) book->weights[place]);
    fields[CURRENCY] = PointerGetDatum(cstring_to_text_with_len((const char *) line.code, sizeof line.code));
    fields[WEIGHTS] = PointerGetDatum(construct_array(weights, book->count, INT4OID, sizeof(int32), true, TYPALIGN_INT));
    fields[POSTED] = numeric_at(run->posted, run->digits);
    fields[REFUNDED] = numeric_at(run->refunded, run->digits);
    fields[NET] = numeric_at(book->net, run->digits);
    fields[PAID] = numerics_at(run->paid, book->count, run->digits);
    fields[TAKEN] = numerics_at(run->taken, book->count, run->digits);
    fields[TOTALS] = numerics_at(found.totals, book->count, run->digits);
    fields[LEAST] = numerics_at(found.least, book->count, run->digits);
    fields[MOST] = numerics_at(found.most, book->count, run->digits);
    fields[CHECK_OK] = BoolGetDatum(found.ok);
    for (int field = REFUSAL; field < FIELDS; field++)
        nulls[field] = false;
}

/* Null where there was no row. To serve the calls that wait changes nothing of what the rows so far come to, so that more may follow. */
static Datum
report(FunctionCallInfo fcinfo, bool raise)
{
    Datum fields[FIELDS] = {0};
    bool nulls[FIELDS];
    rerun *run;
    if (!AggCheckCallContext(fcinfo, NULL))
        ereport(ERROR, (errcode(ERRCODE_FEATURE_NOT_SUPPORTED), errmsg("this function is part of the aggregate mkb_book")));
    if (PG_ARGISNULL(0))
        PG_RETURN_NULL();
    run = (rerun *) PG_GETARG_POINTER(0);
    if (raise && run->opening != MKB_ACCEPTED)
        raise_refusal(run->opening, 0, run->opening == MKB_WEIGHTS ? run->contract.weights.flaw : NULL);
    serve(run);
    memset(nulls, true, sizeof nulls);
    fill_counts(run, fields, nulls);
    if (run->opening == MKB_ACCEPTED)
        fill_book(run, fields, nulls);
    return row_of(fcinfo, fields, nulls);
}

SQL_FUNCTION(sql_book_report);
Datum
sql_book_report(PG_FUNCTION_ARGS)
{
    return report(fcinfo, true);
}

SQL_FUNCTION(try_book_report);
Datum
try_book_report(PG_FUNCTION_ARGS)
{
    return report(fcinfo, false);
}
