/* Statement files, as bytea: of version 1, and of version 2, whose records have a reason. */
#include "answers.h"

#include "catalog/pg_type.h"
#include "utils/builtins.h"

/* the bytes of a file's longest record and of its trailer, and the most records of a file */
#define RECORD 24
#define TRAILER 24
#define MOST_RECORDS 4000

/* an array's whole numbers as 16 bits hold them */
typedef struct {
    int count;
    uint16_t *numbers;
    const char *flaw;
} shorts;

static shorts
shorts_given(ArrayType *array, const char *name)
{
    given_list list = list_given(array, name);
    shorts given = {.count = list.count, .numbers = palloc(sizeof(uint16_t) * (list.count + 1)), .flaw = list.flaw};
    for (int at = 0; at < list.count; at++) {
        int32_t number = list.nulls[at] ? UINT16_MAX : DatumGetInt32(list.values[at]);
        given.numbers[at] = number < 0 || number > UINT16_MAX ? UINT16_MAX : (uint16_t) number;
    }
    return given;
}

/* an array's amounts; `other_digits`: one of them is not at the currency's own digits */
typedef struct {
    int count;
    int64_t *coefficients;
    bool other_digits;
    const char *flaw;
} payouts;

static payouts
payouts_given(ArrayType *array, int32_t currency)
{
    given_list list = list_given(array, "amounts");
    payouts given = {.count = list.count, .coefficients = palloc(sizeof(int64_t) * (list.count + 1)), .flaw = list.flaw};
    for (int at = 0; at < list.count; at++) {
        mkb_amount amount = {.coefficient = INT64_MAX};
        if (!list.nulls[at]) {
            amount = amount_given(list.values[at], currency);
            given.other_digits |= at_other_digits(amount);
        }
        given.coefficients[at] = amount.coefficient;
    }
    return given;
}

/* mkb_statement(currency, places, amounts), and with reasons before the amounts: a file from its first byte on. An array of several dimensions is no
   list: it is passed as lists of unequal length. */
static answer
statement_answer(FunctionCallInfo fcinfo)
{
    bool reasoned = PG_NARGS() == 4;
    int32_t currency = currency_given(PG_GETARG_DATUM(0));
    ArrayType *second = PG_GETARG_ARRAYTYPE_P(reasoned ? 2 : 1), *last = PG_GETARG_ARRAYTYPE_P(reasoned ? 3 : 2);
    shorts places = shorts_given(PG_GETARG_ARRAYTYPE_P(1), "places"), reasons = shorts_given(second, reasoned ? "reasons" : "places");
    payouts amounts = payouts_given(last, currency);
    bool several = ARR_NDIM(PG_GETARG_ARRAYTYPE_P(1)) > 1 || ARR_NDIM(second) > 1 || ARR_NDIM(last) > 1;
    size_t room = RECORD * (size_t) Min(places.count, MOST_RECORDS) + TRAILER, count = several ? 0 : places.count, others = several ? 1 : amounts.count;
    bytea *file = palloc(VARHDRSZ + room);
    uint8_t *out = (uint8_t *) VARDATA(file);
    mkb_end found;
    answer told;
    if (amounts.other_digits)
        return one_field(MKB_SCALE, (Datum) 0);
    if (several)
        amounts.coefficients[0] = 0;
    found = reasoned ? mkb_write_reasons(currency, places.numbers, count, reasons.numbers, reasons.count, amounts.coefficients, others, out, room, 0)
                     : mkb_write_statement(currency, places.numbers, count, amounts.coefficients, others, out, room, 0);
    SET_VARSIZE(file, VARHDRSZ + found.end);
    told = one_field(found.refusal, PointerGetDatum(file));
    if (found.refusal == MKB_WEIGHTS)
        told.flaw = places.flaw != NULL ? places.flaw : reasons.flaw != NULL ? reasons.flaw : amounts.flaw;
    if (found.refusal == MKB_MAGNITUDE)
        told.flaw = amounts.flaw;
    return told;
}
CALL(statement)

/* mkb_check_statement(bytes): the file of version 1 that the bytes end in */
static answer
check_statement_answer(FunctionCallInfo fcinfo)
{
    const bytea *bytes = PG_GETARG_BYTEA_PP(0);
    mkb_statement found = mkb_check_statement((const uint8_t *) VARDATA_ANY(bytes), VARSIZE_ANY_EXHDR(bytes));
    answer told = {.refusal = found.refusal, .count = 3};
    told.fields[0] = Int64GetDatum((int64_t) found.first);
    told.fields[1] = Int64GetDatum((int64_t) found.count);
    told.fields[2] = numeric_at(found.sum, 0);
    return told;
}
CALL(check_statement)

/* mkb_check_any(bytes): the file of either version */
static answer
check_any_answer(FunctionCallInfo fcinfo)
{
    const bytea *bytes = PG_GETARG_BYTEA_PP(0);
    mkb_any_statement found = mkb_check_any((const uint8_t *) VARDATA_ANY(bytes), VARSIZE_ANY_EXHDR(bytes));
    answer told = {.refusal = found.refusal, .count = 4};
    told.fields[0] = Int32GetDatum(found.version);
    told.fields[1] = Int64GetDatum((int64_t) found.first);
    told.fields[2] = Int64GetDatum((int64_t) found.count);
    told.fields[3] = numeric_at(found.sum, 0);
    return told;
}
CALL(check_any)

/* the records of a file, by the proved walk of them */
typedef struct {
    int count;
    mkb_line line;
    Datum places[MOST_RECORDS], reasons[MOST_RECORDS];
    int128 coefficients[MOST_RECORDS];
} records;

static void
take(records *all, mkb_any_step step)
{
    all->line = mkb_currency(step.currency);
    all->places[all->count] = Int32GetDatum(step.place);
    all->reasons[all->count] = Int32GetDatum(step.reason);
    all->coefficients[all->count++] = step.coefficient;
}

static Datum
integers(Datum *values, int count)
{
    return PointerGetDatum(construct_array(values, count, INT4OID, sizeof(int32), true, TYPALIGN_INT));
}

/* what the records were written from; a file without any has no currency */
static answer
of_records(records *all, bool reasoned)
{
    answer told = {.count = 0, .absent = all->count == 0};
    told.fields[told.count++] = PointerGetDatum(cstring_to_text_with_len((const char *) all->line.code, told.absent ? 0 : sizeof all->line.code));
    told.fields[told.count++] = integers(all->places, all->count);
    if (reasoned)
        told.fields[told.count++] = integers(all->reasons, all->count);
    told.fields[told.count++] = numerics_at(all->coefficients, all->count, all->line.digits);
    return told;
}

/* mkb_payouts(bytes), of version 1 */
static answer
payouts_answer(FunctionCallInfo fcinfo)
{
    const bytea *bytes = PG_GETARG_BYTEA_PP(0);
    records *all = palloc0(sizeof *all);
    mkb_view view;
    uint8_t refusal = mkb_open_view(&view, (const uint8_t *) VARDATA_ANY(bytes), VARSIZE_ANY_EXHDR(bytes));
    if (refusal != MKB_ACCEPTED)
        return (answer) {.refusal = refusal, .count = 3};
    for (mkb_step step = mkb_next_payout(&view); !step.ended && all->count < MOST_RECORDS; step = mkb_next_payout(&view))
        take(all, (mkb_any_step) {.place = step.place, .currency = step.currency, .coefficient = step.coefficient});
    return of_records(all, false);
}
CALL(payouts)

/* mkb_any_payouts(bytes), of either version; a record of version 1 has the reason 0 */
static answer
any_payouts_answer(FunctionCallInfo fcinfo)
{
    const bytea *bytes = PG_GETARG_BYTEA_PP(0);
    records *all = palloc0(sizeof *all);
    mkb_any_view view;
    uint8_t refusal = mkb_open_any_view(&view, (const uint8_t *) VARDATA_ANY(bytes), VARSIZE_ANY_EXHDR(bytes));
    if (refusal != MKB_ACCEPTED)
        return (answer) {.refusal = refusal, .count = 4};
    for (mkb_any_step step = mkb_next_reasoned(&view); !step.ended && all->count < MOST_RECORDS; step = mkb_next_reasoned(&view))
        take(all, step);
    return of_records(all, true);
}
CALL(any_payouts)
