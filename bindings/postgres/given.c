/* Arguments: numbers by saturation, names, dates and lists. */
#include "given.h"

#include "catalog/pg_type.h"
#include "utils/builtins.h"
#include "utils/datetime.h"
#include "utils/lsyscache.h"
#include "utils/numeric.h"

/* a decimal number as its digits say it: all of them, those before the point, whether those behind it are noughts, and how many of these there
   are; `none` where it has no digits at all */
typedef struct {
    int64_t all, before;
    bool whole, none;
    int32_t behind;
} decimal;

/* a magnitude with one digit more, or the largest that there is */
static uint64_t
with_digit(uint64_t magnitude, char digit)
{
    uint64_t longer;
    if (__builtin_mul_overflow(magnitude, (uint64_t) 10, &longer) || __builtin_add_overflow(longer, (uint64_t) (digit - '0'), &longer))
        return UINT64_MAX;
    return longer;
}

static int64_t
with_sign(bool negative, uint64_t magnitude)
{
    if (magnitude > INT64_MAX)
        return negative ? INT64_MIN : INT64_MAX;
    return negative ? -(int64_t) magnitude : (int64_t) magnitude;
}

/* NaN is greater than every number, as PostgreSQL orders it */
static decimal
decimal_given(Datum numeric)
{
    const char *text = DatumGetCString(DirectFunctionCall1(numeric_out, numeric));
    bool negative = *text == '-', behind = false;
    uint64_t all = 0, before = 0;
    decimal found = {.whole = true};
    text += negative;
    if (*text < '0' || *text > '9')
        return (decimal) {.all = with_sign(negative, UINT64_MAX), .before = with_sign(negative, UINT64_MAX), .whole = true, .none = true};
    for (; *text != '\0'; text++) {
        if (*text == '.') {
            behind = true;
            continue;
        }
        all = with_digit(all, *text);
        if (!behind)
            before = with_digit(before, *text);
        found.whole &= !behind || *text == '0';
        found.behind += behind;
    }
    found.all = with_sign(negative, all);
    found.before = with_sign(negative, before);
    return found;
}

mkb_amount
amount_given(Datum numeric, int32_t currency)
{
    decimal found = decimal_given(numeric);
    int32_t scale = found.none ? mkb_currency(currency).digits : found.behind;
    return (mkb_amount) {.currency = currency, .scale = scale, .coefficient = found.all};
}

int64_t
whole_given(Datum numeric)
{
    decimal found = decimal_given(numeric);
    return found.whole ? found.before : INT64_MAX;
}

bool
is_word(const text *given, const char *word)
{
    return VARSIZE_ANY_EXHDR(given) == strlen(word) && memcmp(VARDATA_ANY(given), word, strlen(word)) == 0;
}

int32_t
currency_given(Datum code)
{
    const text *given = DatumGetTextPP(code);
    return mkb_currency_of((const uint8_t *) VARDATA_ANY(given), VARSIZE_ANY_EXHDR(given));
}

/* the place of a name in a list, and their number where it isn't there */
static int64_t
place_of(Datum name, const char *const *names, int64_t count)
{
    const text *given = DatumGetTextPP(name);
    int64_t place = 0;
    while (place < count && !is_word(given, names[place]))
        place++;
    return place;
}

int64_t
mode_given(Datum name)
{
    static const char *const names[] = {"UP", "DOWN", "CEILING", "FLOOR", "HALF_UP", "HALF_DOWN", "HALF_EVEN"};
    return place_of(name, names, lengthof(names));
}

int64_t
basis_given(Datum name)
{
    static const char *const names[] = {"ACTUAL_360", "ACTUAL_365", "THIRTY_360_AMERICAN", "THIRTY_360_EUROPEAN"};
    return place_of(name, names, lengthof(names));
}

mkb_date
date_given(DateADT date)
{
    int year, month, day;
    if (DATE_NOT_FINITE(date))
        return (mkb_date) {.year = INT32_MAX, .month = 1, .day = 1};
    j2date(date + POSTGRES_EPOCH_JDATE, &year, &month, &day);
    return (mkb_date) {.year = year, .month = month, .day = day};
}

given_list
list_given(ArrayType *array, const char *name)
{
    given_list list = {0};
    int16 length;
    bool by_value;
    char alignment;
    if (ARR_NDIM(array) > 1) {
        list.flaw = psprintf("%s has %d dimensions", name, ARR_NDIM(array));
        return list;
    }
    get_typlenbyvalalign(ARR_ELEMTYPE(array), &length, &by_value, &alignment);
    deconstruct_array(array, ARR_ELEMTYPE(array), length, by_value, alignment, &list.values, &list.nulls, &list.count);
    for (int place = 0; place < list.count && list.flaw == NULL; place++)
        if (list.nulls[place])
            list.flaw = psprintf("%s[%d] is null", name, place + 1);
    return list;
}

/* a weight as 32 bits hold it */
static uint32_t
weight_of(Oid type, Datum value)
{
    int64_t weight = type == INT4OID ? DatumGetInt32(value) : whole_given(value);
    return weight < 0 || weight > UINT32_MAX ? UINT32_MAX : (uint32_t) weight;
}

void
weights_given(ArrayType *array, given_weights *weights)
{
    given_list list;
    memset(weights, 0, sizeof *weights);
    if (ARR_NDIM(array) == 1 && ARR_DIMS(array)[0] > MOST_WEIGHTS) {
        weights->count = MOST_WEIGHTS + 1;
        return;
    }
    list = list_given(array, "weights");
    weights->flaw = list.flaw;
    weights->count = list.count;
    for (int place = 0; place < list.count; place++)
        weights->places[place] = list.nulls[place] ? UINT32_MAX : weight_of(ARR_ELEMTYPE(array), list.values[place]);
}

mkb_book
book_given(int32_t currency, const given_weights *weights, int64_t net)
{
    mkb_book book = {.currency = currency, .count = (int32_t) weights->count, .net = net, .card = 1};
    memcpy(book.weights, weights->places, sizeof book.weights);
    return book;
}

bool
at_other_digits(mkb_amount amount)
{
    return mkb_convert(amount, amount.currency).refusal == MKB_SCALE;
}
