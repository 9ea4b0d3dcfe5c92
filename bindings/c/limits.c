/* Document 01's table of currencies, numbers past every limit, and books broken in each field through the C face. */
#include "told.h"
#include <limits.h>

/* document 01's table of currencies, letter by letter */
static void table(void)
{
    static const struct {
        const char *code;
        uint64_t figures;
        int places, digits;
    } lines[21] = {
        {"EUR", 100000, 5, 2}, {"BEF", 403399, 4, 0}, {"DEM", 195583, 5, 2}, {"ESP", 166386, 3, 0}, {"FRF", 655957, 5, 2}, {"IEP", 787564, 6, 2},
        {"ITL", 193627, 2, 0}, {"LUF", 403399, 4, 0}, {"NLG", 220371, 5, 2}, {"ATS", 137603, 4, 2}, {"PTE", 200482, 3, 0}, {"FIM", 594573, 5, 2},
        {"GRD", 340750, 3, 0}, {"SIT", 239640, 3, 2}, {"CYP", 585274, 6, 2}, {"MTL", 429300, 6, 2}, {"SKK", 301260, 4, 2}, {"EEK", 156466, 4, 2},
        {"LVL", 702804, 6, 2}, {"LTL", 345280, 5, 2}, {"HRK", 753450, 5, 2}};
    for (int number = 0; number < 21; number++) {
        mkb_line r = mkb_currency(number);
        tell(!memcmp(r.code, lines[number].code, 3) && r.figures == lines[number].figures && r.places == lines[number].places &&
                 r.digits == lines[number].digits,
             lines[number].code);
    }
    static const int none[] = {21, 255, 256, 276, -1, INT_MIN, INT_MAX};
    for (size_t i = 0; i < sizeof none / sizeof *none; i++) {
        mkb_line r = mkb_currency(none[i]);
        tell(!memcmp(r.code, "\0\0\0", 3) && !r.figures && !r.places && !r.digits, "no line of a number that no currency has");
    }
}

/* an `int` past its limit is refused, and not taken for the number that its last bits are */
static void ints(void)
{
    int franc = 260, half_up = 260, two = 258, past = 67559, minus = -1;
    int64_t rate = (INT64_C(1) << 32) + 500;
    mkb_amount dem = money(DEM, 2, 10000);
    amount_refused("to currency 260", mkb_convert(dem, franc), MKB_UNKNOWN, 0);
    amount_refused("to currency -1", mkb_convert(dem, minus), MKB_UNKNOWN, 0);
    amount_refused("to currency 2^32 + 4", mkb_convert(dem, (INT64_C(1) << 32) + FRF), MKB_UNKNOWN, 0);
    amount_refused("of currency 258", mkb_convert(money(two, 2, 10000), EUR), MKB_UNKNOWN, 0);
    amount_refused("of scale 258", mkb_convert(money(DEM, two, 10000), EUR), MKB_SCALE, 0);
    amount_refused("of scale -1", mkb_negate(money(DEM, minus, 10000)), MKB_SCALE, 0);
    amount_refused("to scale 258", mkb_rescale(dem, two, MKB_HALF_UP), MKB_SCALE, 0);
    amount_refused("to scale -1", mkb_rescale(dem, minus, MKB_HALF_UP), MKB_SCALE, 0);
    amount_refused("mode 260", mkb_rescale(dem, 1, half_up), MKB_MODE, 0);
    amount_refused("mode -1", mkb_rescale(dem, 1, minus), MKB_MODE, 0);
    whole_is("mode 262", mkb_round(262, -5, 1, 2), MKB_MODE, 0);
    whole_is("mode -1", mkb_round(minus, -5, 1, 2), MKB_MODE, 0);
    whole_is("mode 2^32", mkb_round(INT64_C(1) << 32, -5, 1, 2), MKB_MODE, 0);
    amount_refused("a step of 259 decimals", mkb_convert_by(dem, FRF, 259), MKB_SCALE, 0);
    amount_refused("a step of -1 decimals", mkb_convert_by(dem, FRF, minus), MKB_SCALE, 0);
    whole_is("divisor -1", mkb_round(MKB_UP, -5, 1, minus), MKB_RATE, 0);
    whole_is("the least divisor", mkb_round(MKB_UP, -5, 1, INT64_MIN), MKB_RATE, 0);
    whole_is("divisor 10^18 + 1", mkb_round(MKB_UP, -5, 1, INT64_C(1000000000000000001)), MKB_RATE, 0);
    amount_refused("a rate of 2^32 + 500", mkb_interest(dem, rate, 0, feb, mar, MKB_HALF_UP), MKB_RATE, 0);
    amount_refused("a rate of -1", mkb_interest(dem, minus, 0, feb, mar, MKB_HALF_UP), MKB_RATE, 0);
    amount_refused("basis 256", mkb_interest(dem, 500, 256, feb, mar, MKB_HALF_UP), MKB_RATE, 0);
    amount_refused("mode 260 of interest", mkb_interest(dem, 500, 0, feb, mar, half_up), MKB_MODE, 0);
    split_refused("a rate of 2^32 + 500 from net", mkb_tax_from_net(dem, rate, MKB_HALF_UP), MKB_RATE);
    split_refused("a rate of -1 from gross", mkb_tax_from_gross(dem, minus, MKB_HALF_UP), MKB_RATE);
    split_refused("mode 260 from gross", mkb_tax_from_gross(dem, 200000, half_up), MKB_MODE);
    days_are("year 67559", mkb_day_count(0, feb, (mkb_date){past, 3, 31}), MKB_DATE, 2, 0);
    days_are("month 258", mkb_day_count(0, (mkb_date){2023, two, 28}, mar), MKB_DATE, 1, 0);
    days_are("day -1", mkb_day_count(0, feb, (mkb_date){2023, 3, minus}), MKB_DATE, 2, 0);
    days_are("basis 258", mkb_day_count(two, feb, mar), MKB_RATE, 0, 0);
    tell(!mkb_date_exists((mkb_date){past, 3, 31}) && !mkb_date_exists((mkb_date){2023, minus, 31}) && !mkb_date_exists((mkb_date){2023, 3, 287}), "no such dates");
    mkb_opened r = mkb_open(256, (uint32_t[]){5, 3, 2}, 3);
    mkb_book noughts = {.net = 0};
    tell(r.refusal == MKB_UNKNOWN && !r.blamed && same_book(&r.book, &noughts), "a book in currency 256");
}

/* a given book that is broken in one field has document 01's number in every call on it, and comes back field for field */
static void broken(void)
{
    static const struct {
        const char *name;
        int number;
        mkb_book book;
    } books[] = {
        {"currency 21", MKB_UNKNOWN, {21, 3, {5, 3, 2}, 9, 1, {0}}},
        {"currency 256", MKB_UNKNOWN, {256, 3, {5, 3, 2}, 9, 1, {0}}},
        {"currency -1", MKB_UNKNOWN, {-1, 3, {5, 3, 2}, 9, 1, {0}}},
        {"count 0", MKB_WEIGHTS, {EUR, 0, {5, 3, 2}, 9, 1, {0}}},
        {"count 17", MKB_WEIGHTS, {EUR, 17, {5, 3, 2}, 9, 1, {0}}},
        {"count 259", MKB_WEIGHTS, {EUR, 259, {5, 3, 2}, 9, 1, {0}}},
        {"count -1", MKB_WEIGHTS, {EUR, -1, {5, 3, 2}, 9, 1, {0}}},
        {"a weight past the count", MKB_WEIGHTS, {EUR, 2, {5, 3, 2}, 9, 1, {0}}},
        {"a weight at the last place", MKB_WEIGHTS, {EUR, 3, {[0] = 5, [15] = 1}, 9, 1, {0}}},
        {"a sum of 0", MKB_WEIGHTS, {EUR, 3, {0}, 9, 1, {0}}},
        {"a sum of 10,001", MKB_WEIGHTS, {EUR, 3, {9998, 2, 1}, 9, 1, {0}}},
        {"a sum past 2^32", MKB_WEIGHTS, {EUR, 3, {UINT32_MAX, 2, 9}, 9, 1, {0}}},
        {"a net total of -1", MKB_NEGATIVE, {EUR, 3, {5, 3, 2}, -1, 1, {0}}},
        {"a net total of L + 1", MKB_MAGNITUDE, {EUR, 3, {5, 3, 2}, MKB_L + 1, 1, {0}}},
        {"a net total of -(L + 1)", MKB_MAGNITUDE, {EUR, 3, {5, 3, 2}, -MKB_L - 1, 1, {0}}},
        {"card 0", MKB_WEIGHTS, {EUR, 3, {5, 3, 2}, 9, 0, {0}}},
        {"card 1,001", MKB_WEIGHTS, {EUR, 3, {5, 3, 2}, 9, 1001, {0}}},
        {"card 65,537", MKB_WEIGHTS, {EUR, 3, {5, 3, 2}, 9, 65537, {0}}},
        {"card -1", MKB_WEIGHTS, {EUR, 3, {5, 3, 2}, 9, -1, {0}}},
        {"a settled total past the count", MKB_WEIGHTS, {EUR, 3, {5, 3, 2}, 9, 1, {[3] = 1}}},
        {"one below 0 at the last place", MKB_WEIGHTS, {EUR, 3, {5, 3, 2}, 9, 1, {[15] = -1}}},
        {"a settled total of -1", MKB_NEGATIVE, {EUR, 3, {5, 3, 2}, 9, 1, {0, -1}}},
        {"a settled total of L + 1", MKB_MAGNITUDE, {EUR, 3, {5, 3, 2}, 9, 1, {0, MKB_L + 1}}},
        {"a settled total of -(L + 1)", MKB_MAGNITUDE, {EUR, 3, {5, 3, 2}, 9, 1, {0, -MKB_L - 1}}},
        {"the least settled totals", MKB_MAGNITUDE, {EUR, 3, {5, 3, 2}, 9, 1, {INT64_MIN, INT64_MIN, INT64_MIN}}},
        {"settled totals and N past L", MKB_MAGNITUDE, {EUR, 3, {5, 3, 2}, 9, 1, {MKB_L - 9, 1}}},
        {"a sum within L by a negative one", MKB_NEGATIVE, {EUR, 3, {5, 3, 2}, 9, 1, {MKB_L, -9}}},
        {"a sum past L beside a negative one", MKB_MAGNITUDE, {EUR, 3, {5, 3, 2}, 9, 1, {MKB_L, -8}}},
    };
    for (size_t i = 0; i < sizeof books / sizeof *books; i++) {
        mkb_book b = books[i].book;
        not_moved(books[i].name, mkb_post(b, money(EUR, 2, 1)), books[i].number, b);
        not_moved(books[i].name, mkb_refund(b, money(EUR, 2, 1)), books[i].number, b);
        not_moved(books[i].name, mkb_new_card(b, (uint32_t[]){1, 1, 1}, 3), books[i].number, b);
        mkb_totals t = mkb_running_totals(b);
        int ok = t.refusal == books[i].number && !t.blamed;
        for (int k = 0; k < MKB_PARTNERS; k++)
            ok = ok && !t.totals[k];
        tell(ok, books[i].name);
        /* a run is refused with the same number, with calls and without, and also where there is too little room */
        for (size_t calls = 0; calls < 2; calls++)
            for (size_t room = 0; room < 2; room++) {
                uint64_t payouts[MKB_PARTNERS] = {77};
                uint8_t number = 77;
                mkb_ran r = mkb_run(b, (bool[]){false}, calls, (int64_t[]){1}, calls, payouts, room * MKB_PARTNERS, &number, room);
                tell(r.refusal == books[i].number && !r.blamed && !r.served && same_book(&r.book, &b) && payouts[0] == 77 && number == 77, books[i].name);
            }
    }
}

void limits(void)
{
    table();
    ints();
    broken();
}
