/* Runs document 01's cases ("Two sides of each line") through the C face, and compares every field of every answer.
 * Prints how many cases passed; the exit status is not 0 where one differs. */
#include "told.h"
#include <limits.h>

int passed, failed;

/* the mode table: each column is n / 10 */
static void modes(void)
{
    static const int64_t quintillion = INT64_C(1000000000000000000);
    static const int64_t tenths[10] = {55, 25, 16, 11, 10, -10, -11, -16, -25, -55};
    static const int64_t table[7][10] = {
        {6, 3, 2, 2, 1, -1, -2, -2, -3, -6}, {5, 2, 1, 1, 1, -1, -1, -1, -2, -5}, {6, 3, 2, 2, 1, -1, -1, -1, -2, -5},
        {5, 2, 1, 1, 1, -1, -2, -2, -3, -6}, {6, 3, 2, 1, 1, -1, -1, -2, -3, -6}, {5, 2, 2, 1, 1, -1, -1, -2, -2, -5},
        {6, 2, 2, 1, 1, -1, -1, -2, -2, -6}};
    for (uint8_t mode = 0; mode < 7; mode++)
        for (int i = 0; i < 10; i++)
            whole_is("the mode table", mkb_round(mode, tenths[i], 1, 10), 0, table[mode][i]);
    whole_is("-5/2 HALF_EVEN", mkb_round(MKB_HALF_EVEN, -5, 1, 2), 0, -2);
    whole_is("-5/2 FLOOR", mkb_round(MKB_FLOOR, -5, 1, 2), 0, -3);
    whole_is("divisor 0", mkb_round(MKB_FLOOR, -5, 1, 0), MKB_RATE, 0);
    whole_is("numerator 10^18", mkb_round(MKB_UP, INT64_C(1000000000000000000), 1, 1), 0, INT64_C(1000000000000000000));
    whole_is("numerator over 10^18", mkb_round(MKB_UP, INT64_C(1000000000000000001), 1, 0), MKB_MAGNITUDE, 0);
    whole_is("the least numerator", mkb_round(MKB_UP, INT64_MIN, 1, 1), MKB_MAGNITUDE, 0);
    whole_is("mode 7", mkb_round(7, INT64_MAX, 1, 0), MKB_MODE, 0);
    whole_is("10^18 x 10^18 / 10^18", mkb_round(MKB_UP, quintillion, -quintillion, quintillion), 0, -quintillion);
    whole_is("10^18 x 10^18 / (10^18 - 1)", mkb_round(MKB_UP, quintillion, quintillion, quintillion - 1), MKB_LIMIT, 0);
    whole_is("10^18 and a half, to the even", mkb_round(MKB_HALF_EVEN, INT64_C(666666666666666667), 3, 2), 0, quintillion);
    whole_is("10^18 and a half, up", mkb_round(MKB_HALF_UP, INT64_C(666666666666666667), 3, 2), MKB_LIMIT, 0);
    whole_is("-3 x -5 / 6", mkb_round(MKB_HALF_EVEN, -3, -5, 6), 0, 2);
    whole_is("second factor over 10^18", mkb_round(MKB_UP, 1, -quintillion - 1, 0), MKB_MAGNITUDE, 0);
}

static void amounts(void)
{
    mkb_order_answer o = mkb_order(money(EUR, 1, 15), money(EUR, 2, 150));
    tell(!o.refusal && !o.blamed && o.order == 0, "1.5 and 1.50 are equal");
    o = mkb_order(money(EUR, 1, -15), money(EUR, 2, -149));
    tell(!o.refusal && !o.blamed && o.order == -1, "-1.5 is less than -1.49");
    o = mkb_order(money(EUR, 0, 2), money(EUR, 2, 150));
    tell(!o.refusal && !o.blamed && o.order == 1, "2 is more than 1.50");
    o = mkb_order(money(EUR, 1, 15), money(DEM, 1, 15));
    tell(o.refusal == MKB_DIFFER && !o.blamed && o.order == 0, "no order of EUR and DEM");
    amount_is("1.5 and 0.25", mkb_sum(money(EUR, 1, 15), money(EUR, 2, 25)), money(EUR, 2, 175));
    amount_refused("L and 0.01", mkb_sum(money(EUR, 2, MKB_L), money(EUR, 2, 1)), MKB_LIMIT, 0);
    amount_is("coefficient L", mkb_negate(money(EUR, 2, MKB_L)), money(EUR, 2, -MKB_L));
    amount_refused("coefficient L + 1", mkb_negate(money(EUR, 2, MKB_L + 1)), MKB_MAGNITUDE, 0);
    amount_refused("scale 7", mkb_negate(money(EUR, 7, 1)), MKB_SCALE, 0);
    amount_refused("currency 21", mkb_negate(money(21, 2, 1)), MKB_UNKNOWN, 0);
    amount_is("1.25 to one decimal", mkb_rescale(money(EUR, 2, 125), 1, MKB_HALF_EVEN), money(EUR, 1, 12));
    amount_is("1.2 to three decimals", mkb_rescale(money(EUR, 1, 12), 3, MKB_UP), money(EUR, 3, 1200));
    amount_refused("mode 7 with a bad currency", mkb_rescale(money(21, 2, 1), 1, 7), MKB_MODE, 0);
}

static void euro(void)
{
    amount_is("100.00 DEM to EUR", mkb_convert(money(DEM, 2, 10000), EUR), money(EUR, 2, 5113));
    amount_is("100.00 DEM to FRF", mkb_convert(money(DEM, 2, 10000), FRF), money(FRF, 2, 33538));
    amount_is("1,000,000.00 DEM", mkb_convert(money(DEM, 2, 100000000), EUR), money(EUR, 2, 51129188));
    amount_is("1,000,000 ITL", mkb_convert(money(ITL, 0, 1000000), EUR), money(EUR, 2, 51646));
    amount_is("0.02 EUR to IEP", mkb_convert(money(EUR, 2, 2), IEP), money(IEP, 2, 2));
    amount_is("and back", mkb_convert(money(IEP, 2, 2), EUR), money(EUR, 2, 3));
    amount_is("DEM to DEM", mkb_convert(money(DEM, 2, -7), DEM), money(DEM, 2, -7));
    amount_refused("not DEM's digits", mkb_convert(money(DEM, 3, 7), EUR), MKB_SCALE, 0);
    amount_refused("to currency 21", mkb_convert(money(DEM, 2, 7), 21), MKB_UNKNOWN, 0);
    amount_refused("the euro step over L", mkb_convert(money(IEP, 2, MKB_L), DEM), MKB_LIMIT, 0);
    amount_is("100.00 DEM to FRF by 3 decimals", mkb_convert_by(money(DEM, 2, 10000), FRF, 3), money(FRF, 2, 33538));
    amount_is("100.00 DEM to FRF by 4 decimals", mkb_convert_by(money(DEM, 2, 10000), FRF, 4), money(FRF, 2, 33539));
    amount_is("100.00 DEM to FRF by 6 decimals", mkb_convert_by(money(DEM, 2, 10000), FRF, 6), money(FRF, 2, 33539));
    amount_refused("by 2 decimals", mkb_convert_by(money(DEM, 2, 10000), FRF, 2), MKB_SCALE, 0);
    amount_refused("by 7 decimals, where no step is made", mkb_convert_by(money(DEM, 2, 10000), DEM, 7), MKB_SCALE, 0);
    amount_refused("a step of 6 decimals over L", mkb_convert_by(money(DEM, 2, INT64_C(1000000000000)), FRF, 6), MKB_LIMIT, 0);
}

static void interest(void)
{
    mkb_amount thousand = money(EUR, 2, 100000);
    days_are("basis 0", mkb_day_count(MKB_ACTUAL_360, feb, mar), 0, 0, 31);
    days_are("basis 1", mkb_day_count(MKB_ACTUAL_365, feb, mar), 0, 0, 31);
    days_are("basis 2", mkb_day_count(MKB_THIRTY_360_AMERICAN, feb, mar), 0, 0, 33);
    days_are("basis 3", mkb_day_count(MKB_THIRTY_360_EUROPEAN, feb, mar), 0, 0, 32);
    days_are("equal dates", mkb_day_count(MKB_THIRTY_360_AMERICAN, mar, mar), 0, 0, 0);
    days_are("basis 4", mkb_day_count(4, none, none), MKB_RATE, 0, 0);
    days_are("the first date", mkb_day_count(0, none, none), MKB_DATE, 1, 0);
    days_are("the second date", mkb_day_count(0, feb, none), MKB_DATE, 2, 0);
    days_are("the end before the start", mkb_day_count(0, mar, feb), MKB_DAYS, 0, 0);
    amount_is("basis 0", mkb_interest(thousand, 500, 0, feb, mar, MKB_HALF_UP), money(EUR, 2, 431));
    amount_is("basis 1", mkb_interest(thousand, 500, 1, feb, mar, MKB_HALF_UP), money(EUR, 2, 425));
    amount_is("basis 2", mkb_interest(thousand, 500, 2, feb, mar, MKB_HALF_UP), money(EUR, 2, 458));
    amount_is("basis 3", mkb_interest(thousand, 500, 3, feb, mar, MKB_HALF_UP), money(EUR, 2, 444));
    amount_refused("29 February 1900", mkb_interest(thousand, 500, 0, none, mar, MKB_HALF_UP), MKB_DATE, 1);
    amount_refused("as the end", mkb_interest(thousand, 500, 0, feb, none, MKB_HALF_UP), MKB_DATE, 2);
    amount_refused("rate 10,001", mkb_interest(thousand, 10001, 0, none, mar, MKB_HALF_UP), MKB_RATE, 0);
    tell(mkb_date_exists((mkb_date){2000, 2, 29}) && !mkb_date_exists(none), "29 February 2000 and 1900");
}

/* a table into a lent list of `room` places whose every place held 777 */
static void table_is(const char *name, mkb_amount principal, int64_t rate, int64_t periods, size_t room, int number, const int64_t *balances)
{
    int64_t out[123];
    for (int i = 0; i < 123; i++)
        out[i] = 777;
    int ok = mkb_compound(principal, rate, periods, out, room) == number;
    for (int64_t i = 0; i < 123; i++)
        ok = ok && out[i] == (number || i > periods ? 777 : balances[i]);
    tell(ok, name);
}

static void tables(void)
{
    int64_t doubled = MKB_L / 2, level[121];
    for (int i = 0; i < 121; i++)
        level[i] = MKB_L;
    table_is("100.00 at 5 % for three periods", money(EUR, 2, 10000), 500, 3, 123, 0, (int64_t[]){10000, 10500, 11025, 11576});
    table_is("as many places as rows", money(EUR, 2, 10000), 500, 3, 4, 0, (int64_t[]){10000, 10500, 11025, 11576});
    table_is("halves to the even", money(EUR, 2, 3), 5000, 2, 123, 0, (int64_t[]){3, 5, 7});
    table_is("0 periods", money(EUR, 2, 10000), 500, 0, 1, 0, (int64_t[]){10000});
    table_is("rate 0", money(EUR, 2, 10000), 0, 2, 123, 0, (int64_t[]){10000, 10000, 10000});
    table_is("L at rate 0 for 120 periods", money(EUR, 2, MKB_L), 0, 120, 121, 0, level);
    table_is("within L", money(EUR, 2, doubled), 10000, 1, 123, 0, (int64_t[]){doubled, 2 * doubled});
    table_is("the last row over L", money(EUR, 2, doubled), 10000, 2, 123, MKB_LIMIT, 0);
    table_is("121 periods", money(EUR, 2, -1), 0, 121, 0, MKB_RATE, 0);
    table_is("-1 periods", money(EUR, 2, 1), 0, -1, 123, MKB_RATE, 0);
    table_is("2^32 periods", money(EUR, 2, 1), 0, INT64_C(1) << 32, 123, MKB_RATE, 0);
    table_is("rate 10,001", money(EUR, 2, -1), 10001, 0, 0, MKB_RATE, 0);
    table_is("rate -1", money(EUR, 2, 1), -1, 1, 123, MKB_RATE, 0);
    table_is("a negative principal", money(EUR, 2, -1), 500, 3, 0, MKB_NEGATIVE, 0);
    table_is("three places for four rows", money(EUR, 2, MKB_L), 500, 3, 3, MKB_ROOM, 0);
    table_is("a principal over L", money(EUR, 2, INT64_MIN), 10001, 121, 0, MKB_MAGNITUDE, 0);
    table_is("a principal of scale 7", money(EUR, 7, 1), 0, 1, 123, MKB_SCALE, 0);
    table_is("a principal in currency 21", money(21, 2, 1), 0, 1, 123, MKB_UNKNOWN, 0);
}

static void split_is(const char *name, mkb_split r, int64_t net, int64_t tax, int64_t gross)
{
    tell(!r.refusal && !r.blamed && same_amount(r.net, money(EUR, 2, net)) && same_amount(r.tax, money(EUR, 2, tax)) &&
             same_amount(r.gross, money(EUR, 2, gross)),
         name);
}

static void tax(void)
{
    split_is("gross 1.00", mkb_tax_from_gross(money(EUR, 2, 100), 200000, MKB_HALF_UP), 83, 17, 100);
    split_is("gross 0.03", mkb_tax_from_gross(money(EUR, 2, 3), 200000, MKB_HALF_UP), 2, 1, 3);
    split_is("net 0.02", mkb_tax_from_net(money(EUR, 2, 2), 200000, MKB_HALF_UP), 2, 0, 2);
    split_refused("rate 1,000,001", mkb_tax_from_net(money(EUR, 2, 2), 1000001, MKB_HALF_UP), MKB_RATE);
    split_refused("gross over L", mkb_tax_from_net(money(EUR, 2, MKB_L), 1000000, MKB_HALF_UP), MKB_LIMIT);
    split_refused("mode 7", mkb_tax_from_gross(money(21, 9, 2), 1000001, 7), MKB_MODE);
    split_is("the net for 0.04", mkb_net_for(money(EUR, 2, 4), 200000, MKB_HALF_UP), 3, 1, 4);
    split_is("the net for -0.04", mkb_net_for(money(EUR, 2, -4), 200000, MKB_HALF_UP), -3, -1, -4);
    split_refused("no net has 0.03", mkb_net_for(money(EUR, 2, 3), 200000, MKB_HALF_UP), MKB_NO_NET);
    split_is("the net for L at rate 0", mkb_net_for(money(EUR, 2, MKB_L), 0, MKB_HALF_UP), MKB_L, 0, MKB_L);
    split_refused("a gross over L", mkb_net_for(money(EUR, 2, MKB_L + 1), 1000001, MKB_HALF_UP), MKB_MAGNITUDE);
    split_refused("the net at rate 1,000,001", mkb_net_for(money(EUR, 2, 3), 1000001, MKB_HALF_UP), MKB_RATE);
    split_refused("the net at rate -1", mkb_net_for(money(EUR, 2, 3), -1, MKB_HALF_UP), MKB_RATE);
    split_refused("the net by mode 7", mkb_net_for(money(21, 9, 2), 1000001, 7), MKB_MODE);
}

/* a sharing into a lent output of `room` places whose every place held 777 */
static void share_is(const char *name, mkb_amount a, const uint32_t *weights, size_t count, size_t room, int number, const int64_t *shares)
{
    int64_t out[66];
    for (int i = 0; i < 66; i++)
        out[i] = 777;
    int ok = mkb_share(a, weights, count, out, room) == number;
    for (size_t i = 0; i < 66; i++)
        ok = ok && out[i] == (number || i >= count ? 777 : shares[i]);
    tell(ok, name);
}

static void shares(void)
{
    static const uint32_t thirds[] = {1, 1, 1}, sevenths[] = {3, 3, 1}, last[] = {0, 1, 1, 1}, none[65] = {0}, over[] = {1000000, 1};
    share_is("100 by 1, 1, 1", money(EUR, 2, 100), thirds, 3, 66, 0, (int64_t[]){34, 33, 33});
    share_is("100 by 3, 3, 1", money(EUR, 2, 100), sevenths, 3, 3, 0, (int64_t[]){43, 43, 14});
    share_is("10 by 0, 1, 1, 1", money(EUR, 2, 10), last, 4, 5, 0, (int64_t[]){0, 4, 3, 3});
    share_is("-100 by 3, 3, 1", money(EUR, 2, -100), sevenths, 3, 66, 0, (int64_t[]){-43, -43, -14});
    share_is("two places for three", money(EUR, 2, 100), thirds, 3, 2, MKB_ROOM, 0);
    share_is("no weights", money(EUR, 2, 100), thirds, 0, 66, MKB_WEIGHTS, 0);
    share_is("sixty-five weights", money(EUR, 2, 100), none, 65, 66, MKB_WEIGHTS, 0);
    share_is("a sum of 0", money(EUR, 2, 100), none, 3, 66, MKB_WEIGHTS, 0);
    share_is("a sum of 1,000,001", money(EUR, 2, 100), over, 2, 66, MKB_WEIGHTS, 0);
    share_is("L + 1", money(EUR, 2, MKB_L + 1), thirds, 3, 66, MKB_MAGNITUDE, 0);
}

/* so many vouchers into a lent output of `room` places whose every place held 777 */
static void vouchers_are(const char *name, int64_t vouchers, const uint32_t *weights, size_t count, size_t room, int number, const uint32_t *held)
{
    uint32_t out[66];
    for (int i = 0; i < 66; i++)
        out[i] = 777;
    int ok = mkb_vouchers(vouchers, weights, count, out, room) == number;
    for (size_t i = 0; i < 66; i++)
        ok = ok && out[i] == (number || i >= count ? 777 : held[i]);
    tell(ok, name);
}

static void vouchers(void)
{
    static const uint32_t four[] = {100000, 80000, 30000, 20000}, equal[] = {1, 1, 1}, last[] = {0, 1}, none[65] = {0}, over[] = {1000000, 1};
    vouchers_are("8 over four weights", 8, four, 4, 66, 0, (uint32_t[]){4, 3, 1, 0});
    vouchers_are("as many places as weights", 8, four, 4, 4, 0, (uint32_t[]){4, 3, 1, 0});
    vouchers_are("a tie goes to the lower place", 4, equal, 3, 66, 0, (uint32_t[]){2, 1, 1});
    vouchers_are("nothing for the weight 0", 10000, last, 2, 66, 0, (uint32_t[]){0, 10000});
    vouchers_are("no vouchers", 0, four, 4, 66, 0, (uint32_t[]){0, 0, 0, 0});
    vouchers_are("10,001 vouchers", 10001, none, 0, 0, MKB_RATE, 0);
    vouchers_are("-1 voucher", -1, four, 4, 66, MKB_RATE, 0);
    vouchers_are("2^32 vouchers", INT64_C(1) << 32, four, 4, 66, MKB_RATE, 0);
    vouchers_are("three places for four", 8, four, 4, 3, MKB_ROOM, 0);
    vouchers_are("no weights", 8, four, 0, 66, MKB_WEIGHTS, 0);
    vouchers_are("sixty-five weights", 8, none, 65, 66, MKB_WEIGHTS, 0);
    vouchers_are("a sum of 0", 8, none, 3, 2, MKB_WEIGHTS, 0);
    vouchers_are("a sum of 1,000,001", 8, over, 2, 66, MKB_WEIGHTS, 0);
}

static const uint32_t weights[3] = {5, 3, 2};

static mkb_book book(int64_t net) { return (mkb_book){.currency = EUR, .count = 3, .weights = {5, 3, 2}, .net = net, .card = 1}; }

/* a call is accepted: the next book, and the payouts of the three places, noughts behind them */
static void moved_to(const char *name, mkb_moved r, int64_t net, const uint64_t *three)
{
    mkb_book next = book(net);
    int ok = !r.refusal && !r.blamed && same_book(&r.book, &next);
    for (int i = 0; i < MKB_PARTNERS; i++)
        ok = ok && r.payouts[i] == (i < 3 ? three[i] : 0);
    tell(ok, name);
}

static void opening(void)
{
    mkb_book empty = book(0), noughts = {.net = 0};
    mkb_opened r = mkb_open(EUR, weights, 3);
    tell(!r.refusal && !r.blamed && same_book(&r.book, &empty), "a book of 5, 3, 2");
    r = mkb_open(EUR, (uint32_t[]){9999, 1}, 2);
    tell(!r.refusal && r.book.count == 2 && r.book.weights[0] == 9999, "a sum of 10,000");
    r = mkb_open(EUR, (uint32_t[]){10000, 1}, 2);
    tell(r.refusal == MKB_WEIGHTS && !r.blamed && same_book(&r.book, &noughts), "a sum of 10,001");
    r = mkb_open(21, weights, 0);
    tell(r.refusal == MKB_UNKNOWN && !r.blamed && same_book(&r.book, &noughts), "a book in currency 21");
    not_moved("posting to the book of noughts", mkb_post(noughts, money(EUR, 2, 1)), MKB_WEIGHTS, noughts);
}

static void history(void)
{
    static const int places[10] = {0, 1, 0, 2, 0, 1, 0, 1, 0, 2};
    for (int t = 0; t < 10; t++) {
        uint64_t one[3] = {0};
        one[places[t]] = 1;
        moved_to("units 1 to 10", mkb_post(book(t), money(EUR, 2, 1)), t + 1, one);
    }
    mkb_book b = mkb_open(EUR, weights, 3).book;
    mkb_moved r = mkb_post(b, money(EUR, 2, 7));
    moved_to("post 7", r, 7, (uint64_t[]){4, 2, 1});
    r = mkb_post(r.book, money(EUR, 2, 5));
    moved_to("post 5", r, 12, (uint64_t[]){2, 2, 1});
    r = mkb_refund(r.book, money(EUR, 2, 3));
    moved_to("refund 3", r, 9, (uint64_t[]){1, 1, 1});
    mkb_totals t = mkb_running_totals(r.book);
    int ok = !t.refusal && !t.blamed && t.totals[0] == 5 && t.totals[1] == 3 && t.totals[2] == 1;
    for (int i = 3; i < MKB_PARTNERS; i++)
        ok = ok && !t.totals[i];
    tell(ok, "totals 5, 3, 1");
    not_moved("a refund of 10", mkb_refund(r.book, money(EUR, 2, 10)), MKB_REFUND, book(9));
}

static void refusals(void)
{
    mkb_book odd = {.currency = INT_MIN, .count = INT_MAX, .net = INT64_MIN};
    for (uint32_t i = 0; i < MKB_PARTNERS; i++)
        odd.weights[i] = UINT32_MAX - i;
    not_moved("any values at all", mkb_refund(odd, money(201, 3, 5)), MKB_MAGNITUDE, odd);
    not_moved("N = L and 1", mkb_post(book(MKB_L), money(EUR, 2, 1)), MKB_LIMIT, book(MKB_L));
    not_moved("a posting of -1", mkb_post(book(5), money(EUR, 2, -1)), MKB_NEGATIVE, book(5));
    not_moved("in DEM", mkb_post(book(5), money(DEM, 2, 1)), MKB_DIFFER, book(5));
    not_moved("at three decimals", mkb_post(book(5), money(EUR, 3, 1)), MKB_SCALE, book(5));
    moved_to("zero", mkb_post(book(5), money(EUR, 2, 0)), 5, (uint64_t[]){0, 0, 0});
    mkb_totals t = mkb_running_totals(odd);
    int ok = t.refusal == MKB_MAGNITUDE && !t.blamed;
    for (int i = 0; i < MKB_PARTNERS; i++)
        ok = ok && !t.totals[i];
    tell(ok, "no totals of any values");
}

/* the book of 5, 3, 2 at N = 9 on a new card by 1, 1, 1 */
static void cards(void)
{
    static const uint32_t thirds[3] = {1, 1, 1};
    mkb_book next = {.currency = EUR, .count = 3, .weights = {1, 1, 1}, .net = 0, .card = 2, .settled = {5, 3, 1}};
    mkb_moved r = mkb_new_card(book(9), thirds, 3);
    int ok = !r.refusal && !r.blamed && same_book(&r.book, &next);
    for (int i = 0; i < MKB_PARTNERS; i++)
        ok = ok && !r.payouts[i];
    tell(ok, "a new card");
    not_moved("another count", mkb_new_card(book(9), thirds, 2), MKB_WEIGHTS, book(9));
    not_moved("new weights of 0", mkb_new_card(book(9), (uint32_t[]){0, 0, 0}, 3), MKB_WEIGHTS, book(9));
    not_moved("new weights of 10,001", mkb_new_card(book(9), (uint32_t[]){10000, 1, 0}, 3), MKB_WEIGHTS, book(9));
    next.card = 999;
    r = mkb_new_card(next, weights, 3);
    tell(!r.refusal && r.book.card == 1000, "card 1,000");
    next.card = 1000;
    not_moved("card 1,001", mkb_new_card(next, weights, 3), MKB_WEIGHTS, next);
    not_moved("a refund behind the card's opening", mkb_refund(next, money(EUR, 2, 1)), MKB_REFUND, next);
    next.net = MKB_L - 10;
    r = mkb_post(next, money(EUR, 2, 1));
    tell(!r.refusal && r.book.net == MKB_L - 9 && r.book.card == 1000 && r.book.settled[0] == 5, "settled totals and N up to L");
    not_moved("settled totals and N past L", mkb_post(next, money(EUR, 2, 2)), MKB_LIMIT, next);
    r = mkb_new_card(r.book, weights, 3);
    tell(r.refusal == MKB_WEIGHTS && r.book.net == MKB_L - 9, "a full book on its last card");
    next.card = 7;
    r = mkb_new_card(next, weights, 3);
    ok = !r.refusal && !r.book.net && r.book.settled[0] + r.book.settled[1] + r.book.settled[2] == MKB_L - 1;
    tell(ok, "a card keeps the sum");
}

/* the history in one run, with a refused call in it and one behind it; the places past the run stay */
static void runs(void)
{
    static const bool refunds[5] = {false, false, true, true, false};
    static const int64_t coefficients[5] = {7, 5, 3, 10, MKB_L};
    static const uint64_t paid[5][3] = {{4, 2, 1}, {2, 2, 1}, {1, 1, 1}, {0, 0, 0}, {0, 0, 0}};
    static const uint8_t said[6] = {0, 0, 0, MKB_REFUND, MKB_LIMIT, 77};
    uint64_t payouts[6 * MKB_PARTNERS], stood[6 * MKB_PARTNERS];
    uint8_t numbers[6];
    memset(stood, 77, sizeof stood);
    memcpy(payouts, stood, sizeof payouts);
    memset(numbers, 77, sizeof numbers);
    mkb_book given = book(0), last = book(9);
    mkb_ran r = mkb_run(given, refunds, 5, coefficients, 4, payouts, 5 * MKB_PARTNERS, numbers, 5);
    tell(r.refusal == MKB_WEIGHTS && !r.served && same_book(&r.book, &given) && !memcmp(payouts, stood, sizeof stood) && numbers[0] == 77, "unequal lists");
    r = mkb_run(given, refunds, 5, coefficients, 5, payouts, 5 * MKB_PARTNERS - 1, numbers, 5);
    tell(r.refusal == MKB_ROOM && !r.served && same_book(&r.book, &given) && !memcmp(payouts, stood, sizeof stood) && numbers[0] == 77, "one place short");
    r = mkb_run(given, refunds, 5, coefficients, 5, payouts, 6 * MKB_PARTNERS, numbers, 6);
    tell(!r.refusal && !r.blamed && r.served == 5 && same_book(&r.book, &last) && !memcmp(numbers, said, sizeof said), "a run of five");
    for (int call = 0; call < 5; call++) {
        uint64_t places[MKB_PARTNERS] = {paid[call][0], paid[call][1], paid[call][2]};
        tell(!memcmp(payouts + call * MKB_PARTNERS, places, sizeof places), "a call's payouts");
    }
    tell(!memcmp(payouts + 5 * MKB_PARTNERS, stood, MKB_PARTNERS * sizeof *stood), "the places past the run");
}

int main(void)
{
    tell(mkb_version() == MKB_VERSION, "the header and the library are of one version");
    modes();
    amounts();
    euro();
    interest();
    tables();
    tax();
    doubles();
    shares();
    vouchers();
    opening();
    history();
    refusals();
    cards();
    limits();
    statements();
    texts();
    views();
    reasons();
    runs();
    if (failed) {
        printf("c face: %d cases passed, %d failed\n", passed, failed);
        return 1;
    }
    printf("c face: %d cases passed\n", passed);
    return 0;
}
