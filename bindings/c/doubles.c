/* Rows of doubles and exports through the C face. */
#include "told.h"
#include <math.h>

static void row_is(const char *name, mkb_row_answer r, int32_t scale, int64_t net, int64_t tax)
{
    tell(!r.refusal && !r.blamed && same_amount(r.net, money(EUR, scale, net)) && same_amount(r.tax, money(EUR, scale, tax)), name);
}

static void row_refused(const char *name, mkb_row_answer r, int number)
{
    tell(r.refusal == number && !r.blamed && same_amount(r.net, money(0, 0, 0)) && same_amount(r.tax, money(0, 0, 0)), name);
}

static void double_is(const char *name, mkb_double r, int number, double value)
{
    tell(r.refusal == number && !r.blamed && !memcmp(&r.value, &value, sizeof value), name);
}

void doubles(void)
{
    const double many = (double)MKB_L, least = 4.9406564584124654e-324;
    row_is("2.675 HALF_UP", mkb_row((mkb_columns){2.675, -2.675}, EUR, 2, MKB_HALF_UP), 2, 267, -267);
    row_is("0.125 HALF_EVEN", mkb_row((mkb_columns){0.125, 0.375}, EUR, 2, MKB_HALF_EVEN), 2, 12, 38);
    row_is("both zeros", mkb_row((mkb_columns){0.0, -0.0}, EUR, 3, MKB_UP), 3, 0, 0);
    row_is("the least double UP and its opposite", mkb_row((mkb_columns){least, -least}, EUR, 0, MKB_UP), 0, 1, -1);
    row_is("the least double FLOOR and its opposite", mkb_row((mkb_columns){least, -least}, EUR, 3, MKB_FLOOR), 3, 0, -1);
    row_is("L and a half above it, DOWN", mkb_row((mkb_columns){many, -(many + 0.5)}, EUR, 0, MKB_DOWN), 0, MKB_L, -MKB_L);
    row_refused("a half above L, UP", mkb_row((mkb_columns){many, many + 0.5}, EUR, 0, MKB_UP), MKB_LIMIT);
    row_refused("1e300", mkb_row((mkb_columns){0, 1e300}, EUR, 0, MKB_DOWN), MKB_LIMIT);
    row_refused("no number beside 1e300", mkb_row((mkb_columns){NAN, 1e300}, EUR, 0, MKB_DOWN), MKB_LIMIT);
    row_refused("no number", mkb_row((mkb_columns){1, NAN}, EUR, 2, MKB_UP), MKB_NO_NUMBER);
    row_refused("minus infinity", mkb_row((mkb_columns){-INFINITY, 1}, EUR, 2, MKB_UP), MKB_NO_NUMBER);
    row_refused("mode 7", mkb_row((mkb_columns){NAN, 1e300}, 21, 4, 7), MKB_MODE);
    row_refused("scale 4", mkb_row((mkb_columns){NAN, 1e300}, 21, 4, MKB_UP), MKB_SCALE);
    row_refused("scale -1", mkb_row((mkb_columns){1, 1}, EUR, -1, MKB_UP), MKB_SCALE);
    row_refused("scale 258", mkb_row((mkb_columns){1, 1}, EUR, 258, MKB_UP), MKB_SCALE);
    row_refused("currency 21", mkb_row((mkb_columns){NAN, 1e300}, 21, 3, MKB_UP), MKB_UNKNOWN);
    double_is("export of 2.67", mkb_export(money(EUR, 2, 267)), 0, 2.67);
    double_is("export of -0.001", mkb_export(money(EUR, 3, -1)), 0, -0.001);
    double_is("export of L", mkb_export(money(EUR, 0, MKB_L)), 0, many);
    double_is("export of 0", mkb_export(money(EUR, 1, 0)), 0, 0.0);
    double_is("export at scale 4", mkb_export(money(21, 4, MKB_L + 1)), MKB_SCALE, 0.0);
    double_is("export over L", mkb_export(money(21, 3, -MKB_L - 1)), MKB_MAGNITUDE, 0.0);
    double_is("export of currency 21", mkb_export(money(21, 3, 1)), MKB_UNKNOWN, 0.0);
}
