/* Document 02's view of a statement through the C face: it opens on exactly the files that a check accepts, hands out each record once and in
 * order, and then goes on saying that it has ended; and the walk at any place of any bytes. */
#include "told.h"

static uint16_t places[4000];
static int64_t coefficients[4000];
static uint8_t out[64100];

static int is_ended(mkb_step s, uint64_t next) { return s.ended && !s.place && !s.currency && !s.coefficient && s.next == next; }

/* a statement of so many records behind `start` others: each record, their sum, and the end twice */
static void walked(const char *name, int64_t currency, size_t count, int64_t start)
{
    mkb_end end = mkb_write_statement(currency, places, count, coefficients, count, out, sizeof out, start);
    mkb_statement said = mkb_check_statement(out, end.end);
    mkb_view view;
    int ok = !mkb_open_view(&view, out, end.end) && !end.refusal && view.bytes == out && view.length == end.end && view.next == said.first;
    int64_t sum = 0;
    for (size_t i = 0; i < count; i++) {
        mkb_step s = mkb_next_payout(&view);
        ok = ok && !s.ended && s.place == places[i] && s.currency == currency && s.coefficient == coefficients[i] &&
             s.next == said.first + 16 * (i + 1) && view.next == s.next;
        sum += s.coefficient;
    }
    tell(ok && sum == said.sum, name);
    for (int again = 0; again < 2; again++)
        tell(is_ended(mkb_next_payout(&view), end.end - 24) && view.next == end.end - 24, "then ended, and so on");
}

/* bytes that a check refuses have no view, and one that is opened all the same hands out nothing */
static void no_view(const char *name, const uint8_t *bytes, size_t count)
{
    mkb_first r = mkb_first_payout(bytes, count);
    tell(r.refusal == mkb_check_statement(bytes, count).refusal && r.refusal == MKB_MALFORMED && !r.blamed && !r.first, name);
    mkb_view view;
    tell(mkb_open_view(&view, bytes, count) == MKB_MALFORMED && is_ended(mkb_next_payout(&view), count), name);
}

/* at any place, of bytes that need be no statement: a record where it and a trailer have room, else the end */
static void at_places(void)
{
    uint8_t bytes[64];
    for (size_t i = 0; i < sizeof bytes; i++)
        bytes[i] = (uint8_t)i;
    for (size_t count = 0; count <= sizeof bytes; count++)
        for (int64_t at = 0; at < 70; at++) {
            mkb_step s = mkb_payout_at(bytes, count, at);
            if ((uint64_t)at + 40 > count)
                tell(is_ended(s, (uint64_t)at), "no record there");
            else
                tell(!s.ended && s.place == 256 * (at + 1) + at && s.currency == 256 * (at + 3) + at + 2 &&
                         s.coefficient == INT64_C(0x0706050403020100) + (at + 8) * INT64_C(0x0101010101010101) && s.next == (uint64_t)at + 16,
                     "a record there");
        }
    /* a place below 0 is the largest one, which nothing stands at */
    static const int64_t far[] = {-1, -16, INT64_MIN};
    for (size_t i = 0; i < sizeof far / sizeof *far; i++)
        tell(is_ended(mkb_payout_at(bytes, sizeof bytes, far[i]), UINT64_MAX), "a place below 0");
    tell(is_ended(mkb_payout_at(bytes, sizeof bytes, INT64_MAX), INT64_MAX), "the largest place");
}

void views(void)
{
    for (int i = 0; i < 4000; i++) {
        places[i] = (uint16_t)(i % 16);
        coefficients[i] = i % 3 ? -MKB_L + i : MKB_L - 7 * i;
    }
    walked("no records", HRK, 0, 0);
    walked("no records behind others", EUR, 0, 7);
    walked("one record", DEM, 1, 0);
    walked("three records behind others", EUR, 3, 11);
    walked("4,000 records", HRK, 4000, 76);
    no_view("no bytes", out, 0);
    no_view("23 bytes", out, 23);
    no_view("a byte too few", out, sizeof out - 1);
    out[80] ^= 4;
    no_view("a sum that is wrong", out, sizeof out);
    at_places();
}
