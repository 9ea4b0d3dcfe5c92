/* Document 02's statements with a reason through the C face: written, read by the readers of either version, and refused by the old ones. */
#include "told.h"

/* place 2, euro, -12.50, reason 7 */
static const uint8_t one[48] = {0x02, 0, 0, 0, 0, 0, 0, 0, 0x1E, 0xFB, 0xFF, 0xFF, 0xFF, 0xFF, 0xFF, 0xFF, 0x07, 0, 0, 0, 0, 0, 0, 0,
                                0x18, 0, 0, 0, 0x01, 0, 0, 0, 0x1E, 0xFB, 0xFF, 0xFF, 0xFF, 0xFF, 0xFF, 0xFF, 0x02, 0, 0, 0, 0, 0, 0, 0};

static uint16_t places[4001], codes[4001];
static int64_t coefficients[4001];
static uint8_t out[96100];

static int is_ended(mkb_any_step s, uint64_t next) { return s.ended && !s.place && !s.currency && !s.reason && !s.coefficient && s.next == next; }

/* a run into a buffer of `room` bytes whose every byte held a5: its number and its end; nothing else changes, and nothing where it is refused */
static void written(const char *name, int64_t currency, size_t count, size_t reasons_given, size_t others, size_t room, int64_t start, int number, uint64_t end)
{
    memset(out, 0xa5, sizeof out);
    mkb_end r = mkb_write_reasons(currency, places, count, codes, reasons_given, coefficients, others, out, room, start);
    int ok = r.refusal == number && !r.blamed && r.end == end;
    for (size_t i = 0; i < sizeof out; i++)
        if (number || i < (size_t)start || i >= end)
            ok = ok && out[i] == 0xa5;
    tell(ok, name);
}

static void checked(const char *name, const uint8_t *bytes, size_t count, int number, uint16_t version, uint64_t first, uint64_t records, int64_t sum)
{
    mkb_any_statement r = mkb_check_any(bytes, count);
    tell(r.refusal == number && !r.blamed && r.version == version && r.first == first && r.count == records && r.sum == sum, name);
}

/* a file of a version: each record with its reason, or 0, their sum, and the end twice; the old readers take version 1 alone, with the same records */
static void walked(const char *name, int version, int64_t currency, size_t count, int64_t start)
{
    mkb_end end = version == 2 ? mkb_write_reasons(currency, places, count, codes, count, coefficients, count, out, sizeof out, start)
                               : mkb_write_statement(currency, places, count, coefficients, count, out, sizeof out, start);
    mkb_any_statement said = mkb_check_any(out, end.end);
    mkb_any_view view;
    mkb_view old;
    uint64_t width = version == 2 ? 24 : 16;
    int64_t sum = 0;
    int ok = mkb_open_view(&old, out, end.end) == (version == 2 ? MKB_NEWER : 0);
    ok = !mkb_open_any_view(&view, out, end.end) && ok && !end.refusal && view.version == version && view.next == said.first && said.first == (uint64_t)start;
    for (size_t i = 0; i < count; i++) {
        mkb_any_step s = mkb_next_reasoned(&view);
        mkb_step o = mkb_next_payout(&old);
        ok = ok && !s.ended && s.place == places[i] && s.currency == currency && s.coefficient == coefficients[i] &&
             s.reason == (version == 2 ? codes[i] : 0) && s.next == said.first + width * (i + 1) && view.next == s.next;
        ok = ok && (version == 2 ? o.ended : !o.ended && o.place == s.place && o.currency == s.currency && o.coefficient == s.coefficient && o.next == s.next);
        sum += s.coefficient;
    }
    tell(ok && sum == said.sum && said.count == count, name);
    for (int again = 0; again < 2; again++)
        tell(is_ended(mkb_next_reasoned(&view), end.end - 24) && view.next == end.end - 24, "then ended, and so on");
    tell(mkb_check_statement(out, end.end).refusal == (version == 2 ? MKB_NEWER : 0), "the old reader");
}

/* the one case with one bit changed is no statement, but for another place or reason within its limits, and another currency; the old reader gives no
 * amount of it */
static void one_bit_off(void)
{
    uint8_t bytes[48];
    for (size_t i = 0; i < 8 * sizeof one; i++) {
        memcpy(bytes, one, sizeof one);
        bytes[i / 8] ^= (uint8_t)(1 << i % 8);
        int seen = !(i < 4 || (i >= 16 && i < 21 && bytes[2] <= 20) || (i >= 128 && i < 135 && bytes[16] <= 99));
        checked("one bit off", bytes, sizeof bytes, seen ? MKB_MALFORMED : 0, seen ? 0 : 2, 0, !seen, seen ? 0 : -1250);
        tell(mkb_check_statement(bytes, sizeof bytes).refusal != 0, "never an amount");
    }
}

static void refusals(void)
{
    places[0] = 2, codes[0] = 7, coefficients[0] = -1250;
    written("the one case", EUR, 1, 1, 1, 64, 0, 0, 48);
    tell(!memcmp(out, one, sizeof one), "the one case's bytes");
    written("from byte 7 on", EUR, 1, 1, 1, 55, 7, 0, 55);
    checked("read behind others", out, 55, 0, 2, 7, 1, -1250);
    written("an empty statement", HRK, 0, 0, 0, 24, 0, 0, 24);
    checked("read", out, 24, 0, 2, 0, 0, 0);
    codes[0] = 99;
    written("code 99", EUR, 1, 1, 1, 64, 0, 0, 48);
    checked("read", out, 48, 0, 2, 0, 1, -1250);
    out[16] = 100;
    checked("code 100 read", out, 48, MKB_MALFORMED, 0, 0, 0, 0);
    codes[0] = 100;
    written("code 100", EUR, 1, 1, 1, 64, 0, MKB_WEIGHTS, 0);
    written("code 100, in currency 21", 21, 1, 1, 1, 0, 0, MKB_UNKNOWN, 0);
    codes[0] = 65535;
    written("code 65535", EUR, 1, 1, 1, 0, 0, MKB_WEIGHTS, 0);
    codes[0] = 7, places[0] = 16;
    written("place 16", EUR, 1, 1, 1, 0, 0, MKB_WEIGHTS, 0);
    places[0] = 2;
    written("fewer reasons", EUR, 1, 0, 1, 64, 0, MKB_WEIGHTS, 0);
    written("more reasons", EUR, 1, 2, 1, 0, 0, MKB_WEIGHTS, 0);
    written("more coefficients", EUR, 1, 1, 2, 0, 0, MKB_WEIGHTS, 0);
    coefficients[0] = MKB_L + 1;
    written("over L", 21, 1, 2, 1, 0, 0, MKB_MAGNITUDE, 0);
    coefficients[0] = -1250;
    written("a byte too few", EUR, 1, 1, 1, 47, 0, MKB_ROOM, 0);
    written("a start of -1", EUR, 1, 1, 1, 64, -1, MKB_ROOM, 0);
    written("4,001 records", EUR, 4001, 4001, 4001, sizeof out, 0, MKB_ROOM, 0);
    for (size_t count = 0; count < sizeof one; count++)
        checked("a part of it", one, count, MKB_MALFORMED, 0, 0, 0, 0);
}

/* the versions that the walk takes: any other has no records */
static void versions(void)
{
    static const int64_t none[] = {0, 3, -1, 65535, 65537, 65538, (INT64_C(1) << 32) + 1, INT64_MIN, INT64_MAX};
    tell(!mkb_reasoned_at(one, sizeof one, 1, 0).ended && mkb_reasoned_at(one, sizeof one, 1, 0).next == 16, "version 1 at a place");
    tell(mkb_reasoned_at(one, sizeof one, 2, 0).reason == 7 && mkb_reasoned_at(one, sizeof one, 2, 0).next == 24, "version 2 at a place");
    for (size_t i = 0; i < sizeof none / sizeof *none; i++)
        tell(is_ended(mkb_reasoned_at(one, sizeof one, none[i], 0), 0), "no such version");
    for (int64_t at = 1; at < 60; at++)
        tell(is_ended(mkb_reasoned_at(one, sizeof one, 2, at), (uint64_t)at), "no record there");
    tell(is_ended(mkb_reasoned_at(one, sizeof one, 2, -1), UINT64_MAX), "a place below 0");
    tell(is_ended(mkb_reasoned_at(one, sizeof one, 2, INT64_MAX), INT64_MAX), "the largest place");
    mkb_any_view view;
    tell(mkb_open_any_view(&view, one, 47) == MKB_MALFORMED && is_ended(mkb_next_reasoned(&view), 47), "no view");
}

void reasons(void)
{
    for (int i = 0; i < 4001; i++) {
        places[i] = (uint16_t)(i % 16);
        codes[i] = (uint16_t)(i % 100);
        coefficients[i] = i % 3 ? -MKB_L + i : MKB_L - 7 * i;
    }
    for (int version = 1; version <= 2; version++) {
        walked("no records", version, HRK, 0, 0);
        walked("no records behind others", version, EUR, 0, 7);
        walked("one record", version, DEM, 1, 0);
        walked("three records behind others", version, EUR, 3, 11);
        walked("4,000 records", version, HRK, 4000, 76);
    }
    refusals();
    one_bit_off();
    versions();
}
