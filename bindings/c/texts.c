/* Amounts as text through the C face: document 02's words for Ask 1, each from both sides, and currencies by their codes. */
#include "told.h"

static mkb_amount_answer text(int64_t currency, const char *bytes) { return mkb_read(currency, (const uint8_t *)bytes, strlen(bytes)); }

/* what is read is written again, into the front of a buffer whose other places stay; one place fewer is refusal 11 */
static void there_and_back(const char *bytes, int32_t scale, int64_t coefficient)
{
    uint8_t out[MKB_TEXT + 4], stood[MKB_TEXT + 4];
    size_t length = strlen(bytes);
    memset(stood, '_', sizeof stood);
    memcpy(out, stood, sizeof out);
    amount_is(bytes, text(DEM, bytes), money(DEM, scale, coefficient));
    mkb_written r = mkb_write(money(DEM, scale, coefficient), out, length - 1);
    tell(r.refusal == MKB_ROOM && !r.blamed && !r.length && !memcmp(out, stood, sizeof stood), bytes);
    r = mkb_write(money(DEM, scale, coefficient), out, sizeof out);
    tell(!r.refusal && !r.blamed && r.length == length && !memcmp(out, bytes, length) && !memcmp(out + length, stood, sizeof stood - length), bytes);
    memcpy(out, stood, sizeof out);
    r = mkb_write(money(DEM, scale, coefficient), out, length);
    tell(!r.refusal && r.length == length && !memcmp(out, bytes, length), bytes);
}

static void accepted(void)
{
    there_and_back("-12.50", 2, -1250);
    there_and_back("0", 0, 0);
    there_and_back("0.000000", 6, 0);
    there_and_back("-0.000001", 6, -1);
    there_and_back("7", 0, 7);
    there_and_back("10.0", 1, 100);
    there_and_back("100000", 0, 100000);
    there_and_back("-0.05", 2, -5);
    char bytes[64];
    for (int scale = 0; scale <= 6; scale++) {
        int64_t power = 1;
        for (int i = 0; i < scale; i++)
            power *= 10;
        if (scale)
            snprintf(bytes, sizeof bytes, "-%lld.%0*lld", (long long)(MKB_L / power), scale, (long long)(MKB_L % power));
        else
            snprintf(bytes, sizeof bytes, "-%lld", (long long)MKB_L);
        there_and_back(bytes, scale, -MKB_L);
    }
}

static void refused(void)
{
    static const char *const others[] = {"", "-", "--1", "+1", "01", "00", "00.5", "-01", "-0", "-0.0", "1.", ".5", "-.5", "1.0000000", "1.2.3", "1..2", " 1", "1 ", "1,5",
        "1e3", "0x1", "/", ":", "1/", "1:", "1.-5", "12a", "999999999999999999999", "1.2345678901234567890", "\xd9\xa1"};
    for (size_t i = 0; i < sizeof others / sizeof *others; i++)
        amount_refused(others[i], text(EUR, others[i]), MKB_MALFORMED, 0);
    amount_refused("a byte 0 behind it", mkb_read(EUR, (const uint8_t *)"1", 2), MKB_MALFORMED, 0);
    static const char *const large[] = {"99999999999999999999", "18446744073709551616", "18446744073709551617", "-9999999999999999999", "9223372036854775808", "999999999999.999999"};
    for (size_t i = 0; i < sizeof large / sizeof *large; i++)
        amount_refused(large[i], text(EUR, large[i]), MKB_LIMIT, 0);
    char bytes[MKB_TEXT + 1];
    snprintf(bytes, sizeof bytes, "%lld", (long long)MKB_L + 1);
    amount_refused("L + 1", text(EUR, bytes), MKB_LIMIT, 0);
    amount_refused("currency 21 before the text", text(21, "x"), MKB_UNKNOWN, 0);
    amount_refused("currency 256", text(256, "1"), MKB_UNKNOWN, 0);
    amount_refused("currency -1", text(-1, "1"), MKB_UNKNOWN, 0);
    static const struct {
        int number;
        mkb_amount a;
    } amounts[] = {{MKB_SCALE, {21, 7, MKB_L + 1}}, {MKB_SCALE, {EUR, -1, 1}}, {MKB_MAGNITUDE, {21, 2, MKB_L + 1}}, {MKB_MAGNITUDE, {EUR, 2, INT64_MIN}},
        {MKB_UNKNOWN, {21, 2, 1}}, {MKB_UNKNOWN, {-1, 2, 1}}};
    for (size_t i = 0; i < sizeof amounts / sizeof *amounts; i++) {
        uint8_t out[MKB_TEXT] = {77};
        mkb_written r = mkb_write(amounts[i].a, out, i % 2 ? sizeof out : 0);
        tell(r.refusal == amounts[i].number && !r.blamed && !r.length && out[0] == 77, "an amount that is not written");
    }
}

static void codes(void)
{
    for (int number = 0; number <= 20; number++)
        tell(mkb_currency_of(mkb_currency(number).code, 3) == number, "a currency by its code");
    static const char *const none[] = {"", "E", "EU", "EURO", "eur", "XXX", "UER", "EUS", "DEL"};
    for (size_t i = 0; i < sizeof none / sizeof *none; i++)
        tell(mkb_currency_of((const uint8_t *)none[i], strlen(none[i])) == 255, none[i]);
    tell(mkb_currency_of(mkb_currency(21).code, 3) == 255, "the line of no currency");
}

void texts(void)
{
    accepted();
    refused();
    codes();
}
