/* Document 02's statement files through the C face: its one case whole, and each limit from both sides. */
#include "told.h"

/* place 2, euro, -12.50 */
static const uint8_t one[40] = {0x02, 0, 0, 0, 0, 0, 0, 0, 0x1E, 0xFB, 0xFF, 0xFF, 0xFF, 0xFF, 0xFF, 0xFF, 0x10, 0, 0, 0,
                                0x01, 0, 0, 0, 0x1E, 0xFB, 0xFF, 0xFF, 0xFF, 0xFF, 0xFF, 0xFF, 0x01, 0, 0, 0, 0, 0, 0, 0};

static uint8_t out[64100];

/* a run into a buffer of `room` bytes whose every byte held a5: its number and its end; nothing else changes, and nothing where it is refused */
static void written(const char *name, int64_t currency, const uint16_t *places, size_t count, const int64_t *coefficients, size_t others, size_t room,
                    int64_t start, int number, uint64_t end)
{
    memset(out, 0xa5, sizeof out);
    mkb_end r = mkb_write_statement(currency, places, count, coefficients, others, out, room, start);
    int ok = r.refusal == number && !r.blamed && r.end == end;
    for (size_t i = 0; i < sizeof out; i++)
        if (number || i < (size_t)start || i >= end)
            ok = ok && out[i] == 0xa5;
    tell(ok, name);
}

static void checked(const char *name, const uint8_t *bytes, size_t count, int number, uint64_t first, uint64_t records, int64_t sum)
{
    mkb_statement r = mkb_check_statement(bytes, count);
    tell(r.refusal == number && !r.blamed && r.first == first && r.count == records && r.sum == sum, name);
}

/* the one case with one byte changed is no statement, wherever the byte stands */
static void one_byte_off(void)
{
    uint8_t bytes[40];
    for (size_t i = 0; i < sizeof one; i++) {
        memcpy(bytes, one, sizeof one);
        bytes[i] ^= 0x80;
        checked("one byte off", bytes, sizeof bytes, MKB_MALFORMED, 0, 0, 0);
    }
}

/* a trailer of version 2 with its six zeros is newer, whatever stands before its version, and nothing else is */
static void newer(void)
{
    uint8_t bytes[24];
    memset(bytes, 0xff, 16);
    for (int version = 0; version < 600; version++)
        for (int zero = 0; zero < 7; zero++) {
            memset(bytes + 16, 0, 8);
            bytes[16] = (uint8_t)version, bytes[17] = (uint8_t)(version >> 8);
            if (zero)
                bytes[17 + zero] = 1;
            int number = version == 2 && !zero ? MKB_NEWER : MKB_MALFORMED;
            checked("a trailer's version", bytes, sizeof bytes, number, 0, 0, 0);
            tell(mkb_first_payout(bytes, sizeof bytes).refusal == number, "a view's version");
        }
    checked("a byte too few to be newer", bytes + 1, 23, MKB_MALFORMED, 0, 0, 0);
}

static void writing(void)
{
    static uint16_t places[4001];
    static int64_t coefficients[4001];
    uint16_t two = 2, far = 16;
    int64_t less = -1250, most = MKB_L, over = MKB_L + 1, least = INT64_MIN;
    written("the one case", EUR, &two, 1, &less, 1, 64, 0, 0, 40);
    tell(!memcmp(out, one, sizeof one), "the one case's bytes");
    written("from byte 7 on", EUR, &two, 1, &less, 1, 47, 7, 0, 47);
    tell(!memcmp(out + 7, one, sizeof one), "the same bytes");
    checked("read behind others", out, 47, 0, 7, 1, -1250);
    written("an empty statement", HRK, places, 0, coefficients, 0, 24, 0, 0, 24);
    checked("read", out, 24, 0, 0, 0, 0);
    written("L", EUR, &two, 1, &most, 1, 64, 0, 0, 40);
    checked("read", out, 40, 0, 0, 1, MKB_L);
    written("over L", 21, &far, 1, &over, 1, 0, -1, MKB_MAGNITUDE, 0);
    written("the least", EUR, &two, 1, &least, 1, 64, 0, MKB_MAGNITUDE, 0);
    written("currency 21", 21, &far, 1, &less, 1, 0, 0, MKB_UNKNOWN, 0);
    written("currency 256", 256, &two, 1, &less, 1, 64, 0, MKB_UNKNOWN, 0);
    written("place 16", EUR, &far, 1, &less, 1, 0, 0, MKB_WEIGHTS, 0);
    written("unequal lists", EUR, &two, 1, coefficients, 2, 0, 0, MKB_WEIGHTS, 0);
    written("a byte too few", EUR, &two, 1, &less, 1, 39, 0, MKB_ROOM, 0);
    written("a start past the end", EUR, &two, 1, &less, 1, 64, 65, MKB_ROOM, 0);
    written("a start of -1", EUR, &two, 1, &less, 1, 64, -1, MKB_ROOM, 0);
    for (int i = 0; i < 4001; i++) {
        places[i] = i % 16;
        coefficients[i] = i % 2 ? -MKB_L : MKB_L;
    }
    written("4,000 records", HRK, places, 4000, coefficients, 4000, sizeof out, 76, 0, 64100);
    checked("read", out, sizeof out, 0, 76, 4000, 0);
    written("4,001 records", HRK, places, 4001, coefficients, 4001, sizeof out, 0, MKB_ROOM, 0);
    for (int i = 0; i < 4000; i++)
        coefficients[i] = -MKB_L;
    written("4,000 times -L", HRK, places, 4000, coefficients, 4000, sizeof out, 0, 0, 64024);
    checked("read", out, 64024, 0, 0, 4000, -4000 * MKB_L);
    checked("a byte behind it", out, 64025, MKB_MALFORMED, 0, 0, 0);
}

void statements(void)
{
    checked("the one case read", one, sizeof one, 0, 0, 1, -1250);
    checked("no bytes", one, 0, MKB_MALFORMED, 0, 0, 0);
    checked("23 bytes", one, 23, MKB_MALFORMED, 0, 0, 0);
    checked("its trailer alone", one + 16, 24, MKB_MALFORMED, 0, 0, 0);
    one_byte_off();
    newer();
    writing();
}
