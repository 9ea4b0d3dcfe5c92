/* Texts, rows of doubles and statement files, by the library and by plain C that makes the same checks. */
#include "papers.h"
#include "inputs.h"
#include "rows.h"
#include <string.h>

typedef struct {
    uint8_t bytes[MKB_TEXT];
    size_t length;
} text;

typedef struct {
    mkb_columns row;
    uint8_t scale, mode;
} sheet_row;

static mkb_amount amounts[TEXTS];
static text texts[TEXTS];
static sheet_row sheet[TEXTS];
static uint16_t places[RECORDS];
static int64_t payouts[RECORDS];
static uint8_t files[2][16 * RECORDS + 24];

static const uint64_t ten[7] = {1, 10, 100, 1000, 10000, 100000, 1000000};

/* at most 20 characters: an optional minus, digits without a 0 in front, and optionally a point with 1 to 6 digits */
static int plain_read(const uint8_t *s, size_t length, uint8_t *scale, int64_t *coefficient)
{
    size_t i = 0, digits = 0, places_read = 0;
    uint64_t m = 0;
    int negative = length > 0 && s[0] == '-', over = 0;
    if (length > 20)
        return 14;
    i = (size_t)negative;
    size_t first = i;
    for (; i < length && s[i] >= '0' && s[i] <= '9'; i++, digits++) {
        m = m * 10 + (uint64_t)(s[i] - '0');
        if (m > PLAIN_L)
            over = 1, m = PLAIN_L;
    }
    if (digits == 0 || (digits > 1 && s[first] == '0'))
        return 14;
    if (i < length) {
        if (s[i++] != '.')
            return 14;
        for (; i < length && s[i] >= '0' && s[i] <= '9'; i++, places_read++) {
            m = m * 10 + (uint64_t)(s[i] - '0');
            if (m > PLAIN_L)
                over = 1, m = PLAIN_L;
        }
        if (i < length || places_read == 0 || places_read > 6)
            return 14;
    }
    if (negative && m == 0 && !over)
        return 14;
    if (over)
        return 13;
    *scale = (uint8_t)places_read;
    *coefficient = negative ? -(int64_t)m : (int64_t)m;
    return 0;
}

static size_t plain_write(mkb_amount a, uint8_t *out, size_t room)
{
    uint8_t digits[24];
    uint64_t m = a.coefficient < 0 ? (uint64_t)-a.coefficient : (uint64_t)a.coefficient;
    size_t n = 0, length;
    if (a.scale > 6 || m > PLAIN_L || a.currency > 20)
        return 0;
    while (m > 0 || n <= (size_t)a.scale) {
        digits[n++] = (uint8_t)('0' + m % 10);
        m /= 10;
    }
    length = n + (a.scale > 0) + (a.coefficient < 0);
    if (room < length)
        return 0;
    if (a.coefficient < 0)
        *out++ = '-';
    while (n > 0) {
        *out++ = digits[--n];
        if (n == (size_t)a.scale && n > 0)
            *out++ = '.';
    }
    return length;
}

static int rises(uint8_t mode, int negative, uint64_t q, int rest)
{
    switch (mode) {
    case 0: return rest > 0;
    case 1: return 0;
    case 2: return rest > 0 && !negative;
    case 3: return rest > 0 && negative;
    case 4: return rest > 1;
    case 5: return rest > 2;
    default: return (q & 1) ? rest > 1 : rest > 2;
    }
}

/* a double's coefficient at a scale, by its bits */
static int64_t plain_column(double x, uint8_t scale, uint8_t mode, int *refusal)
{
    uint64_t bits, m, n, q = 0;
    int rest = 0;
    memcpy(&bits, &x, sizeof bits);
    int field = (int)(bits >> 52 & 2047), negative = (int)(bits >> 63);
    if (field == 2047) {
        *refusal = 16;
        return 0;
    }
    m = bits & ((UINT64_C(1) << 52) - 1);
    if (field)
        m |= UINT64_C(1) << 52;
    else
        field = 1;
    int shift = 1075 - field;
    n = m * ten[scale];
    if (shift <= 0) {
        *refusal = 13;
        return 0;
    }
    if (shift < 64) {
        uint64_t low = n & ((UINT64_C(1) << shift) - 1), half = UINT64_C(1) << (shift - 1);
        q = n >> shift;
        rest = low == 0 ? 0 : low < half ? 1 : low == half ? 2 : 3;
    } else {
        rest = n > 0;
    }
    q += (uint64_t)rises(mode, negative, q, rest);
    *refusal = q > PLAIN_L ? 13 : 0;
    return *refusal ? 0 : negative ? -(int64_t)q : (int64_t)q;
}

static int plain_row(const sheet_row *r, int64_t *net, int64_t *tax)
{
    int a, b;
    *net = plain_column(r->row.net, r->scale, r->mode, &a);
    *tax = plain_column(r->row.tax, r->scale, r->mode, &b);
    return a == 13 || b == 13 ? 13 : a ? a : b;
}

static void put(uint8_t *out, uint64_t n, int bytes)
{
    for (int i = 0; i < bytes; i++)
        out[i] = (uint8_t)(n >> 8 * i);
}

static uint64_t got(const uint8_t *in, int bytes)
{
    uint64_t n = 0;
    for (int i = 0; i < bytes; i++)
        n |= (uint64_t)in[i] << 8 * i;
    return n;
}

static size_t plain_statement(uint16_t currency, const uint16_t *where, const int64_t *what, size_t count, uint8_t *out, size_t room)
{
    int64_t sum = 0;
    for (size_t i = 0; i < count; i++)
        if (what[i] > (int64_t)PLAIN_L || what[i] < -(int64_t)PLAIN_L || where[i] > 15)
            return 0;
    if (count > RECORDS || room < 16 * count + 24)
        return 0;
    for (size_t i = 0; i < count; i++, out += 16) {
        put(out, where[i], 2), put(out + 2, currency, 2), put(out + 4, 0, 4), put(out + 8, (uint64_t)what[i], 8);
        sum += what[i];
    }
    put(out, 16 * count, 4), put(out + 4, count, 4), put(out + 8, (uint64_t)sum, 8), put(out + 16, 1, 2), put(out + 18, 0, 6);
    return 16 * count + 24;
}

static int plain_check(const uint8_t *bytes, size_t length, int64_t *sum)
{
    if (length < 24)
        return 14;
    const uint8_t *trailer = bytes + length - 24;
    uint64_t count = got(trailer + 4, 4);
    if (got(trailer + 16, 2) != 1 || got(trailer + 18, 6) || count > RECORDS || got(trailer, 4) != 16 * count || 16 * count + 24 > length)
        return 14;
    const uint8_t *at = trailer - 16 * count;
    uint64_t currency = count ? got(at + 2, 2) : 0;
    *sum = 0;
    for (uint64_t i = 0; i < count; i++, at += 16) {
        int64_t n = (int64_t)got(at + 8, 8);
        if (got(at, 2) > 15 || got(at + 2, 2) != currency || currency > 20 || got(at + 4, 4) || n > (int64_t)PLAIN_L || n < -(int64_t)PLAIN_L)
            return 14;
        *sum += n;
    }
    return (uint64_t)*sum == got(trailer + 8, 8) ? 0 : 14;
}

/* amounts at every scale, and doubles that are near them */
void draw_papers(void)
{
    for (int i = 0; i < TEXTS; i++) {
        int64_t n = loans[i % AMOUNTS].principal.coefficient;
        amounts[i] = (mkb_amount){.currency = 0, .scale = i % 7, .coefficient = n};
        texts[i].length = plain_write(amounts[i], texts[i].bytes, MKB_TEXT);
        sheet[i].row = (mkb_columns){.net = (double)n / 1e6, .tax = (double)(n / 7) / 1e7};
        sheet[i].scale = (uint8_t)(i % 4), sheet[i].mode = pairs[i].mode;
    }
    for (int i = 0; i < RECORDS; i++)
        places[i] = (uint16_t)(i % 16), payouts[i] = coefficients[i];
}

void read_ours(void)
{
    for (int i = 0; i < TEXTS; i++)
        sink += (uint64_t)mkb_read(0, texts[i].bytes, texts[i].length).amount.coefficient;
}

void read_plain(void)
{
    for (int i = 0; i < TEXTS; i++) {
        uint8_t scale;
        int64_t n = 0;
        sink += (uint64_t)plain_read(texts[i].bytes, texts[i].length, &scale, &n) + (uint64_t)n;
    }
}

int read_agrees(void)
{
    int ok = 1;
    for (int i = 0; i < TEXTS; i++) {
        uint8_t scale = 0;
        int64_t n = 0;
        mkb_amount_answer r = mkb_read(0, texts[i].bytes, texts[i].length);
        ok &= plain_read(texts[i].bytes, texts[i].length, &scale, &n) == r.refusal && r.amount.coefficient == n && r.amount.scale == scale && n == amounts[i].coefficient;
    }
    return ok;
}

void write_ours(void)
{
    uint8_t out[MKB_TEXT];
    for (int i = 0; i < TEXTS; i++)
        sink += mkb_write(amounts[i], out, sizeof out).length + out[0];
}

void write_plain(void)
{
    uint8_t out[MKB_TEXT];
    for (int i = 0; i < TEXTS; i++)
        sink += plain_write(amounts[i], out, sizeof out) + out[0];
}

int write_agrees(void)
{
    int ok = 1;
    for (int i = 0; i < TEXTS; i++) {
        uint8_t out[MKB_TEXT];
        mkb_written r = mkb_write(amounts[i], out, sizeof out);
        ok &= !r.refusal && r.length == texts[i].length && !memcmp(out, texts[i].bytes, texts[i].length);
    }
    return ok;
}

void rows_ours(void)
{
    for (int i = 0; i < TEXTS; i++) {
        mkb_row_answer r = mkb_row(sheet[i].row, 0, sheet[i].scale, sheet[i].mode);
        sink += (uint64_t)r.net.coefficient + (uint64_t)r.tax.coefficient;
    }
}

void rows_plain(void)
{
    for (int i = 0; i < TEXTS; i++) {
        int64_t net, tax;
        sink += (uint64_t)plain_row(&sheet[i], &net, &tax) + (uint64_t)net + (uint64_t)tax;
    }
}

int rows_agree(void)
{
    int ok = 1;
    for (int i = 0; i < TEXTS; i++) {
        int64_t net, tax;
        mkb_row_answer r = mkb_row(sheet[i].row, 0, sheet[i].scale, sheet[i].mode);
        ok &= plain_row(&sheet[i], &net, &tax) == r.refusal && (r.refusal || (r.net.coefficient == net && r.tax.coefficient == tax));
    }
    return ok;
}

void statement_ours(void) { sink += mkb_write_statement(0, places, RECORDS, payouts, RECORDS, files[0], sizeof files[0], 0).end; }

void statement_plain(void) { sink += plain_statement(0, places, payouts, RECORDS, files[1], sizeof files[1]); }

int statement_agrees(void)
{
    mkb_end r = mkb_write_statement(0, places, RECORDS, payouts, RECORDS, files[0], sizeof files[0], 0);
    return !r.refusal && r.end == plain_statement(0, places, payouts, RECORDS, files[1], sizeof files[1]) && !memcmp(files[0], files[1], sizeof files[0]);
}

void check_ours(void) { sink += (uint64_t)mkb_check_statement(files[0], sizeof files[0]).sum; }

void check_plain(void)
{
    int64_t sum = 0;
    sink += (uint64_t)plain_check(files[1], sizeof files[1], &sum) + (uint64_t)sum;
}

int check_agrees(void)
{
    int64_t sum = 0;
    mkb_statement r = mkb_check_statement(files[0], sizeof files[0]);
    return !r.refusal && !plain_check(files[1], sizeof files[1], &sum) && r.sum == sum && r.count == RECORDS && r.first == 0;
}

/* a statement that was opened is walked from its first record to its end */
void view_ours(void)
{
    mkb_view view = {.bytes = files[0], .length = sizeof files[0], .next = 0};
    for (mkb_step s = mkb_next_payout(&view); !s.ended; s = mkb_next_payout(&view))
        sink += (uint64_t)s.coefficient + s.place + s.currency;
}

void view_plain(void)
{
    plain_view view = {.bytes = files[1], .length = sizeof files[1], .next = 0};
    plain_payout p;
    while (plain_next_payout(&view, &p))
        sink += (uint64_t)p.coefficient + p.place + p.currency;
}

int view_agrees(void)
{
    mkb_view view;
    plain_view plain = {.bytes = files[1], .length = sizeof files[1], .next = 0};
    int ok = !mkb_open_view(&view, files[0], sizeof files[0]) && view.next == 0;
    for (int i = 0; i <= RECORDS; i++) {
        plain_payout p = {0, 0, 0};
        bool more = plain_next_payout(&plain, &p);
        mkb_step s = mkb_next_payout(&view);
        ok &= more == !s.ended && more == (i < RECORDS) && s.place == p.place && s.currency == p.currency && s.coefficient == p.coefficient;
    }
    return ok;
}
