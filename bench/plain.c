#include "plain.h"
#include <string.h>

static const uint64_t limit = UINT64_C(1000000000000000000);

/* a x b / d and its rest, in one machine word where it holds the product; one more than 10^18 where the quotient is over that */
static uint64_t divided(uint64_t a, uint64_t b, uint64_t d, uint64_t *rest)
{
    unsigned __int128 n = (unsigned __int128)a * b;
    if (n >> 64 == 0) {
        *rest = (uint64_t)n % d;
        return (uint64_t)n / d;
    }
    unsigned __int128 q = n / d;
    *rest = (uint64_t)(n - q * d);
    return q > limit ? limit + 1 : (uint64_t)q;
}

static uint64_t magnitude(int64_t n) { return n < 0 ? (uint64_t)(-(n + 1)) + 1 : (uint64_t)n; }

int64_t plain_round(uint8_t mode, int64_t a, int64_t b, uint64_t d, int *refusal)
{
    int negative = (a < 0) != (b < 0);
    uint64_t m = magnitude(a), f = magnitude(b);
    *refusal = mode > 6 ? 1 : m > limit || f > limit ? 3 : d < 1 || d > limit ? 6 : 0;
    if (*refusal)
        return 0;
    uint64_t r, q = divided(m, f, d, &r);
    int rise = 0;
    if (r)
        switch (mode) {
        case 0: rise = 1; break;
        case 1: break;
        case 2: rise = !negative; break;
        case 3: rise = negative; break;
        case 4: rise = r >= d - r; break;
        case 5: rise = r > d - r; break;
        case 6: rise = (q & 1) ? r >= d - r : r > d - r; break;
        }
    q += (uint64_t)rise;
    if (q > limit) {
        *refusal = 13;
        return 0;
    }
    return negative ? -(int64_t)q : (int64_t)q;
}

static const uint32_t K[21] = {100000, 403399, 195583, 166386, 655957, 787564, 193627, 403399, 220371, 137603, 200482,
                               594573, 340750, 239640, 585274, 429300, 301260, 156466, 702804, 345280, 753450};
static const uint8_t k[21] = {5, 4, 5, 3, 5, 6, 2, 4, 5, 4, 3, 5, 3, 3, 6, 6, 4, 4, 6, 5, 5};
static const uint8_t digits[21] = {2, 0, 2, 0, 2, 2, 0, 0, 2, 2, 0, 2, 0, 2, 2, 2, 2, 2, 2, 2, 2};
static const uint64_t ten[10] = {1, 10, 100, 1000, 10000, 100000, 1000000, 10000000, 100000000, 1000000000};

static uint64_t half_up(uint64_t a, uint64_t b, uint64_t d)
{
    uint64_t r, q = divided(a, b, d, &r);
    return q + (r >= d - r && r);
}

int64_t plain_convert(uint8_t from, uint8_t scale, int64_t n, uint8_t to, int *refusal)
{
    int negative = n < 0;
    uint64_t m = magnitude(n);
    *refusal = scale > 6 ? 2 : from <= 20 && scale != digits[from] ? 2 : m > PLAIN_L ? 3 : from > 20 || to > 20 ? 4 : 0;
    if (*refusal)
        return 0;
    if (from == to)
        return n;
    uint64_t r;
    if (from == 0)
        r = half_up(m, K[to], ten[k[to] + 2 - digits[to]]);
    else if (to == 0)
        r = half_up(m, ten[k[from] + 2 - digits[from]], K[from]);
    else {
        uint64_t step = half_up(m, ten[k[from] + 3 - digits[from]], K[from]);
        if (step > PLAIN_L) {
            *refusal = 13;
            return 0;
        }
        r = half_up(step, K[to], ten[k[to] + 3 - digits[to]]);
    }
    if (r > PLAIN_L) {
        *refusal = 13;
        return 0;
    }
    return negative ? -(int64_t)r : (int64_t)r;
}

int plain_tax(int from_gross, uint8_t currency, uint8_t scale, int64_t n, uint32_t rate, uint8_t mode, int64_t parts[3])
{
    int refusal = mode > 6 ? 1 : scale > 6 ? 2 : magnitude(n) > PLAIN_L ? 3 : currency > 20 ? 4 : rate > 1000000 ? 6 : 0;
    if (refusal)
        return refusal;
    int64_t tax = plain_round(mode, n, rate, 1000000u + (from_gross ? rate : 0u), &refusal);
    parts[0] = from_gross ? n - tax : n;
    parts[1] = tax;
    parts[2] = parts[0] + tax;
    return magnitude(parts[2]) > PLAIN_L ? 13 : 0;
}

static int leap(unsigned y) { return y % 400 == 0 || (y % 4 == 0 && y % 100 != 0); }

static const uint16_t before[13] = {0, 0, 31, 59, 90, 120, 151, 181, 212, 243, 273, 304, 334};
static const uint8_t length[13] = {0, 31, 28, 31, 30, 31, 30, 31, 31, 30, 31, 30, 31};

static int exists(plain_date d)
{
    if (d.year < 1900 || d.year > 2199 || d.month < 1 || d.month > 12 || d.day < 1)
        return 0;
    return d.day <= length[d.month] + (d.month == 2 && leap(d.year));
}

static uint32_t number_of(plain_date d)
{
    uint32_t y = d.year - 1u;
    return 365u * (d.year - 1900u) + y / 4 - y / 100 + y / 400 - 460u + before[d.month] + (d.month > 2 && leap(d.year)) + d.day;
}

int64_t plain_interest(int64_t principal, uint32_t rate, uint8_t basis, plain_date start, plain_date end, uint8_t mode, int *refusal)
{
    uint64_t m = magnitude(principal);
    *refusal = mode > 6 ? 1 : m > PLAIN_L ? 3 : rate > 10000 || basis > 3 ? 6 : !exists(start) || !exists(end) ? 7 : 0;
    if (*refusal)
        return 0;
    uint32_t a = number_of(start), b = number_of(end), days;
    if (b < a) {
        *refusal = 8;
        return 0;
    }
    if (basis >= 2) {
        uint32_t first = start.day > 30 ? 30 : start.day;
        uint32_t second = end.day > 30 && (basis == 3 || first == 30) ? 30 : end.day;
        days = (360u * end.year + 30u * end.month + second) - (360u * start.year + 30u * start.month + first);
    } else
        days = b - a;
    if (days > 366) {
        *refusal = 8;
        return 0;
    }
    int64_t r = plain_round(mode, principal, (int64_t)(rate * (uint64_t)days), 10000u * (basis == 1 ? 365u : 360u), refusal);
    if ((r < 0 ? -r : r) > (int64_t)PLAIN_L)
        *refusal = 13;
    return r;
}

static uint64_t half_even(uint64_t n, uint64_t d)
{
    uint64_t q = n / d, r = n % d;
    return q + (r + (q & 1) > d - r);
}

int plain_compound(int64_t principal, uint32_t rate, uint32_t periods, int64_t *out, size_t room)
{
    int64_t rows[121];
    if (principal > (int64_t)PLAIN_L || principal < -(int64_t)PLAIN_L)
        return 3;
    if (rate > 10000 || periods > 120)
        return 6;
    if (principal < 0)
        return 10;
    if (room < periods + 1)
        return 11;
    uint64_t balance = (uint64_t)principal;
    for (uint32_t i = 0; i <= periods; i++) {
        if (balance > PLAIN_L)
            return 13;
        rows[i] = (int64_t)balance;
        balance += half_even(balance * rate, 10000);
    }
    memcpy(out, rows, (periods + 1) * sizeof *rows);
    return 0;
}

int plain_share(int64_t n, const uint32_t *weights, size_t count, int64_t *out, size_t room)
{
    uint64_t sum = 0, rest[64], left;
    int negative = n < 0;
    uint64_t m = magnitude(n);
    uint64_t share[64];
    if (m > PLAIN_L)
        return 3;
    if (count < 1 || count > 64)
        return 9;
    for (size_t i = 0; i < count; i++)
        sum += weights[i];
    if (sum < 1 || sum > 1000000)
        return 9;
    if (room < count)
        return 11;
    left = m;
    for (size_t i = 0; i < count; i++) {
        share[i] = divided(m, weights[i], sum, &rest[i]);
        left -= share[i];
    }
    for (; left; left--) {
        size_t best = 0;
        for (size_t i = 1; i < count; i++)
            if (rest[i] > rest[best])
                best = i;
        share[best]++;
        rest[best] = 0;
    }
    for (size_t i = 0; i < count; i++)
        out[i] = negative ? -(int64_t)share[i] : (int64_t)share[i];
    return 0;
}

int plain_vouchers(uint32_t vouchers, const uint32_t *weights, size_t count, uint32_t *out, size_t room, int one_by_one)
{
    uint64_t sum = 0;
    uint32_t left = vouchers;
    if (vouchers > 10000)
        return 6;
    if (count < 1 || count > 64)
        return 9;
    for (size_t i = 0; i < count; i++)
        sum += weights[i];
    if (sum < 1 || sum > 1000000)
        return 9;
    if (room < count)
        return 11;
    for (size_t i = 0; i < count; i++) {
        out[i] = one_by_one ? 0 : (uint32_t)((uint64_t)vouchers * weights[i] / sum);
        left -= out[i];
    }
    for (; left; left--) {
        size_t best = 0;
        for (size_t i = 1; i < count; i++)
            if ((uint64_t)weights[best] * (out[i] + 1) < (uint64_t)weights[i] * (out[best] + 1))
                best = i;
        out[best]++;
    }
    return 0;
}

void plain_totals_by_unit(const uint32_t weights[16], uint64_t n, uint64_t totals[16])
{
    uint64_t W = 0, held[16] = {0};
    for (int i = 0; i < 16; i++)
        W += weights[i];
    uint64_t rest = n % W, cycles = n / W;
    for (uint64_t t = 1; t <= rest; t++) {
        int best = -1;
        uint64_t least = UINT64_MAX;
        for (int i = 0; i < 16; i++) {
            uint64_t w = weights[i];
            if (held[i] * W < t * w) {
                uint64_t due = ((held[i] + 1) * W + w - 1) / w;
                if (due < least) {
                    least = due;
                    best = i;
                }
            }
        }
        held[best]++;
    }
    for (int i = 0; i < 16; i++)
        totals[i] = cycles * weights[i] + held[i];
}

/* the full units of each place, and who is ahead at n, over a window from a unit at which nobody is ahead */
void plain_totals_by_share(const uint32_t weights[16], uint64_t n, uint64_t totals[16])
{
    uint32_t W = 0, lo[16], due[16], u = 0;
    static uint8_t slots[10001];
    for (int i = 0; i < 16; i++)
        W += weights[i];
    uint64_t cycles = n / W;
    uint32_t rest = (uint32_t)(n % W), full = 0, ahead = 0;
    for (int i = 0; i < 16; i++) {
        uint32_t w = weights[i];
        lo[i] = rest * w / W;
        due[i] = w ? ((lo[i] + 1) * W + w - 1) / w : UINT32_MAX;
    }
    for (uint32_t back = 1; back < rest; back *= 2) {
        uint32_t v = rest - back, mass = 0;
        for (int i = 0; i < 16; i++) {
            uint32_t x = v * weights[i], y = lo[i] * W;
            mass += x > y ? x - y : 0;
        }
        if (mass < W) {
            u = v;
            break;
        }
    }
    memset(slots, 0, rest - u + 1);
    for (int i = 0; i < 16; i++) {
        uint32_t w = weights[i], m = (u * w + W - 1) / W;
        if (m > lo[i])
            m = lo[i];
        full += m;
        if (m >= lo[i])
            continue;
        uint32_t q = m * W / w, r = m * W % w, step = W / w, more = W % w;
        for (; m < lo[i]; m++) {
            slots[q - u]++;
            q += step;
            r += more;
            if (r >= w) {
                r -= w;
                q++;
            }
        }
    }
    uint32_t count = 0;
    for (uint32_t s = u; s < rest; s++) {
        full += slots[s - u];
        if (s < full + count)
            continue;
        uint32_t least = UINT32_MAX;
        int best = -1;
        for (int i = 0; i < 16; i++)
            if (!(ahead >> i & 1) && lo[i] * W < (s + 1) * weights[i] && due[i] < least) {
                least = due[i];
                best = i;
            }
        if (best >= 0) {
            ahead |= 1u << best;
            count++;
        }
    }
    for (int i = 0; i < 16; i++)
        totals[i] = cycles * weights[i] + lo[i] + (ahead >> i & 1);
}

static int broken(const plain_book *b)
{
    uint64_t sum = 0, past = 0;
    if (b->count < 1 || b->count > 16)
        return 1;
    for (int i = 0; i < 16; i++) {
        sum += b->weights[i];
        if (i >= b->count)
            past |= b->weights[i];
    }
    return past || sum < 1 || sum > 10000;
}

int plain_post(plain_book *book, int64_t amount, uint64_t payouts[16], int by_unit)
{
    uint64_t now[16], then[16];
    memset(payouts, 0, 16 * sizeof *payouts);
    if (amount > (int64_t)PLAIN_L || amount < -(int64_t)PLAIN_L || book->net > (int64_t)PLAIN_L || book->net < -(int64_t)PLAIN_L)
        return 3;
    if (book->currency > 20)
        return 4;
    if (broken(book))
        return 9;
    if (amount < 0 || book->net < 0)
        return 10;
    if (book->net + amount > (int64_t)PLAIN_L)
        return 13;
    void (*totals)(const uint32_t[16], uint64_t, uint64_t[16]) = by_unit ? plain_totals_by_unit : plain_totals_by_share;
    totals(book->weights, (uint64_t)book->net, now);
    totals(book->weights, (uint64_t)(book->net + amount), then);
    for (int i = 0; i < 16; i++)
        payouts[i] = then[i] - now[i];
    book->net += amount;
    return 0;
}

/* row n: bit i is 1 where place i has one more than n x w / W rounded down */
static void cycle_of(const uint32_t weights[16], uint32_t W, uint16_t *table)
{
    uint32_t held[16] = {0}, due[16];
    for (int i = 0; i < 16; i++)
        due[i] = weights[i] ? (W + weights[i] - 1) / weights[i] : UINT32_MAX;
    for (uint32_t n = 0; n < W; n++) {
        uint32_t row = 0, least = UINT32_MAX;
        int best = 0;
        for (int i = 0; i < 16; i++) {
            row |= (uint32_t)(n * weights[i] < held[i] * W) << i;
            if (held[i] * W < (n + 1) * weights[i] && due[i] < least) {
                least = due[i];
                best = i;
            }
        }
        table[n] = (uint16_t)row;
        held[best]++;
        due[best] = ((held[best] + 1) * W + weights[best] - 1) / weights[best];
    }
}

static void totals_by_cycle(const uint32_t weights[16], uint32_t W, const uint16_t *table, uint64_t n, uint64_t totals[16])
{
    uint64_t cycles = n / W;
    uint32_t left = (uint32_t)(n % W), row = table[left];
    for (int i = 0; i < 16; i++)
        totals[i] = cycles * weights[i] + left * weights[i] / W + (row >> i & 1);
}

void plain_run(plain_book *book, const bool *refunds, const int64_t *coefficients, size_t calls, uint64_t *payouts, uint8_t *numbers)
{
    uint16_t table[10000];
    uint64_t held[16], next[16];
    uint32_t W = 0;
    for (int i = 0; i < 16; i++)
        W += book->weights[i];
    cycle_of(book->weights, W, table);
    totals_by_cycle(book->weights, W, table, (uint64_t)book->net, held);
    for (size_t j = 0; j < calls; j++, payouts += 16) {
        int64_t c = coefficients[j];
        int refund = refunds[j];
        numbers[j] = c > (int64_t)PLAIN_L || c < -(int64_t)PLAIN_L ? 3
                     : c < 0                                       ? 10
                     : refund                                      ? (c > book->net ? 12 : 0)
                                                                   : (book->net + c > (int64_t)PLAIN_L ? 13 : 0);
        if (numbers[j]) {
            memset(payouts, 0, 16 * sizeof *payouts);
            continue;
        }
        book->net += refund ? -c : c;
        totals_by_cycle(book->weights, W, table, (uint64_t)book->net, next);
        for (int i = 0; i < 16; i++) {
            payouts[i] = refund ? held[i] - next[i] : next[i] - held[i];
            held[i] = next[i];
        }
    }
}

static uint64_t little_endian(const uint8_t *in, int bytes)
{
    uint64_t n = 0;
    for (int i = 0; i < bytes; i++)
        n |= (uint64_t)in[i] << 8 * i;
    return n;
}

bool plain_next_payout(plain_view *view, plain_payout *payout)
{
    if (view->length < 40 || view->length - 40 < view->next)
        return false;
    const uint8_t *at = view->bytes + view->next;
    payout->place = (uint16_t)little_endian(at, 2);
    payout->currency = (uint16_t)little_endian(at + 2, 2);
    payout->coefficient = (int64_t)little_endian(at + 8, 8);
    view->next += 16;
    return true;
}
