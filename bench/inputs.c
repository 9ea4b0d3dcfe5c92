#include "inputs.h"
#include <string.h>

pair pairs[PAIRS], products[PAIRS];
exchange exchanges[AMOUNTS];
loan loans[AMOUNTS];
price prices[AMOUNTS];
list lists[LISTS];
mkb_amount postings[POSTINGS];
bool refunds[CALLS];
int64_t coefficients[CALLS];

static uint64_t state = SEED;

/* a number below n */
static uint64_t below(uint64_t n)
{
    state += UINT64_C(0x9e3779b97f4a7c15);
    uint64_t z = state;
    z = (z ^ z >> 30) * UINT64_C(0xbf58476d1ce4e5b9);
    z = (z ^ z >> 27) * UINT64_C(0x94d049bb133111eb);
    return (z ^ z >> 31) % n;
}

static int64_t signed_below(uint64_t n)
{
    int64_t m = (int64_t)below(n);
    return below(2) ? -m : m;
}

/* one pair in eight is a tie */
static void draw_pairs(void)
{
    for (int i = 0; i < PAIRS; i++) {
        pair *p = &pairs[i];
        p->mode = (uint8_t)below(7);
        p->d = 1 + below(2000000);
        p->n = signed_below(UINT64_C(1000000000000));
        p->factor = 1;
        if (i % 8 == 0) {
            p->d = 2 * (1 + below(1000000));
            p->n = (int64_t)(below(1000000) * p->d + p->d / 2);
            p->n = below(2) ? -p->n : p->n;
        }
    }
}

/* factors and divisors of up to 10^18, the quotient within it */
static void draw_products(void)
{
    const uint64_t limit = UINT64_C(1000000000000000000);
    for (int i = 0; i < PAIRS; i++) {
        pair *p = &products[i];
        p->mode = (uint8_t)below(7);
        p->d = 1 + below(limit);
        p->n = signed_below(p->d);
        p->factor = signed_below(limit);
    }
}

static void draw_exchanges(uint64_t largest)
{
    for (int i = 0; i < AMOUNTS; i++) {
        uint8_t from = (uint8_t)(1 + below(20)), to = (uint8_t)(1 + below(19));
        to += to >= from;
        mkb_amount a = {.currency = from, .scale = mkb_currency(from).digits, .coefficient = signed_below(largest)};
        int refusal;
        while (plain_convert(from, (uint8_t)a.scale, a.coefficient, to, &refusal), refusal)
            a.coefficient /= 10;
        exchanges[i].a = a;
        exchanges[i].to = to;
    }
}

static void draw_loans(uint64_t largest)
{
    for (int i = 0; i < AMOUNTS; i++) {
        uint16_t year = (uint16_t)(1900 + below(299));
        uint8_t month = (uint8_t)(1 + below(12)), later = (uint8_t)(month + below(12));
        mkb_date start = {year, month, (uint8_t)(1 + below(28))};
        mkb_date end = {(uint16_t)(later > 12 ? year + 1 : year), (uint8_t)(later > 12 ? later - 12 : later), (uint8_t)(start.day + below(3))};
        if (!mkb_date_exists(end))
            end.day = start.day;
        loans[i] = (loan){.principal = {0, 2, signed_below(largest)}, .rate = (uint32_t)below(10001), .basis = (uint8_t)below(4),
                          .mode = (uint8_t)below(7), .start = start, .end = end};
    }
}

static void draw_lists(uint64_t largest)
{
    for (int i = 0; i < LISTS; i++) {
        lists[i].a = (mkb_amount){.currency = 0, .scale = 2, .coefficient = signed_below(largest)};
        for (int j = 0; j < 64; j++)
            lists[i].weights[j] = 1 + (uint32_t)below(15000);
    }
}

/* a gross is at most twice its net */
static void draw_prices(uint64_t largest)
{
    for (int i = 0; i < AMOUNTS; i++)
        prices[i] = (price){.a = {0, 2, signed_below(largest / 2)}, .rate = (uint32_t)below(1000001), .mode = (uint8_t)below(7)};
}

void draw_amounts(uint64_t conversion, uint64_t largest)
{
    draw_exchanges(conversion);
    draw_loans(largest);
    draw_lists(largest);
    draw_prices(largest);
}

void draw_inputs(void)
{
    draw_pairs();
    draw_products();
    draw_amounts(PLAIN_L, PLAIN_L);
    for (int i = 0; i < POSTINGS; i++)
        postings[i] = (mkb_amount){.currency = 0, .scale = 2, .coefficient = (int64_t)below(PLAIN_L / POSTINGS)};
    for (int i = 0; i < CALLS; i++) {
        refunds[i] = below(4) == 0;
        coefficients[i] = (int64_t)below(PLAIN_L / CALLS);
    }
}

void draw_weights(uint32_t weights[16], uint32_t W, int partners, int skewed)
{
    memset(weights, 0, 16 * sizeof *weights);
    uint32_t spread = W;
    int first = 0, last = partners;
    if (skewed) {
        spread = partners > 2 ? W / 10 : 0;
        weights[0] = 1;
        weights[partners - 1] = W - 1 - spread;
        first = 1;
        last = partners - 1;
    }
    for (uint32_t unit = 0; unit < spread; unit++)
        weights[first + below((uint64_t)(last - first))]++;
}
