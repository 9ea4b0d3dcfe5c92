/* One item of each row of the table, by the library and by plain C; and whether the two agree on every input. */
#include "rows.h"
#include "inputs.h"
#include <string.h>

uint64_t sink;
static uint8_t one_mode;
static int mixed, by_unit, one_by_one;
static size_t count, calls;
static uint64_t paid[2][16 * CALLS];
static uint8_t numbers[2][CALLS];
static mkb_book opened;

void set_modes(int all) { mixed = all, one_mode = MKB_HALF_EVEN; }
void set_count(size_t n) { count = n; }
void set_calls(size_t n) { calls = n; }
void set_one_by_one(int on) { one_by_one = on; }

void set_book(uint32_t W, int partners, int skewed, int unit)
{
    by_unit = unit;
    opened = (mkb_book){.currency = 0, .count = (uint8_t)partners, .net = 0, .card = 1};
    draw_weights(opened.weights, W, partners, skewed);
}

static const pair *drawn = pairs;

void set_products(int on) { drawn = on ? products : pairs; }

static uint8_t mode_of(const pair *p) { return mixed ? p->mode : one_mode; }

static plain_date plain_of(mkb_date d) { return (plain_date){d.year, d.month, d.day}; }

void round_ours(void)
{
    for (int i = 0; i < PAIRS; i++)
        sink += (uint64_t)mkb_round(mode_of(&drawn[i]), drawn[i].n, drawn[i].factor, drawn[i].d).value;
}

void round_plain(void)
{
    int refusal;
    for (int i = 0; i < PAIRS; i++)
        sink += (uint64_t)plain_round(mode_of(&drawn[i]), drawn[i].n, drawn[i].factor, drawn[i].d, &refusal);
}

int round_agrees(void)
{
    int ok = 1, refusal;
    for (int i = 0; i < PAIRS; i++) {
        mkb_whole r = mkb_round(mode_of(&drawn[i]), drawn[i].n, drawn[i].factor, drawn[i].d);
        ok &= r.value == plain_round(mode_of(&drawn[i]), drawn[i].n, drawn[i].factor, drawn[i].d, &refusal) && r.refusal == refusal;
    }
    return ok;
}

void convert_ours(void)
{
    for (int i = 0; i < AMOUNTS; i++)
        sink += (uint64_t)mkb_convert(exchanges[i].a, exchanges[i].to).amount.coefficient;
}

void convert_plain(void)
{
    int refusal;
    for (int i = 0; i < AMOUNTS; i++) {
        const mkb_amount *a = &exchanges[i].a;
        sink += (uint64_t)plain_convert(a->currency, a->scale, a->coefficient, exchanges[i].to, &refusal);
    }
}

int convert_agrees(void)
{
    int ok = 1, refusal;
    for (int i = 0; i < AMOUNTS; i++) {
        const mkb_amount *a = &exchanges[i].a;
        mkb_amount_answer r = mkb_convert(*a, exchanges[i].to);
        ok &= r.amount.coefficient == plain_convert(a->currency, a->scale, a->coefficient, exchanges[i].to, &refusal) && r.refusal == refusal;
    }
    return ok;
}

void interest_ours(void)
{
    for (int i = 0; i < AMOUNTS; i++) {
        const loan *l = &loans[i];
        sink += (uint64_t)mkb_interest(l->principal, l->rate, l->basis, l->start, l->end, l->mode).amount.coefficient;
    }
}

static int64_t interest_by_plain(const loan *l, int *refusal)
{
    return plain_interest(l->principal.coefficient, l->rate, l->basis, plain_of(l->start), plain_of(l->end), l->mode, refusal);
}

void interest_plain(void)
{
    int refusal;
    for (int i = 0; i < AMOUNTS; i++)
        sink += (uint64_t)interest_by_plain(&loans[i], &refusal);
}

int interest_agrees(void)
{
    int ok = 1, refusal;
    for (int i = 0; i < AMOUNTS; i++) {
        const loan *l = &loans[i];
        int64_t n = interest_by_plain(l, &refusal);
        mkb_amount_answer r = mkb_interest(l->principal, l->rate, l->basis, l->start, l->end, l->mode);
        ok &= r.refusal == refusal && r.amount.coefficient == (refusal ? 0 : n);
    }
    return ok;
}

/* a list's first numbers as a principal and a rate whose table of 120 periods has no row over L */
static mkb_amount principal_of(const list *l)
{
    int64_t n = l->a.coefficient / 1000;
    return (mkb_amount){.currency = 0, .scale = 2, .coefficient = n < 0 ? -n : n};
}

static uint32_t rate_of(const list *l) { return l->weights[0] % 501; }

void compound_ours(void)
{
    int64_t out[121];
    for (int i = 0; i < LISTS; i++)
        sink += mkb_compound(principal_of(&lists[i]), rate_of(&lists[i]), 120, out, 121) + (uint64_t)out[120];
}

void compound_plain(void)
{
    int64_t out[121];
    for (int i = 0; i < LISTS; i++)
        sink += (uint64_t)plain_compound(principal_of(&lists[i]).coefficient, rate_of(&lists[i]), 120, out, 121) + (uint64_t)out[120];
}

int compound_agrees(void)
{
    int ok = 1;
    for (int i = 0; i < LISTS; i++) {
        int64_t ours[121] = {0}, plain[121] = {0};
        ok &= !mkb_compound(principal_of(&lists[i]), rate_of(&lists[i]), 120, ours, 121);
        ok &= !plain_compound(principal_of(&lists[i]).coefficient, rate_of(&lists[i]), 120, plain, 121) && !memcmp(ours, plain, sizeof ours);
    }
    return ok;
}

static int from_gross;

void set_from_gross(int on) { from_gross = on; }

static mkb_split tax_of(const price *p) { return from_gross ? mkb_tax_from_gross(p->a, p->rate, p->mode) : mkb_tax_from_net(p->a, p->rate, p->mode); }

static int tax_by_plain(const price *p, int64_t parts[3])
{
    return plain_tax(from_gross, (uint8_t)p->a.currency, (uint8_t)p->a.scale, p->a.coefficient, p->rate, p->mode, parts);
}

void tax_ours(void)
{
    for (int i = 0; i < AMOUNTS; i++) {
        mkb_split s = tax_of(&prices[i]);
        sink += (uint64_t)s.net.coefficient + (uint64_t)s.tax.coefficient + (uint64_t)s.gross.coefficient;
    }
}

void tax_plain(void)
{
    int64_t parts[3];
    for (int i = 0; i < AMOUNTS; i++)
        sink += (uint64_t)tax_by_plain(&prices[i], parts) + (uint64_t)parts[0] + (uint64_t)parts[1] + (uint64_t)parts[2];
}

int tax_agrees(void)
{
    int ok = 1;
    int64_t parts[3] = {0, 0, 0};
    for (int i = 0; i < AMOUNTS; i++) {
        mkb_split s = tax_of(&prices[i]);
        ok &= tax_by_plain(&prices[i], parts) == s.refusal && !s.refusal;
        ok &= s.net.coefficient == parts[0] && s.tax.coefficient == parts[1] && s.gross.coefficient == parts[2];
    }
    return ok;
}

void net_for_ours(void)
{
    for (int i = 0; i < LISTS; i++)
        sink += (uint64_t)mkb_net_for(principal_of(&lists[i]), rate_of(&lists[i]), MKB_HALF_UP).net.coefficient;
}

void tax_gross_ours(void)
{
    for (int i = 0; i < LISTS; i++)
        sink += (uint64_t)mkb_tax_from_gross(principal_of(&lists[i]), rate_of(&lists[i]), MKB_HALF_UP).net.coefficient;
}

int net_for_agrees(void)
{
    int ok = 1;
    for (int i = 0; i < LISTS; i++) {
        mkb_split net = mkb_net_for(principal_of(&lists[i]), rate_of(&lists[i]), MKB_HALF_UP);
        mkb_split gross = mkb_tax_from_gross(principal_of(&lists[i]), rate_of(&lists[i]), MKB_HALF_UP);
        ok &= net.refusal == MKB_NO_NET || (!net.refusal && net.net.coefficient == gross.net.coefficient);
    }
    return ok;
}

void share_ours(void)
{
    int64_t out[64];
    for (int i = 0; i < LISTS; i++)
        sink += mkb_share(lists[i].a, lists[i].weights, count, out, 64) + (uint64_t)out[0];
}

void share_plain(void)
{
    int64_t out[64];
    for (int i = 0; i < LISTS; i++)
        sink += (uint64_t)plain_share(lists[i].a.coefficient, lists[i].weights, count, out, 64) + (uint64_t)out[0];
}

int share_agrees(void)
{
    int ok = 1;
    for (int i = 0; i < LISTS; i++) {
        int64_t ours[64] = {0}, plain[64] = {0};
        ok &= mkb_share(lists[i].a, lists[i].weights, count, ours, 64) == plain_share(lists[i].a.coefficient, lists[i].weights, count, plain, 64);
        ok &= !memcmp(ours, plain, sizeof ours);
    }
    return ok;
}

void vouchers_ours(void)
{
    uint32_t out[64];
    for (int i = 0; i < LISTS; i++)
        sink += mkb_vouchers(10000, lists[i].weights, count, out, 64) + (uint64_t)out[0];
}

void vouchers_plain(void)
{
    uint32_t out[64];
    for (int i = 0; i < LISTS; i++)
        sink += (uint64_t)plain_vouchers(10000, lists[i].weights, count, out, 64, one_by_one) + (uint64_t)out[0];
}

int vouchers_agree(void)
{
    int ok = 1;
    for (int i = 0; i < LISTS; i++) {
        uint32_t ours[64] = {0}, plain[64] = {0};
        ok &= mkb_vouchers(10000, lists[i].weights, count, ours, 64) == plain_vouchers(10000, lists[i].weights, count, plain, 64, one_by_one);
        ok &= !memcmp(ours, plain, sizeof ours);
    }
    return ok;
}

static plain_book plain_opened(void)
{
    plain_book b = {.currency = opened.currency, .count = opened.count, .net = opened.net};
    memcpy(b.weights, opened.weights, sizeof b.weights);
    return b;
}

void post_ours(void)
{
    mkb_book b = opened;
    for (int i = 0; i < POSTINGS; i++) {
        mkb_moved r = mkb_post(b, postings[i]);
        sink += r.payouts[0];
        b = r.book;
    }
}

void post_plain(void)
{
    plain_book b = plain_opened();
    uint64_t payouts[16];
    for (int i = 0; i < POSTINGS; i++) {
        sink += (uint64_t)plain_post(&b, postings[i].coefficient, payouts, by_unit) + payouts[0];
    }
}

int post_agrees(void)
{
    int ok = 1;
    mkb_book b = opened;
    plain_book p = plain_opened();
    uint64_t payouts[16];
    for (int i = 0; i < POSTINGS; i++) {
        mkb_moved r = mkb_post(b, postings[i]);
        ok &= plain_post(&p, postings[i].coefficient, payouts, by_unit) == r.refusal && !r.refusal;
        ok &= !memcmp(payouts, r.payouts, sizeof payouts) && p.net == r.book.net;
        b = r.book;
    }
    return ok;
}

static mkb_ran by_run(void) { return mkb_run(opened, refunds, calls, coefficients, calls, paid[0], 16 * calls, numbers[0], calls); }

static plain_book by_plain_run(void)
{
    plain_book b = plain_opened();
    plain_run(&b, refunds, coefficients, calls, paid[1], numbers[1]);
    return b;
}

void run_ours(void) { sink += (uint64_t)by_run().book.net; }

void run_plain(void) { sink += (uint64_t)by_plain_run().net; }

int run_agrees(void)
{
    mkb_ran r = by_run();
    plain_book p = by_plain_run();
    return !r.refusal && r.served == calls && r.book.net == p.net && !memcmp(paid[0], paid[1], 16 * calls * sizeof **paid)
           && !memcmp(numbers[0], numbers[1], calls);
}
