/* One table: the library's time over plain C's for the same inputs, each row the median of several runs. First the answers are compared on
 * all inputs: a difference ends the bench with a status that is not 0. The first argument names the machine's kind for the heading. */
#include "inputs.h"
#include "papers.h"
#include "rows.h"
#include <inttypes.h>
#include <stdio.h>
#include <stdlib.h>
#include <time.h>

#define RUNS 15

/* of the processor, so that other programs on the machine count for little */
static double seconds(void)
{
    struct timespec t;
    clock_gettime(CLOCK_THREAD_CPUTIME_ID, &t);
    return (double)t.tv_sec + 1e-9 * (double)t.tv_nsec;
}

/* the time of one pass over the inputs, from so many passes */
static double timed(void (*pass)(void), unsigned passes)
{
    double start = seconds();
    for (unsigned i = 0; i < passes; i++)
        pass();
    return (seconds() - start) / passes;
}

/* passes enough for some milliseconds */
static unsigned enough(void (*pass)(void))
{
    unsigned passes = 1;
    while (passes < 1u << 20 && timed(pass, passes) * passes < 0.004)
        passes *= 2;
    return passes;
}

static int rising(const void *a, const void *b)
{
    double x = *(const double *)a, y = *(const double *)b;
    return (x > y) - (x < y);
}

static double median(double *values)
{
    qsort(values, RUNS, sizeof *values, rising);
    return values[RUNS / 2];
}

static void row(const char *name, int items, int (*agrees)(void), void (*ours)(void), void (*plain)(void))
{
    if (!agrees()) {
        fprintf(stderr, "bench: the answers differ: %s\n", name);
        exit(1);
    }
    unsigned passes = enough(ours), plain_passes = enough(plain);
    double a[RUNS], b[RUNS], ratio[RUNS];
    for (int i = 0; i < RUNS; i++) {
        a[i] = timed(ours, passes);
        b[i] = timed(plain, plain_passes);
        ratio[i] = a[i] / b[i];
    }
    printf("%-52s %12.1f %12.1f %9.2f\n", name, 1e9 * median(a) / items, 1e9 * median(b) / items, median(ratio));
    fflush(stdout);
}

static void posts(int unit)
{
    static const uint32_t sums[] = {10, 100, 1000, 10000};
    static const int partners[] = {2, 4, 16};
    for (int i = unit ? 3 : 0; i < 4; i++)
        for (int j = 0; j < 3; j++)
            for (int skewed = 0; skewed < 2; skewed++) {
                char name[80];
                snprintf(name, sizeof name, "post, W = %" PRIu32 ", %d partners, %s; by %s", sums[i], partners[j],
                         skewed ? "skewed" : "random", unit ? "unit" : "share");
                set_book(sums[i], partners[j], skewed, unit);
                row(name, POSTINGS, post_agrees, post_ours, post_plain);
            }
}

/* the time of a call where the cycle's making is left out: that of a long run less that of one half as long */
static double by_call(void (*pass)(void), double *making)
{
    double half, whole;
    set_calls(CALLS / 2);
    half = timed(pass, 8);
    set_calls(CALLS);
    whole = timed(pass, 4);
    *making = 2 * half - whole;
    return (whole - half) / (CALLS / 2);
}

/* a row for a call of a run, and one for the making of a long cycle; the median time of a call */
static double run_rows(const char *name, int is_long)
{
    set_calls(CALLS);
    if (!run_agrees()) {
        fprintf(stderr, "bench: the answers differ: %s\n", name);
        exit(1);
    }
    double a[RUNS], b[RUNS], ratio[RUNS], made[RUNS], plain_made[RUNS];
    for (int i = 0; i < RUNS; i++) {
        a[i] = by_call(run_ours, &made[i]);
        b[i] = by_call(run_plain, &plain_made[i]);
        ratio[i] = a[i] / b[i];
    }
    double call = median(a), cycle = median(made), plain_cycle = median(plain_made);
    printf("%-52s %12.1f %12.1f %9.2f\n", name, 1e9 * call, 1e9 * median(b), median(ratio));
    if (is_long)
        printf("%-52s %12.1f %12.1f %9.2f\n", "  its cycle, once for a run", 1e9 * cycle, 1e9 * plain_cycle, cycle / plain_cycle);
    fflush(stdout);
    return call;
}

static void runs(void)
{
    static const int partners[] = {2, 4, 16};
    for (int j = 0; j < 3; j++)
        for (int skewed = 0; skewed < 2; skewed++) {
            double time[2];
            for (int i = 0; i < 2; i++) {
                uint32_t W = i ? 10000 : 10;
                char name[80];
                snprintf(name, sizeof name, "run, W = %" PRIu32 ", %d partners, %s; a call", W, partners[j], skewed ? "skewed" : "random");
                set_book(W, partners[j], skewed, 0);
                time[i] = run_rows(name, i);
            }
            printf("%-52s %12s %12s %9.2f\n", "  W = 10,000 over W = 10", "", "", time[1] / time[0]);
        }
}

/* conversion, interest, tax and sharing, at amounts of a size */
static void amount_rows(const char *converted, const char *size)
{
    char name[80];
    snprintf(name, sizeof name, "convert, old to old, %s", converted);
    row(name, AMOUNTS, convert_agrees, convert_ours, convert_plain);
    snprintf(name, sizeof name, "interest, %s", size);
    row(name, AMOUNTS, interest_agrees, interest_ours, interest_plain);
    for (int gross = 0; gross < 2; gross++) {
        set_from_gross(gross);
        snprintf(name, sizeof name, "tax from %s, %s", gross ? "gross" : "net", size);
        row(name, AMOUNTS, tax_agrees, tax_ours, tax_plain);
    }
    for (size_t count = 16; count <= 64; count += 48) {
        set_count(count);
        snprintf(name, sizeof name, "share %zu, %s", count, size);
        row(name, LISTS, share_agrees, share_ours, share_plain);
    }
}

int main(int argc, char **argv)
{
    draw_inputs();
    draw_papers();
    printf("bench: seed %" PRIu64 ", %s, plain C by gcc %s -O3, median of %d runs\n", SEED, argc > 1 ? argv[1] : "x86-64", __VERSION__, RUNS);
    printf("%-52s %12s %12s %9s\n", "row", "ours, ns", "plain C, ns", "ratio");
    set_modes(0);
    row("round HALF_EVEN", PAIRS, round_agrees, round_ours, round_plain);
    set_modes(1);
    row("round, mixed modes", PAIRS, round_agrees, round_ours, round_plain);
    set_products(1);
    row("round a product of two words, mixed modes", PAIRS, round_agrees, round_ours, round_plain);
    set_products(0);
    draw_amounts(UINT64_C(1000000000), OLD_L);
    amount_rows("to 10^9", "to 10^11");
    draw_amounts(PLAIN_L, PLAIN_L);
    amount_rows("to 10^15", "to 10^15");
    row("net for a gross, over our tax from gross", LISTS, net_for_agrees, net_for_ours, tax_gross_ours);
    row("compound, 120 periods", LISTS, compound_agrees, compound_ours, compound_plain);
    set_count(64);
    set_one_by_one(0);
    row("vouchers, 10,000 over 64", LISTS, vouchers_agree, vouchers_ours, vouchers_plain);
    set_one_by_one(1);
    row("vouchers, plain C one at a time", LISTS, vouchers_agree, vouchers_ours, vouchers_plain);
    row("read a text", TEXTS, read_agrees, read_ours, read_plain);
    row("write a text", TEXTS, write_agrees, write_ours, write_plain);
    row("a row of doubles", TEXTS, rows_agree, rows_ours, rows_plain);
    row("write a statement of 4,000; a record", RECORDS, statement_agrees, statement_ours, statement_plain);
    row("check a statement of 4,000; a record", RECORDS, check_agrees, check_ours, check_plain);
    row("walk a statement of 4,000; a record", RECORDS, view_agrees, view_ours, view_plain);
    posts(0);
    posts(1);
    runs();
    return 0;
}
