/* rerun in plain C, for the ratio of the two: the same lines read, the same refusals, the same sums of payouts and the same report. The
   totals of one cycle stand in a table, a row of sixteen 16-bit numbers for each net total below W. It takes
   lines without a byte 0, in numbers that an int64_t holds, or in codes and texts. */
#include <inttypes.h>
#include <stdint.h>
#include <stdio.h>
#include <stdlib.h>
#include <string.h>

#define L INT64_C(999999999999999)
#define PARTNERS 16
#define WEIGHT_SUM 10000
#define LONGEST 4000

#define REFUSALS 18
#define CURRENCIES 21

static const char codes[CURRENCIES][4] = {"EUR", "BEF", "DEM", "ESP", "FRF", "IEP", "ITL", "LUF", "NLG", "ATS", "PTE",
                                          "FIM", "GRD", "SIT", "CYP", "MTL", "SKK", "EEK", "LVL", "LTL", "HRK"};
static const uint8_t own_digits[CURRENCIES] = {2, 0, 2, 0, 2, 2, 0, 0, 2, 2, 0, 2, 0, 2, 2, 2, 2, 2, 2, 2, 2};

/* the current book; `refused` is NONE before any opening, ASTRAY after one that is not understood */
enum { NONE = -1, ASTRAY = -2 };
static struct {
    int refused, in_texts;
    int64_t currency, net;
    int count;
    uint64_t weights[PARTNERS], sum;
} book = {.refused = NONE};
static uint16_t cycle[WEIGHT_SUM][PARTNERS];
static uint64_t totals[PARTNERS];

/* what is counted of it: place 0 of `times` has what was accepted; postings are side 0, refunds side 1 */
static uint64_t times[REFUSALS], unknown, sums[2], payouts[2][PARTNERS];
/* the line that is read, and the first line of each number and of what is not understood */
static uint64_t lines, first[REFUSALS], first_unknown;

/* the numbers of a line behind its word; how many they are, -1 where a word is none */
static int numbers(const char *p, int64_t *out, int room)
{
    int count = 0;
    for (;;) {
        uint64_t sum = 0;
        int negative;
        while (*p == ' ')
            p++;
        if (*p == '\0')
            return count;
        negative = *p == '-';
        p += negative;
        if (*p < '0' || *p > '9')
            return -1;
        while (*p >= '0' && *p <= '9')
            sum = sum * 10 + (uint64_t)(*p++ - '0');
        if (*p != ' ' && *p != '\0')
            return -1;
        if (count < room)
            out[count] = negative ? -(int64_t)sum : (int64_t)sum;
        count++;
    }
}

/* the currency number of a code, 255 where the table has none */
static int64_t currency_of(const char *word, size_t length)
{
    for (int i = 0; length == 3 && i < CURRENCIES; i++)
        if (memcmp(word, codes[i], 3) == 0)
            return i;
    return 255;
}

static int is_code(const char *word) { return *word >= 'A' && *word <= 'Z'; }

/* the coefficient and the scale of a text; 0, or 14 or 13 */
static int text(const char *s, size_t length, int64_t *scale, int64_t *coefficient)
{
    uint64_t m = 0;
    int negative = s[0] == '-', over = 0;
    size_t i = (size_t)negative, begin = i, point = length;
    if (length > 20)
        return 14;
    for (; i < length; i++) {
        if (s[i] == '.' && point == length)
            point = i;
        else if (s[i] < '0' || s[i] > '9')
            return 14;
        else if ((m = m * 10 + (uint64_t)(s[i] - '0')) > (uint64_t)L)
            over = 1, m = (uint64_t)L;
    }
    if (point == begin || (point - begin > 1 && s[begin] == '0') || point + 1 == length || (point < length && length - point > 7))
        return 14;
    if (negative && m == 0)
        return 14;
    *scale = point < length ? (int64_t)(length - point - 1) : 0;
    *coefficient = negative ? -(int64_t)m : (int64_t)m;
    return over ? 13 : 0;
}

/* an amount behind a word: three numbers, or a code and a text, whose refusal is *number; whether it is one */
static int amount(const char *p, int64_t out[3], int *number)
{
    *number = 0;
    p += strspn(p, " ");
    if (!is_code(p))
        return numbers(p, out, 3) == 3;
    size_t length = strcspn(p, " ");
    out[0] = currency_of(p, length);
    p += length + strspn(p + length, " ");
    length = strcspn(p, " ");
    if (length == 0 || p[length + strspn(p + length, " ")] != '\0')
        return 0;
    *number = out[0] == 255 ? 4 : text(p, length, &out[1], &out[2]);
    return 1;
}

/* the totals of every net total below W, unit by unit */
static void fill_cycle(void)
{
    uint64_t units[PARTNERS] = {0};
    for (uint64_t t = 1; t <= book.sum; t++) {
        uint64_t least = UINT64_MAX;
        int taker = 0;
        for (int i = 0; i < PARTNERS; i++)
            cycle[t - 1][i] = (uint16_t)units[i];
        for (int i = 0; i < PARTNERS; i++) {
            uint64_t w = book.weights[i];
            if (units[i] * book.sum < t * w) {
                uint64_t due = ((units[i] + 1) * book.sum + w - 1) / w;
                if (due < least) {
                    least = due;
                    taker = i;
                }
            }
        }
        units[taker]++;
    }
}

static void open_book(const int64_t *given, int count)
{
    memset(&book, 0, sizeof book);
    memset(totals, 0, sizeof totals);
    memset(times, 0, sizeof times);
    memset(sums, 0, sizeof sums);
    memset(payouts, 0, sizeof payouts);
    memset(first, 0, sizeof first);
    unknown = first_unknown = 0;
    for (int i = 1; i < count && i <= PARTNERS; i++)
        book.sum += book.weights[i - 1] = given[i] < 0 || given[i] > WEIGHT_SUM ? WEIGHT_SUM + 1 : (uint64_t)given[i];
    book.refused = given[0] < 0 || given[0] > 20 ? 4 : count < 2 || count > PARTNERS + 1 || book.sum < 1 || book.sum > WEIGHT_SUM ? 9 : 0;
    if (book.refused) {
        memset(book.weights, 0, sizeof book.weights);
        return;
    }
    book.currency = given[0];
    book.count = count - 1;
    fill_cycle();
}

static int refusal(int side, int64_t currency, int64_t scale, int64_t n)
{
    int known = currency >= 0 && currency <= 20;
    if (scale < 0 || scale > 6 || (known && scale != own_digits[currency]))
        return 2;
    if (n > L || n < -L)
        return 3;
    if (!known)
        return 4;
    if (currency != book.currency)
        return 5;
    if (book.refused)
        return 9;
    if (n < 0)
        return 10;
    if (side == 1 && n > book.net)
        return 12;
    if (side == 0 && book.net + n > L)
        return 13;
    return 0;
}

static void call(int side, const int64_t *given, int number)
{
    if (!number)
        number = refusal(side, given[0], given[1], given[2]);
    if (!times[number]++)
        first[number] = lines;
    if (number)
        return;
    sums[side] += (uint64_t)given[2];
    book.net += side ? -given[2] : given[2];
    uint64_t whole = (uint64_t)book.net / book.sum;
    const uint16_t *row = cycle[(uint64_t)book.net % book.sum];
    for (int i = 0; i < PARTNERS; i++) {
        uint64_t total = whole * book.weights[i] + row[i];
        payouts[side][i] += side ? totals[i] - total : total - totals[i];
        totals[i] = total;
    }
}

/* a number of units behind its name, as a text at the book's digits where it was opened by a code */
static void put(const char *name, uint64_t units)
{
    int digits = book.in_texts ? own_digits[book.currency] : 0;
    if (digits)
        printf("%s%" PRIu64 ".%02" PRIu64, name, units / 100, units % 100);
    else
        printf("%s%" PRIu64, name, units);
}

static void put_partners(void)
{
    int failing = -1;
    uint64_t added = 0;
    for (int i = 0; i < book.count; i++) {
        uint64_t n = (uint64_t)book.net * book.weights[i], paid = payouts[0][i], taken = payouts[1][i], total = totals[i];
        uint64_t least = n / book.sum, most = (n + book.sum - 1) / book.sum;
        printf("partner %d weight %" PRIu64, i, book.weights[i]);
        put(" paid ", paid), put(" taken ", taken), put(" total ", total), put(" least ", least), put(" most ", most);
        putchar('\n');
        if (failing < 0 && (paid - taken != total || total < least || total > most))
            failing = i;
        added += total;
    }
    if (failing < 0 && (added != (uint64_t)book.net || sums[0] - sums[1] != (uint64_t)book.net))
        failing = book.count - 1;
    if (failing < 0)
        puts("check ok");
    else
        printf("check FAILED %d\n", failing);
}

static void report(void)
{
    uint64_t refused = 0;
    for (int i = 1; i < REFUSALS; i++)
        refused += times[i];
    if (book.refused == NONE && times[0] + refused + unknown == 0)
        return;
    if (book.refused == NONE)
        printf("book none");
    else if (book.refused == ASTRAY)
        printf("book not understood");
    else if (book.refused)
        printf("book refused %d", book.refused);
    else {
        if (book.in_texts)
            printf("book %s weights", codes[book.currency]);
        else
            printf("book %" PRId64 " weights", book.currency);
        for (int i = 0; i < book.count; i++)
            printf(" %" PRIu64, book.weights[i]);
    }
    printf("\nlines %" PRIu64 " accepted %" PRIu64 " refused %" PRIu64 " not understood\n", times[0], refused, unknown);
    if (unknown)
        printf("not understood first %" PRIu64 "\n", first_unknown);
    for (int i = 1; i < REFUSALS; i++)
        if (times[i])
            printf("refused %d times %" PRIu64 " first %" PRIu64 "\n", i, times[i], first[i]);
    if (book.refused)
        return;
    put("posted ", sums[0]), put(" refunded ", sums[1]), put(" net ", (uint64_t)book.net);
    putchar('\n');
    put_partners();
}

static void not_understood(void)
{
    if (!unknown++)
        first_unknown = lines;
}

/* a currency number, or a code, and the weights */
static void open_line(const char *p)
{
    static int64_t given[2000];
    int in_texts, count;
    p += strspn(p, " ");
    in_texts = is_code(p);
    if (in_texts) {
        size_t length = strcspn(p, " ");
        given[0] = currency_of(p, length);
        count = numbers(p + length, given + 1, 1999);
        count += count >= 0;
    } else
        count = numbers(p, given, 2000);
    report();
    if (count < 1)
        given[0] = -1;
    open_book(given, count);
    book.in_texts = in_texts;
    if (count < 1) {
        book.refused = ASTRAY;
        not_understood();
    }
}

static void answer(char *line)
{
    int64_t given[3];
    char *word = line + strspn(line, " ");
    size_t length = strcspn(word, " ");
    int number;
    if (length == 4 && memcmp(word, "post", 4) == 0 && amount(word + length, given, &number))
        call(0, given, number);
    else if (length == 6 && memcmp(word, "refund", 6) == 0 && amount(word + length, given, &number))
        call(1, given, number);
    else if (length == 4 && memcmp(word, "open", 4) == 0)
        open_line(word + length);
    else
        not_understood();
}

int main(void)
{
    char *line = NULL;
    size_t room = 0;
    ssize_t end;
    int unended = 0;
    while ((end = getline(&line, &room, stdin)) > 0) {
        unended = line[end - 1] != '\n';
        if (!unended)
            line[--end] = '\0';
        lines++;
        if (end && line[end - 1] == '\r')
            line[--end] = '\0';
        if (end > LONGEST)
            not_understood();
        else if (end && line[0] != '#')
            answer(line);
        if (lines % 1000000 == 0)
            fprintf(stderr, "%" PRIu64 " lines\n", lines);
    }
    report();
    printf("end %" PRIu64 " lines%s\n", lines, unended ? ", the last one unended" : "");
    free(line);
    return 0;
}
