/* The desk's lines `round MODE N D` in plain C, for the ratio of the two: fgets, a parser and a writer by hand, a write for each full
   buffer. It takes good lines alone, with numbers that an int64_t holds. Built with plain.c. */
#include "plain.h"
#include <stdio.h>
#include <string.h>

static char out[65536];
static size_t at;

static const char *number(const char *p, int64_t *n)
{
    uint64_t sum = 0;
    int negative;
    while (*p == ' ')
        p++;
    negative = *p == '-';
    p += negative;
    while (*p >= '0' && *p <= '9')
        sum = sum * 10 + (uint64_t)(*p++ - '0');
    *n = negative ? -(int64_t)sum : (int64_t)sum;
    return p;
}

static void put(int64_t n)
{
    char digits[20];
    int count = 0;
    uint64_t m = n < 0 ? -(uint64_t)n : (uint64_t)n;
    do {
        digits[count++] = (char)('0' + m % 10);
        m /= 10;
    } while (m);
    if (n < 0)
        out[at++] = '-';
    while (count)
        out[at++] = digits[--count];
}

static void answer(const char *line)
{
    int64_t mode, n, d, x;
    int refusal;
    number(number(number(line + 5, &mode), &n), &d);
    x = plain_round((uint8_t)mode, n, 1, (uint64_t)d, &refusal);
    out[at++] = refusal ? '!' : '=';
    out[at++] = ' ';
    put(refusal ? refusal : x);
    out[at++] = '\n';
}

int main(void)
{
    char line[4100];
    while (fgets(line, sizeof line, stdin)) {
        if (strncmp(line, "round", 5) == 0)
            answer(line);
        if (sizeof out - at < 5000) {
            fwrite(out, 1, at, stdout);
            at = 0;
        }
    }
    fwrite(out, 1, at, stdout);
    return 0;
}
