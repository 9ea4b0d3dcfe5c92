/* Refusals as errors: document 01's and 02's rows in words. */
#include "answers.h"

static const char *const words[REFUSALS + 1] = {
#include "rows.h"
};

/* MK and the number in three digits */
static int
sqlstate_of(uint8_t refusal)
{
    return MAKE_SQLSTATE('M', 'K', '0' + refusal / 100, '0' + refusal / 10 % 10, '0' + refusal % 10);
}

void
raise_refusal(uint8_t refusal, uint8_t blamed, const char *flaw)
{
    static const char *const dates[] = {"", " (the first date)", " (the second date)"};
    ereport(ERROR, (errcode(sqlstate_of(refusal)), errmsg("refusal %d: %s%s", refusal, words[refusal], dates[blamed]),
                    flaw != NULL ? errdetail("%s.", flaw) : 0));
    pg_unreachable();
}
