/* The aggregate that reruns a book: the rows of one book, gathered and served a batch at a time by the proved run of calls, and counted. */
#ifndef MORSKEBAB_BOOKS_H
#define MORSKEBAB_BOOKS_H
#include "answers.h"

/* so many calls are served together; a cycle of up to 10,000 units is made once for each batch */
#define BATCH 8192

/* what is given of a book with each of its rows: they all say the same */
typedef struct {
    int32_t currency;
    given_weights weights;
    /* the array of the first row as it came, so that an equal one need not be read again */
    struct varlena *array;
} contract;

/* how many rows of a kind there are, and the place of the first among the book's rows, from 1 on */
typedef struct {
    int64_t times, first;
} tally;

typedef struct {
    contract contract;
    uint8_t opening; /* the refusal of the opening */
    int32_t digits;
    mkb_book book; /* after the calls that were served; all noughts where it was not opened */
    int64_t rows, accepted;
    tally not_understood, refused[REFUSALS + 1];
    int128 posted, refunded, paid[MKB_PARTNERS], taken[MKB_PARTNERS];
    /* the calls that await service, with their places among the rows */
    int calls, room;
    bool *refunds;
    int64_t *coefficients, *places;
} rerun;

/* serves the calls that wait */
void serve(rerun *run);

#endif
