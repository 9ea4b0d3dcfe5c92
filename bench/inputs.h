/* The inputs of the bench, drawn from one seed, the same for the library and for plain C. */
#ifndef INPUTS_H
#define INPUTS_H
#include "../bindings/c/morskebab.h"
#include "plain.h"

/* document 01's L */
#define OLD_L UINT64_C(99999999999)
#define SEED UINT64_C(19990101)
#define PAIRS 4096
#define AMOUNTS 1024
#define LISTS 256
#define POSTINGS 256
#define CALLS 32768

typedef struct {
    uint8_t mode;
    int64_t n, factor;
    uint64_t d;
} pair;

typedef struct {
    mkb_amount a;
    uint8_t to;
} exchange;

typedef struct {
    mkb_amount principal;
    uint32_t rate;
    uint8_t basis, mode;
    mkb_date start, end;
} loan;

typedef struct {
    mkb_amount a;
    uint32_t rate;
    uint8_t mode;
} price;

typedef struct {
    mkb_amount a;
    uint32_t weights[64];
} list;

/* numerators by the factor 1, and products that no machine word holds */
extern pair pairs[PAIRS], products[PAIRS];
extern exchange exchanges[AMOUNTS];
extern loan loans[AMOUNTS];
extern price prices[AMOUNTS];
extern list lists[LISTS];
extern mkb_amount postings[POSTINGS];
/* a run's movements: one in four is a refund */
extern bool refunds[CALLS];
extern int64_t coefficients[CALLS];

void draw_inputs(void);

/* the amounts of conversions, loans, prices and sharings, drawn anew up to a largest one; conversions and prices such that they are accepted */
void draw_amounts(uint64_t conversion, uint64_t largest);

/* the weights of a book with sum W: at random, or one of 1, one that has nine tenths and more, and what is left between the others */
void draw_weights(uint32_t weights[16], uint32_t W, int partners, int skewed);
#endif
