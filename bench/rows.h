/* What the rows of the table run: all inputs once, by the library and by plain C; `..agrees` compares the answers on all of them. */
#ifndef ROWS_H
#define ROWS_H
#include <stddef.h>
#include <stdint.h>

/* what the answers add up to, so that no call can be left out */
extern uint64_t sink;

/* HALF_EVEN alone, or each pair's own mode */
void set_modes(int all);
/* numerators by the factor 1, or products that no machine word holds */
void set_products(int on);
/* how many weights a sharing takes */
void set_count(size_t n);
/* whether plain C hands vouchers out one at a time, or the library's way */
void set_one_by_one(int on);
/* the book that the postings start from, and the plain form */
void set_book(uint32_t W, int partners, int skewed, int unit);

void round_ours(void), round_plain(void), convert_ours(void), convert_plain(void), interest_ours(void), interest_plain(void);
void compound_ours(void), compound_plain(void);
/* prices from their net, or from their gross */
void set_from_gross(int on);
void tax_ours(void), tax_plain(void);
int tax_agrees(void);
/* the net for a gross, against the library's own tax from gross */
void net_for_ours(void), tax_gross_ours(void);
void share_ours(void), share_plain(void), vouchers_ours(void), vouchers_plain(void), post_ours(void), post_plain(void);
/* a run of so many calls on the book */
void set_calls(size_t n);
void run_ours(void), run_plain(void);
int run_agrees(void);

int round_agrees(void), convert_agrees(void), interest_agrees(void), compound_agrees(void), net_for_agrees(void), share_agrees(void), vouchers_agree(void), post_agrees(void);
#endif
