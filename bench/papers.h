/* Rows for what is read from paper and written to it: texts, rows of doubles, statement files. */
#ifndef PAPERS_H
#define PAPERS_H
#include <stddef.h>

#define TEXTS 1024
#define RECORDS 4000

void draw_papers(void);
void read_ours(void), read_plain(void), write_ours(void), write_plain(void), rows_ours(void), rows_plain(void);
void statement_ours(void), statement_plain(void), check_ours(void), check_plain(void), view_ours(void), view_plain(void);
int read_agrees(void), write_agrees(void), rows_agree(void), statement_agrees(void), check_agrees(void), view_agrees(void);
#endif
