/* The header's structs have the layout that the library was compiled with; a compiler that lays them out otherwise refuses this file.
 * A #[repr(C)] struct has each field at the next place that suits its size. */
#include "morskebab.h"

#define SIZE(type, bytes) _Static_assert(sizeof(type) == (bytes), #type)
#define AT(type, field, place) _Static_assert(offsetof(type, field) == (place), #type "." #field)

SIZE(mkb_amount, 16); AT(mkb_amount, currency, 0); AT(mkb_amount, scale, 4); AT(mkb_amount, coefficient, 8);
SIZE(mkb_date, 12); AT(mkb_date, year, 0); AT(mkb_date, month, 4); AT(mkb_date, day, 8);
SIZE(mkb_book, 216); AT(mkb_book, currency, 0); AT(mkb_book, count, 4); AT(mkb_book, weights, 8); AT(mkb_book, net, 72);
AT(mkb_book, card, 80); AT(mkb_book, settled, 88);
SIZE(mkb_line, 16); AT(mkb_line, code, 0); AT(mkb_line, places, 3); AT(mkb_line, digits, 4); AT(mkb_line, figures, 8);
SIZE(mkb_whole, 16); AT(mkb_whole, refusal, 0); AT(mkb_whole, blamed, 1); AT(mkb_whole, value, 8);
SIZE(mkb_amount_answer, 24); AT(mkb_amount_answer, blamed, 1); AT(mkb_amount_answer, amount, 8);
SIZE(mkb_order_answer, 3); AT(mkb_order_answer, blamed, 1); AT(mkb_order_answer, order, 2);
SIZE(mkb_days, 8); AT(mkb_days, blamed, 1); AT(mkb_days, days, 4);
SIZE(mkb_split, 56); AT(mkb_split, blamed, 1); AT(mkb_split, net, 8); AT(mkb_split, tax, 24); AT(mkb_split, gross, 40);
SIZE(mkb_columns, 16); AT(mkb_columns, net, 0); AT(mkb_columns, tax, 8);
SIZE(mkb_row_answer, 40); AT(mkb_row_answer, blamed, 1); AT(mkb_row_answer, net, 8); AT(mkb_row_answer, tax, 24);
SIZE(mkb_double, 16); AT(mkb_double, blamed, 1); AT(mkb_double, value, 8);
SIZE(mkb_written, 16); AT(mkb_written, blamed, 1); AT(mkb_written, length, 8);
SIZE(mkb_opened, 224); AT(mkb_opened, blamed, 1); AT(mkb_opened, book, 8);
SIZE(mkb_moved, 352); AT(mkb_moved, blamed, 1); AT(mkb_moved, book, 8); AT(mkb_moved, payouts, 224);
SIZE(mkb_totals, 136); AT(mkb_totals, blamed, 1); AT(mkb_totals, totals, 8);
SIZE(mkb_ran, 232); AT(mkb_ran, blamed, 1); AT(mkb_ran, book, 8); AT(mkb_ran, served, 224);
SIZE(mkb_end, 16); AT(mkb_end, blamed, 1); AT(mkb_end, end, 8);
SIZE(mkb_statement, 32); AT(mkb_statement, blamed, 1); AT(mkb_statement, first, 8); AT(mkb_statement, count, 16); AT(mkb_statement, sum, 24);
SIZE(mkb_first, 16); AT(mkb_first, blamed, 1); AT(mkb_first, first, 8);
SIZE(mkb_step, 24); AT(mkb_step, next, 0); AT(mkb_step, ended, 8); AT(mkb_step, place, 10); AT(mkb_step, currency, 12); AT(mkb_step, coefficient, 16);
SIZE(mkb_any_statement, 32); AT(mkb_any_statement, blamed, 1); AT(mkb_any_statement, version, 2); AT(mkb_any_statement, first, 8);
AT(mkb_any_statement, count, 16); AT(mkb_any_statement, sum, 24);
SIZE(mkb_any_step, 24); AT(mkb_any_step, next, 0); AT(mkb_any_step, ended, 8); AT(mkb_any_step, place, 10); AT(mkb_any_step, currency, 12);
AT(mkb_any_step, reason, 14); AT(mkb_any_step, coefficient, 16);
