\echo Use "CREATE EXTENSION morskebab" to load this file. \quit

-- Amounts are numeric: the scale is the number of digits after the point, so 12.5 and 12.50 are of one worth and two scales, as in document 01. Currencies
-- are codes of three capitals, modes and bases the documents' names. Every other number is numeric too, so that any number of SQL comes as it is: one that
-- its limit doesn't allow, or that isn't whole, is refused with its row's number, and never rounded or cut.
--
-- mkb_NAME gives the value; a refused call is an error whose SQLSTATE is MK and document 01's number in three digits, MK012, with the row's words.
-- mkb_try_NAME takes the same and gives a row, the refusal's number (0: accepted) and the value (null where it is refused), for bulk work.

CREATE TYPE mkb_price AS (net numeric, tax numeric, gross numeric);
CREATE TYPE mkb_columns AS (net numeric, tax numeric);
-- where a statement file begins in the bytes, how many records it has, and the sum of their coefficients
CREATE TYPE mkb_file AS (first bigint, records bigint, sum numeric);
CREATE TYPE mkb_any_file AS (version integer, first bigint, records bigint, sum numeric);
CREATE TYPE mkb_lists AS (currency text, places integer[], amounts numeric[]);
CREATE TYPE mkb_any_lists AS (currency text, places integer[], reasons integer[], amounts numeric[]);

CREATE TYPE mkb_tried_numeric AS (refusal integer, value numeric);
CREATE TYPE mkb_tried_numerics AS (refusal integer, value numeric[]);
CREATE TYPE mkb_tried_integer AS (refusal integer, value integer);
CREATE TYPE mkb_tried_integers AS (refusal integer, value integer[]);
CREATE TYPE mkb_tried_text AS (refusal integer, value text);
CREATE TYPE mkb_tried_double AS (refusal integer, value double precision);
CREATE TYPE mkb_tried_bytes AS (refusal integer, value bytea);
-- blamed is 1 or 2 for the first or the second date with refusal 7, else 0
CREATE TYPE mkb_tried_days AS (refusal integer, blamed integer, value integer);
CREATE TYPE mkb_tried_interest AS (refusal integer, blamed integer, value numeric);
CREATE TYPE mkb_tried_price AS (refusal integer, net numeric, tax numeric, gross numeric);
CREATE TYPE mkb_tried_columns AS (refusal integer, net numeric, tax numeric);
CREATE TYPE mkb_tried_file AS (refusal integer, first bigint, records bigint, sum numeric);
CREATE TYPE mkb_tried_any_file AS (refusal integer, version integer, first bigint, records bigint, sum numeric);
CREATE TYPE mkb_tried_lists AS (refusal integer, currency text, places integer[], amounts numeric[]);
CREATE TYPE mkb_tried_any_lists AS (refusal integer, currency text, places integer[], reasons integer[], amounts numeric[]);

CREATE FUNCTION mkb_version() RETURNS text
    AS 'MODULE_PATHNAME', 'sql_version' LANGUAGE C IMMUTABLE STRICT PARALLEL SAFE;

-- a currency's own scale: refusal 4
CREATE FUNCTION mkb_digits(currency text) RETURNS integer
    AS 'MODULE_PATHNAME', 'sql_digits' LANGUAGE C IMMUTABLE STRICT PARALLEL SAFE;
CREATE FUNCTION mkb_try_digits(currency text) RETURNS mkb_tried_integer
    AS 'MODULE_PATHNAME', 'try_digits' LANGUAGE C IMMUTABLE STRICT PARALLEL SAFE;
-- n / d, or a x b / d with the product exact, rounded by the mode: refusals 1, 3, 6, 13
CREATE FUNCTION mkb_round(mode text, n numeric, d numeric) RETURNS numeric
    AS 'MODULE_PATHNAME', 'sql_round' LANGUAGE C IMMUTABLE STRICT PARALLEL SAFE;
CREATE FUNCTION mkb_round(mode text, a numeric, b numeric, d numeric) RETURNS numeric
    AS 'MODULE_PATHNAME', 'sql_round' LANGUAGE C IMMUTABLE STRICT PARALLEL SAFE;
CREATE FUNCTION mkb_try_round(mode text, n numeric, d numeric) RETURNS mkb_tried_numeric
    AS 'MODULE_PATHNAME', 'try_round' LANGUAGE C IMMUTABLE STRICT PARALLEL SAFE;
CREATE FUNCTION mkb_try_round(mode text, a numeric, b numeric, d numeric) RETURNS mkb_tried_numeric
    AS 'MODULE_PATHNAME', 'try_round' LANGUAGE C IMMUTABLE STRICT PARALLEL SAFE;
-- exact, at the greater of the two scales: refusals 2, 3, 4, 5, 13
CREATE FUNCTION mkb_sum(amount numeric, currency text, other numeric, other_currency text) RETURNS numeric
    AS 'MODULE_PATHNAME', 'sql_sum' LANGUAGE C IMMUTABLE STRICT PARALLEL SAFE;
CREATE FUNCTION mkb_try_sum(amount numeric, currency text, other numeric, other_currency text) RETURNS mkb_tried_numeric
    AS 'MODULE_PATHNAME', 'try_sum' LANGUAGE C IMMUTABLE STRICT PARALLEL SAFE;
-- -1, 0 or 1 where the amount is worth less than the other, as much or more: refusals 2, 3, 4, 5
CREATE FUNCTION mkb_order(amount numeric, currency text, other numeric, other_currency text) RETURNS integer
    AS 'MODULE_PATHNAME', 'sql_order' LANGUAGE C IMMUTABLE STRICT PARALLEL SAFE;
CREATE FUNCTION mkb_try_order(amount numeric, currency text, other numeric, other_currency text) RETURNS mkb_tried_integer
    AS 'MODULE_PATHNAME', 'try_order' LANGUAGE C IMMUTABLE STRICT PARALLEL SAFE;
-- the opposite: refusals 2, 3, 4
CREATE FUNCTION mkb_negate(amount numeric, currency text) RETURNS numeric
    AS 'MODULE_PATHNAME', 'sql_negate' LANGUAGE C IMMUTABLE STRICT PARALLEL SAFE;
CREATE FUNCTION mkb_try_negate(amount numeric, currency text) RETURNS mkb_tried_numeric
    AS 'MODULE_PATHNAME', 'try_negate' LANGUAGE C IMMUTABLE STRICT PARALLEL SAFE;
-- exact to a greater scale, rounded by the mode to a smaller one: refusals 1, 2, 3, 4, 13
CREATE FUNCTION mkb_rescale(amount numeric, currency text, scale numeric, mode text) RETURNS numeric
    AS 'MODULE_PATHNAME', 'sql_rescale' LANGUAGE C IMMUTABLE STRICT PARALLEL SAFE;
CREATE FUNCTION mkb_try_rescale(amount numeric, currency text, scale numeric, mode text) RETURNS mkb_tried_numeric
    AS 'MODULE_PATHNAME', 'try_rescale' LANGUAGE C IMMUTABLE STRICT PARALLEL SAFE;
-- the amount in the currency `target`, by Council Regulation (EC) No 1103/97, by a euro step of 3 decimals or of 3 to 6: refusals 2, 3, 4, 13
CREATE FUNCTION mkb_convert(amount numeric, currency text, target text) RETURNS numeric
    AS 'MODULE_PATHNAME', 'sql_convert' LANGUAGE C IMMUTABLE STRICT PARALLEL SAFE;
CREATE FUNCTION mkb_convert(amount numeric, currency text, target text, decimals numeric) RETURNS numeric
    AS 'MODULE_PATHNAME', 'sql_convert' LANGUAGE C IMMUTABLE STRICT PARALLEL SAFE;
CREATE FUNCTION mkb_try_convert(amount numeric, currency text, target text) RETURNS mkb_tried_numeric
    AS 'MODULE_PATHNAME', 'try_convert' LANGUAGE C IMMUTABLE STRICT PARALLEL SAFE;
CREATE FUNCTION mkb_try_convert(amount numeric, currency text, target text, decimals numeric) RETURNS mkb_tried_numeric
    AS 'MODULE_PATHNAME', 'try_convert' LANGUAGE C IMMUTABLE STRICT PARALLEL SAFE;
-- the days from the start to the end by the basis: refusals 6, 7, 8
CREATE FUNCTION mkb_day_count(basis text, start_date date, end_date date) RETURNS integer
    AS 'MODULE_PATHNAME', 'sql_day_count' LANGUAGE C IMMUTABLE STRICT PARALLEL SAFE;
CREATE FUNCTION mkb_try_day_count(basis text, start_date date, end_date date) RETURNS mkb_tried_days
    AS 'MODULE_PATHNAME', 'try_day_count' LANGUAGE C IMMUTABLE STRICT PARALLEL SAFE;
-- principal x rate x days / (10,000 x year), rounded once at the principal's scale: refusals 1, 2, 3, 4, 6, 7, 8, 13
CREATE FUNCTION mkb_interest(principal numeric, currency text, rate numeric, basis text, start_date date, end_date date, mode text) RETURNS numeric
    AS 'MODULE_PATHNAME', 'sql_interest' LANGUAGE C IMMUTABLE STRICT PARALLEL SAFE;
CREATE FUNCTION mkb_try_interest(principal numeric, currency text, rate numeric, basis text, start_date date, end_date date, mode text) RETURNS mkb_tried_interest
    AS 'MODULE_PATHNAME', 'try_interest' LANGUAGE C IMMUTABLE STRICT PARALLEL SAFE;
-- the principal and its balance after each period, each rounded HALF_EVEN: refusals 2, 3, 4, 6, 10, 13
CREATE FUNCTION mkb_compound(principal numeric, currency text, rate numeric, periods numeric) RETURNS numeric[]
    AS 'MODULE_PATHNAME', 'sql_compound' LANGUAGE C IMMUTABLE STRICT PARALLEL SAFE;
CREATE FUNCTION mkb_try_compound(principal numeric, currency text, rate numeric, periods numeric) RETURNS mkb_tried_numerics
    AS 'MODULE_PATHNAME', 'try_compound' LANGUAGE C IMMUTABLE STRICT PARALLEL SAFE;
-- tax = net x rate / 1,000,000, rounded by the mode: refusals 1, 2, 3, 4, 6, 13
CREATE FUNCTION mkb_tax_from_net(net numeric, currency text, rate numeric, mode text) RETURNS mkb_price
    AS 'MODULE_PATHNAME', 'sql_tax_from_net' LANGUAGE C IMMUTABLE STRICT PARALLEL SAFE;
CREATE FUNCTION mkb_try_tax_from_net(net numeric, currency text, rate numeric, mode text) RETURNS mkb_tried_price
    AS 'MODULE_PATHNAME', 'try_tax_from_net' LANGUAGE C IMMUTABLE STRICT PARALLEL SAFE;
-- tax = gross x rate / (1,000,000 + rate), rounded by the mode: refusals 1, 2, 3, 4, 6
CREATE FUNCTION mkb_tax_from_gross(gross numeric, currency text, rate numeric, mode text) RETURNS mkb_price
    AS 'MODULE_PATHNAME', 'sql_tax_from_gross' LANGUAGE C IMMUTABLE STRICT PARALLEL SAFE;
CREATE FUNCTION mkb_try_tax_from_gross(gross numeric, currency text, rate numeric, mode text) RETURNS mkb_tried_price
    AS 'MODULE_PATHNAME', 'try_tax_from_gross' LANGUAGE C IMMUTABLE STRICT PARALLEL SAFE;
-- the price of the only net that has this gross: refusals 1, 2, 3, 4, 6, and 15 where no net has it
CREATE FUNCTION mkb_net_for(gross numeric, currency text, rate numeric, mode text) RETURNS mkb_price
    AS 'MODULE_PATHNAME', 'sql_net_for' LANGUAGE C IMMUTABLE STRICT PARALLEL SAFE;
CREATE FUNCTION mkb_try_net_for(gross numeric, currency text, rate numeric, mode text) RETURNS mkb_tried_price
    AS 'MODULE_PATHNAME', 'try_net_for' LANGUAGE C IMMUTABLE STRICT PARALLEL SAFE;
-- shares by largest remainder, one for each weight: refusals 2, 3, 4, 9
CREATE FUNCTION mkb_share(amount numeric, currency text, weights integer[]) RETURNS numeric[]
    AS 'MODULE_PATHNAME', 'sql_share' LANGUAGE C IMMUTABLE STRICT PARALLEL SAFE;
CREATE FUNCTION mkb_share(amount numeric, currency text, weights numeric[]) RETURNS numeric[]
    AS 'MODULE_PATHNAME', 'sql_share' LANGUAGE C IMMUTABLE STRICT PARALLEL SAFE;
CREATE FUNCTION mkb_try_share(amount numeric, currency text, weights integer[]) RETURNS mkb_tried_numerics
    AS 'MODULE_PATHNAME', 'try_share' LANGUAGE C IMMUTABLE STRICT PARALLEL SAFE;
CREATE FUNCTION mkb_try_share(amount numeric, currency text, weights numeric[]) RETURNS mkb_tried_numerics
    AS 'MODULE_PATHNAME', 'try_share' LANGUAGE C IMMUTABLE STRICT PARALLEL SAFE;
-- whole vouchers by highest average, so many for each weight: refusals 6, 9
CREATE FUNCTION mkb_vouchers(vouchers numeric, weights integer[]) RETURNS integer[]
    AS 'MODULE_PATHNAME', 'sql_vouchers' LANGUAGE C IMMUTABLE STRICT PARALLEL SAFE;
CREATE FUNCTION mkb_vouchers(vouchers numeric, weights numeric[]) RETURNS integer[]
    AS 'MODULE_PATHNAME', 'sql_vouchers' LANGUAGE C IMMUTABLE STRICT PARALLEL SAFE;
CREATE FUNCTION mkb_try_vouchers(vouchers numeric, weights integer[]) RETURNS mkb_tried_integers
    AS 'MODULE_PATHNAME', 'try_vouchers' LANGUAGE C IMMUTABLE STRICT PARALLEL SAFE;
CREATE FUNCTION mkb_try_vouchers(vouchers numeric, weights numeric[]) RETURNS mkb_tried_integers
    AS 'MODULE_PATHNAME', 'try_vouchers' LANGUAGE C IMMUTABLE STRICT PARALLEL SAFE;
-- each partner's running total in a book of these weights at a net total: the contract's figures; refusals 2, 3, 4, 9, 10
CREATE FUNCTION mkb_totals(net numeric, currency text, weights integer[]) RETURNS numeric[]
    AS 'MODULE_PATHNAME', 'sql_totals' LANGUAGE C IMMUTABLE STRICT PARALLEL SAFE;
CREATE FUNCTION mkb_totals(net numeric, currency text, weights numeric[]) RETURNS numeric[]
    AS 'MODULE_PATHNAME', 'sql_totals' LANGUAGE C IMMUTABLE STRICT PARALLEL SAFE;
CREATE FUNCTION mkb_try_totals(net numeric, currency text, weights integer[]) RETURNS mkb_tried_numerics
    AS 'MODULE_PATHNAME', 'try_totals' LANGUAGE C IMMUTABLE STRICT PARALLEL SAFE;
CREATE FUNCTION mkb_try_totals(net numeric, currency text, weights numeric[]) RETURNS mkb_tried_numerics
    AS 'MODULE_PATHNAME', 'try_totals' LANGUAGE C IMMUTABLE STRICT PARALLEL SAFE;
-- what a posting pays each partner of a book at a net total, the amount in the book's currency or in another: refusals 2, 3, 4, 5, 9, 10, 13
CREATE FUNCTION mkb_post(net numeric, currency text, weights integer[], amount numeric) RETURNS numeric[]
    AS 'MODULE_PATHNAME', 'sql_post' LANGUAGE C IMMUTABLE STRICT PARALLEL SAFE;
CREATE FUNCTION mkb_post(net numeric, currency text, weights numeric[], amount numeric) RETURNS numeric[]
    AS 'MODULE_PATHNAME', 'sql_post' LANGUAGE C IMMUTABLE STRICT PARALLEL SAFE;
CREATE FUNCTION mkb_post(net numeric, currency text, weights integer[], amount numeric, amount_currency text) RETURNS numeric[]
    AS 'MODULE_PATHNAME', 'sql_post' LANGUAGE C IMMUTABLE STRICT PARALLEL SAFE;
CREATE FUNCTION mkb_post(net numeric, currency text, weights numeric[], amount numeric, amount_currency text) RETURNS numeric[]
    AS 'MODULE_PATHNAME', 'sql_post' LANGUAGE C IMMUTABLE STRICT PARALLEL SAFE;
CREATE FUNCTION mkb_try_post(net numeric, currency text, weights integer[], amount numeric) RETURNS mkb_tried_numerics
    AS 'MODULE_PATHNAME', 'try_post' LANGUAGE C IMMUTABLE STRICT PARALLEL SAFE;
CREATE FUNCTION mkb_try_post(net numeric, currency text, weights numeric[], amount numeric) RETURNS mkb_tried_numerics
    AS 'MODULE_PATHNAME', 'try_post' LANGUAGE C IMMUTABLE STRICT PARALLEL SAFE;
CREATE FUNCTION mkb_try_post(net numeric, currency text, weights integer[], amount numeric, amount_currency text) RETURNS mkb_tried_numerics
    AS 'MODULE_PATHNAME', 'try_post' LANGUAGE C IMMUTABLE STRICT PARALLEL SAFE;
CREATE FUNCTION mkb_try_post(net numeric, currency text, weights numeric[], amount numeric, amount_currency text) RETURNS mkb_tried_numerics
    AS 'MODULE_PATHNAME', 'try_post' LANGUAGE C IMMUTABLE STRICT PARALLEL SAFE;
-- what a refund takes back from each: refusals 2, 3, 4, 5, 9, 10, 12
CREATE FUNCTION mkb_refund(net numeric, currency text, weights integer[], amount numeric) RETURNS numeric[]
    AS 'MODULE_PATHNAME', 'sql_refund' LANGUAGE C IMMUTABLE STRICT PARALLEL SAFE;
CREATE FUNCTION mkb_refund(net numeric, currency text, weights numeric[], amount numeric) RETURNS numeric[]
    AS 'MODULE_PATHNAME', 'sql_refund' LANGUAGE C IMMUTABLE STRICT PARALLEL SAFE;
CREATE FUNCTION mkb_refund(net numeric, currency text, weights integer[], amount numeric, amount_currency text) RETURNS numeric[]
    AS 'MODULE_PATHNAME', 'sql_refund' LANGUAGE C IMMUTABLE STRICT PARALLEL SAFE;
CREATE FUNCTION mkb_refund(net numeric, currency text, weights numeric[], amount numeric, amount_currency text) RETURNS numeric[]
    AS 'MODULE_PATHNAME', 'sql_refund' LANGUAGE C IMMUTABLE STRICT PARALLEL SAFE;
CREATE FUNCTION mkb_try_refund(net numeric, currency text, weights integer[], amount numeric) RETURNS mkb_tried_numerics
    AS 'MODULE_PATHNAME', 'try_refund' LANGUAGE C IMMUTABLE STRICT PARALLEL SAFE;
CREATE FUNCTION mkb_try_refund(net numeric, currency text, weights numeric[], amount numeric) RETURNS mkb_tried_numerics
    AS 'MODULE_PATHNAME', 'try_refund' LANGUAGE C IMMUTABLE STRICT PARALLEL SAFE;
CREATE FUNCTION mkb_try_refund(net numeric, currency text, weights integer[], amount numeric, amount_currency text) RETURNS mkb_tried_numerics
    AS 'MODULE_PATHNAME', 'try_refund' LANGUAGE C IMMUTABLE STRICT PARALLEL SAFE;
CREATE FUNCTION mkb_try_refund(net numeric, currency text, weights numeric[], amount numeric, amount_currency text) RETURNS mkb_tried_numerics
    AS 'MODULE_PATHNAME', 'try_refund' LANGUAGE C IMMUTABLE STRICT PARALLEL SAFE;
-- the amount that a text is, with the text's scale: refusals 4, 14, 13
CREATE FUNCTION mkb_read(given text, currency text) RETURNS numeric
    AS 'MODULE_PATHNAME', 'sql_read' LANGUAGE C IMMUTABLE STRICT PARALLEL SAFE;
CREATE FUNCTION mkb_try_read(given text, currency text) RETURNS mkb_tried_numeric
    AS 'MODULE_PATHNAME', 'try_read' LANGUAGE C IMMUTABLE STRICT PARALLEL SAFE;
-- the amount's only text: refusals 2, 3, 4
CREATE FUNCTION mkb_write(amount numeric, currency text) RETURNS text
    AS 'MODULE_PATHNAME', 'sql_write' LANGUAGE C IMMUTABLE STRICT PARALLEL SAFE;
CREATE FUNCTION mkb_try_write(amount numeric, currency text) RETURNS mkb_tried_text
    AS 'MODULE_PATHNAME', 'try_write' LANGUAGE C IMMUTABLE STRICT PARALLEL SAFE;
-- two doubles as amounts at a scale of 0 to 3, from their exact worth: refusals 1, 2, 4, 13, 16
CREATE FUNCTION mkb_row(net double precision, tax double precision, currency text, scale numeric, mode text) RETURNS mkb_columns
    AS 'MODULE_PATHNAME', 'sql_row' LANGUAGE C IMMUTABLE STRICT PARALLEL SAFE;
CREATE FUNCTION mkb_try_row(net double precision, tax double precision, currency text, scale numeric, mode text) RETURNS mkb_tried_columns
    AS 'MODULE_PATHNAME', 'try_row' LANGUAGE C IMMUTABLE STRICT PARALLEL SAFE;
-- an amount as a double, for a scale of 0 to 3: refusals 2, 3, 4
CREATE FUNCTION mkb_export(amount numeric, currency text) RETURNS double precision
    AS 'MODULE_PATHNAME', 'sql_export' LANGUAGE C IMMUTABLE STRICT PARALLEL SAFE;
CREATE FUNCTION mkb_try_export(amount numeric, currency text) RETURNS mkb_tried_double
    AS 'MODULE_PATHNAME', 'try_export' LANGUAGE C IMMUTABLE STRICT PARALLEL SAFE;
-- a statement file: a record for each payout, its partner's place (0 to 15) and its amount at the currency's own digits; with a reason of 0 to 99 for
-- each it is a file of version 2: refusals 2, 3, 4, 9, 11
CREATE FUNCTION mkb_statement(currency text, places integer[], amounts numeric[]) RETURNS bytea
    AS 'MODULE_PATHNAME', 'sql_statement' LANGUAGE C IMMUTABLE STRICT PARALLEL SAFE;
CREATE FUNCTION mkb_try_statement(currency text, places integer[], amounts numeric[]) RETURNS mkb_tried_bytes
    AS 'MODULE_PATHNAME', 'try_statement' LANGUAGE C IMMUTABLE STRICT PARALLEL SAFE;
CREATE FUNCTION mkb_statement(currency text, places integer[], reasons integer[], amounts numeric[]) RETURNS bytea
    AS 'MODULE_PATHNAME', 'sql_statement' LANGUAGE C IMMUTABLE STRICT PARALLEL SAFE;
CREATE FUNCTION mkb_try_statement(currency text, places integer[], reasons integer[], amounts numeric[]) RETURNS mkb_tried_bytes
    AS 'MODULE_PATHNAME', 'try_statement' LANGUAGE C IMMUTABLE STRICT PARALLEL SAFE;
-- the statement file of version 1 that the bytes end in: refusals 17 where it is of version 2, 14 where they end in none; and that of either version
CREATE FUNCTION mkb_check_statement(bytes bytea) RETURNS mkb_file
    AS 'MODULE_PATHNAME', 'sql_check_statement' LANGUAGE C IMMUTABLE STRICT PARALLEL SAFE;
CREATE FUNCTION mkb_try_check_statement(bytes bytea) RETURNS mkb_tried_file
    AS 'MODULE_PATHNAME', 'try_check_statement' LANGUAGE C IMMUTABLE STRICT PARALLEL SAFE;
CREATE FUNCTION mkb_check_any(bytes bytea) RETURNS mkb_any_file
    AS 'MODULE_PATHNAME', 'sql_check_any' LANGUAGE C IMMUTABLE STRICT PARALLEL SAFE;
CREATE FUNCTION mkb_try_check_any(bytes bytea) RETURNS mkb_tried_any_file
    AS 'MODULE_PATHNAME', 'try_check_any' LANGUAGE C IMMUTABLE STRICT PARALLEL SAFE;
-- what such a file was written from; one without a record has no currency, and a record of version 1 the reason 0
CREATE FUNCTION mkb_payouts(bytes bytea) RETURNS mkb_lists
    AS 'MODULE_PATHNAME', 'sql_payouts' LANGUAGE C IMMUTABLE STRICT PARALLEL SAFE;
CREATE FUNCTION mkb_try_payouts(bytes bytea) RETURNS mkb_tried_lists
    AS 'MODULE_PATHNAME', 'try_payouts' LANGUAGE C IMMUTABLE STRICT PARALLEL SAFE;
CREATE FUNCTION mkb_any_payouts(bytes bytea) RETURNS mkb_any_lists
    AS 'MODULE_PATHNAME', 'sql_any_payouts' LANGUAGE C IMMUTABLE STRICT PARALLEL SAFE;
CREATE FUNCTION mkb_try_any_payouts(bytes bytea) RETURNS mkb_tried_any_lists
    AS 'MODULE_PATHNAME', 'try_any_payouts' LANGUAGE C IMMUTABLE STRICT PARALLEL SAFE;

-- rerun's report on a book, as a row. refusal is the opening's, 0 where it is accepted; what only an opened book has is null elsewhere. A place of
-- refused_times and refused_first is the refusal's number: how many rows were refused with it, and the first of them, by its place among the book's rows
-- from 1 on (0: none). paid, taken, totals, least and most have a place for each partner; check_ok is the report's check.
CREATE TYPE mkb_report AS (
    refusal integer, currency text, weights integer[],
    accepted bigint, refused bigint, not_understood bigint, not_understood_first bigint, refused_times bigint[], refused_first bigint[],
    posted numeric, refunded numeric, net numeric,
    paid numeric[], taken numeric[], totals numeric[], least numeric[], most numeric[], check_ok boolean
);

-- mkb_book(.. ORDER BY ..) runs the rows of a book again, in their order, by the proved run of calls: kind is 'post' or 'refund', any other is not
-- understood; all rows of a book have its weights, and its currency where it isn't the euro; an amount may have a currency of its own. A row without kind
-- and amount, as an outer join gives it, is no movement. Where the opening is refused mkb_book is an error, and mkb_try_book's report has its number.
CREATE FUNCTION mkb_book_row(state internal, weights integer[], kind text, amount numeric) RETURNS internal
    AS 'MODULE_PATHNAME', 'sql_book_row' LANGUAGE C IMMUTABLE PARALLEL SAFE;
CREATE FUNCTION mkb_book_row(state internal, weights numeric[], kind text, amount numeric) RETURNS internal
    AS 'MODULE_PATHNAME', 'sql_book_row' LANGUAGE C IMMUTABLE PARALLEL SAFE;
CREATE FUNCTION mkb_book_row(state internal, currency text, weights integer[], kind text, amount numeric) RETURNS internal
    AS 'MODULE_PATHNAME', 'sql_book_row' LANGUAGE C IMMUTABLE PARALLEL SAFE;
CREATE FUNCTION mkb_book_row(state internal, currency text, weights numeric[], kind text, amount numeric) RETURNS internal
    AS 'MODULE_PATHNAME', 'sql_book_row' LANGUAGE C IMMUTABLE PARALLEL SAFE;
CREATE FUNCTION mkb_book_row(state internal, currency text, weights integer[], kind text, amount numeric, amount_currency text) RETURNS internal
    AS 'MODULE_PATHNAME', 'sql_book_row' LANGUAGE C IMMUTABLE PARALLEL SAFE;
CREATE FUNCTION mkb_book_row(state internal, currency text, weights numeric[], kind text, amount numeric, amount_currency text) RETURNS internal
    AS 'MODULE_PATHNAME', 'sql_book_row' LANGUAGE C IMMUTABLE PARALLEL SAFE;
CREATE FUNCTION mkb_book_report(state internal) RETURNS mkb_report
    AS 'MODULE_PATHNAME', 'sql_book_report' LANGUAGE C IMMUTABLE PARALLEL SAFE;
CREATE FUNCTION mkb_try_book_report(state internal) RETURNS mkb_report
    AS 'MODULE_PATHNAME', 'try_book_report' LANGUAGE C IMMUTABLE PARALLEL SAFE;
CREATE AGGREGATE mkb_book(weights integer[], kind text, amount numeric)
    (SFUNC = mkb_book_row, STYPE = internal, SSPACE = 20000, FINALFUNC = mkb_book_report, PARALLEL = SAFE);
CREATE AGGREGATE mkb_book(weights numeric[], kind text, amount numeric)
    (SFUNC = mkb_book_row, STYPE = internal, SSPACE = 20000, FINALFUNC = mkb_book_report, PARALLEL = SAFE);
CREATE AGGREGATE mkb_book(currency text, weights integer[], kind text, amount numeric)
    (SFUNC = mkb_book_row, STYPE = internal, SSPACE = 20000, FINALFUNC = mkb_book_report, PARALLEL = SAFE);
CREATE AGGREGATE mkb_book(currency text, weights numeric[], kind text, amount numeric)
    (SFUNC = mkb_book_row, STYPE = internal, SSPACE = 20000, FINALFUNC = mkb_book_report, PARALLEL = SAFE);
CREATE AGGREGATE mkb_book(currency text, weights integer[], kind text, amount numeric, amount_currency text)
    (SFUNC = mkb_book_row, STYPE = internal, SSPACE = 20000, FINALFUNC = mkb_book_report, PARALLEL = SAFE);
CREATE AGGREGATE mkb_book(currency text, weights numeric[], kind text, amount numeric, amount_currency text)
    (SFUNC = mkb_book_row, STYPE = internal, SSPACE = 20000, FINALFUNC = mkb_book_report, PARALLEL = SAFE);
CREATE AGGREGATE mkb_try_book(weights integer[], kind text, amount numeric)
    (SFUNC = mkb_book_row, STYPE = internal, SSPACE = 20000, FINALFUNC = mkb_try_book_report, PARALLEL = SAFE);
CREATE AGGREGATE mkb_try_book(weights numeric[], kind text, amount numeric)
    (SFUNC = mkb_book_row, STYPE = internal, SSPACE = 20000, FINALFUNC = mkb_try_book_report, PARALLEL = SAFE);
CREATE AGGREGATE mkb_try_book(currency text, weights integer[], kind text, amount numeric)
    (SFUNC = mkb_book_row, STYPE = internal, SSPACE = 20000, FINALFUNC = mkb_try_book_report, PARALLEL = SAFE);
CREATE AGGREGATE mkb_try_book(currency text, weights numeric[], kind text, amount numeric)
    (SFUNC = mkb_book_row, STYPE = internal, SSPACE = 20000, FINALFUNC = mkb_try_book_report, PARALLEL = SAFE);
CREATE AGGREGATE mkb_try_book(currency text, weights integer[], kind text, amount numeric, amount_currency text)
    (SFUNC = mkb_book_row, STYPE = internal, SSPACE = 20000, FINALFUNC = mkb_try_book_report, PARALLEL = SAFE);
CREATE AGGREGATE mkb_try_book(currency text, weights numeric[], kind text, amount numeric, amount_currency text)
    (SFUNC = mkb_book_row, STYPE = internal, SSPACE = 20000, FINALFUNC = mkb_try_book_report, PARALLEL = SAFE);

-- The same run, of the calls in two lists, with a row for each call: its place from 1 on; its refusal, null where its kind is not understood; the net total
-- behind it; and what each partner is paid, or what is taken back from each, null where it is refused. Lists of unequal length are refused with 9, and a
-- null in them is an error. Where the opening is refused mkb_run is an error, and mkb_try_run has every call refused.
CREATE TYPE mkb_call AS (place integer, refusal integer, net numeric, payouts numeric[]);
CREATE FUNCTION mkb_run(currency text, weights integer[], kinds text[], amounts numeric[]) RETURNS SETOF mkb_call
    AS 'MODULE_PATHNAME', 'sql_run' LANGUAGE C IMMUTABLE STRICT PARALLEL SAFE;
CREATE FUNCTION mkb_run(currency text, weights numeric[], kinds text[], amounts numeric[]) RETURNS SETOF mkb_call
    AS 'MODULE_PATHNAME', 'sql_run' LANGUAGE C IMMUTABLE STRICT PARALLEL SAFE;
CREATE FUNCTION mkb_try_run(currency text, weights integer[], kinds text[], amounts numeric[]) RETURNS SETOF mkb_call
    AS 'MODULE_PATHNAME', 'try_run' LANGUAGE C IMMUTABLE STRICT PARALLEL SAFE;
CREATE FUNCTION mkb_try_run(currency text, weights numeric[], kinds text[], amounts numeric[]) RETURNS SETOF mkb_call
    AS 'MODULE_PATHNAME', 'try_run' LANGUAGE C IMMUTABLE STRICT PARALLEL SAFE;
