-- Why a plain sum of net is not enough. Of rows that no book refuses for themselves: the books in which a refund was refused are those whose windowed
-- running sum falls below 0, the first refused row is its first row there, and in those books alone the plain sum is not the net total. Gives how many
-- books there are, in how many a refund was refused, and how many don't fit.
WITH sound AS (
    SELECT book, c.currency, c.weights, p.kind, p.amount, p.line, CASE p.kind WHEN 'refund' THEN -p.amount ELSE p.amount END AS moved
    FROM contracts c JOIN postings p USING (book)
    WHERE p.currency = c.currency AND p.kind IN ('post', 'refund') AND p.amount BETWEEN 0 AND 1000000
        AND (mkb_try_totals(p.amount, c.currency, c.weights)).refusal = 0
), reported AS (
    SELECT book, mkb_book(currency, weights, kind, amount ORDER BY line) AS r, sum(moved) AS plain FROM sound GROUP BY book
), running AS (
    SELECT book, row_number() OVER w AS place, sum(moved) OVER w AS net FROM sound WINDOW w AS (PARTITION BY book ORDER BY line)
), below AS (
    SELECT book, min(place) AS first FROM running WHERE net < 0 GROUP BY book
)
SELECT count(*), count(first),
    count(*) FILTER (WHERE coalesce(first, 0) <> (r).refused_first[12] OR (first IS NULL) <> (plain = (r).net) OR (r).refused <> (r).refused_times[12])
FROM reported LEFT JOIN below USING (book);
