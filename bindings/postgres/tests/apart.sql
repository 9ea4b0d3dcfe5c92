-- In how many books the run of two lists comes to something else than the aggregate's: what was accepted and refused, the net total, and what the first
-- partner was paid and what was taken back from it.
WITH lists AS (
    SELECT mkb_try_book(c.currency, c.weights, p.kind, p.amount ORDER BY p.line) AS r, c.currency, c.weights,
        array_agg(p.kind ORDER BY p.line) AS kinds, array_agg(p.amount ORDER BY p.line) AS amounts
    FROM contracts c JOIN postings p USING (book) GROUP BY book
)
SELECT count(*)
FROM lists, LATERAL (
    SELECT count(*) FILTER (WHERE refusal = 0) AS accepted, count(*) FILTER (WHERE refusal > 0) AS refused, count(*) FILTER (WHERE refusal IS NULL) AS not_understood,
        (array_agg(net ORDER BY place DESC))[1] AS net,
        sum(payouts[1]) FILTER (WHERE kinds[place] = 'post') AS paid, sum(payouts[1]) FILTER (WHERE kinds[place] = 'refund') AS taken
    FROM mkb_try_run(currency, weights, kinds, amounts)
) run
WHERE (run.accepted, run.refused, run.not_understood, run.net) IS DISTINCT FROM ((r).accepted, (r).refused, (r).not_understood, (r).net)
    OR coalesce(run.paid, 0) <> coalesce((r).paid[1], 0) OR coalesce(run.taken, 0) <> coalesce((r).taken[1], 0);
