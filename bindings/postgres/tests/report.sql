-- rerun's report, line by line, from the aggregate's row; `opened` is the line of the book's opening, and the book's rows are the lines behind it.
CREATE FUNCTION report_lines(r mkb_report, opened bigint) RETURNS text LANGUAGE sql AS $$
    SELECT concat_ws(E'\n',
        CASE r.refusal WHEN 0 THEN format('book %s weights %s', r.currency, array_to_string(r.weights, ' ')) ELSE format('book refused %s', r.refusal) END,
        format('lines %s accepted %s refused %s not understood', r.accepted, r.refused, r.not_understood),
        CASE WHEN r.not_understood > 0 THEN format('not understood first %s', opened + r.not_understood_first) END,
        (SELECT string_agg(format('refused %s times %s first %s', number, times, opened + r.refused_first[number]), E'\n' ORDER BY number)
           FROM unnest(r.refused_times) WITH ORDINALITY AS each(times, number) WHERE times > 0),
        CASE r.refusal WHEN 0 THEN concat_ws(E'\n',
            format('posted %s refunded %s net %s', r.posted, r.refunded, r.net),
            (SELECT string_agg(format('partner %s weight %s paid %s taken %s total %s least %s most %s', i - 1, weight, r.paid[i], r.taken[i], r.totals[i], r.least[i], r.most[i]),
                               E'\n' ORDER BY i) FROM unnest(r.weights) WITH ORDINALITY AS each(weight, i)),
            CASE WHEN r.check_ok THEN 'check ok' ELSE 'check FAILED' END) END)
$$;
