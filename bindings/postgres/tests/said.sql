-- What calls say beside what is expected: a value as text, an error by its SQLSTATE, its words and its detail.
CREATE FUNCTION said(call text) RETURNS text LANGUAGE plpgsql AS $$
DECLARE
    answer text;
    detail text;
BEGIN
    EXECUTE 'SELECT (' || call || ')::text' INTO answer;
    RETURN answer;
EXCEPTION WHEN OTHERS THEN
    GET STACKED DIAGNOSTICS detail = PG_EXCEPTION_DETAIL;
    RETURN rtrim(SQLSTATE || ' ' || SQLERRM || ' ' || detail);
END $$;

-- `22004 ..` is any error of that SQLSTATE, and `MK009 .. weights[2] is null.` one with that detail
CREATE TABLE cases (line text NOT NULL, call text NOT NULL, wanted text);
CREATE FUNCTION is_said(answer text, wanted text) RETURNS boolean LANGUAGE sql AS $$
    SELECT answer IS NOT DISTINCT FROM wanted
        OR coalesce(wanted LIKE '_____ ..%' AND left(answer, 6) = left(wanted, 6) AND right(answer, length(wanted) - 8) = substr(wanted, 9), false)
$$;

-- how many cases there are; the first that says anything else is an error
CREATE FUNCTION all_said() RETURNS bigint LANGUAGE plpgsql AS $$
DECLARE
    each record;
    count bigint = 0;
BEGIN
    FOR each IN SELECT c.*, said(call) AS answer FROM cases c LOOP
        count = count + 1;
        IF NOT is_said(each.answer, each.wanted) THEN
            RAISE EXCEPTION E'%\n% says\n%, where\n% is expected', each.line, left(each.call, 1000), left(each.answer, 1000), left(each.wanted, 1000);
        END IF;
    END LOOP;
    RETURN count;
END $$;
