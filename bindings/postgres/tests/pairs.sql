-- Calls of hostile values beside their sisters: a sister never fails, and its number is that of the error.
CREATE TABLE pairs (plain text NOT NULL, tried text NOT NULL);
CREATE FUNCTION agree(plain text, tried text) RETURNS boolean LANGUAGE sql AS $$
    SELECT CASE
        WHEN tried IS NULL THEN plain IS NULL
        WHEN tried ~ '^\(0,' THEN plain !~ '^[0-9A-Z]{5} '
        ELSE tried ~ '^\([0-9]+,' AND coalesce(plain LIKE format('MK%s refusal %s: %%', lpad(substring(tried FROM 2 FOR position(',' IN tried) - 2), 3, '0'),
                                                                substring(tried FROM 2 FOR position(',' IN tried) - 2)), false)
    END
$$;
CREATE FUNCTION all_agree() RETURNS bigint LANGUAGE plpgsql AS $$
DECLARE
    each record;
    count bigint = 0;
BEGIN
    FOR each IN SELECT p.*, said(plain) AS one, said(tried) AS other FROM pairs p LOOP
        count = count + 1;
        IF NOT agree(each.one, each.other) THEN
            RAISE EXCEPTION E'%\n says %\n and its sister %', left(each.plain, 1000), left(each.one, 1000), left(each.other, 1000);
        END IF;
    END LOOP;
    RETURN count;
END $$;
