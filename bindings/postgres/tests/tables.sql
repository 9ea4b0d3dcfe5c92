-- A quarter's two tables.
CREATE TABLE contracts (book integer PRIMARY KEY, line bigint NOT NULL, currency text NOT NULL, weights numeric[] NOT NULL);
CREATE TABLE postings (
    book integer NOT NULL REFERENCES contracts, line bigint PRIMARY KEY, kind text NOT NULL, amount numeric NOT NULL, currency text NOT NULL
);
