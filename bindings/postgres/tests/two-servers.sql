-- The head of a quarter whose books lie on two servers, one half of them on each: `one` and `two` are their sockets' folders. The extension is
-- declared to postgres_fdw, so that its calls and its aggregate are sent to where the rows are; what that spares is asked of the servers.
CREATE EXTENSION morskebab;
CREATE EXTENSION postgres_fdw;
CREATE SERVER one FOREIGN DATA WRAPPER postgres_fdw
    OPTIONS (host :'one', dbname 'books', extensions 'morskebab', use_remote_estimate 'true', async_capable 'true');
CREATE SERVER two FOREIGN DATA WRAPPER postgres_fdw
    OPTIONS (host :'two', dbname 'books', extensions 'morskebab', use_remote_estimate 'true', async_capable 'true');
CREATE USER MAPPING FOR CURRENT_USER SERVER one OPTIONS (user 'postgres');
CREATE USER MAPPING FOR CURRENT_USER SERVER two OPTIONS (user 'postgres');
CREATE TABLE contracts (book integer, line bigint, currency text, weights numeric[]) PARTITION BY RANGE (book);
CREATE TABLE postings (book integer, line bigint, kind text, amount numeric, currency text) PARTITION BY RANGE (book);
CREATE FOREIGN TABLE contracts_one PARTITION OF contracts FOR VALUES FROM (MINVALUE) TO (:half) SERVER one OPTIONS (table_name 'contracts');
CREATE FOREIGN TABLE contracts_two PARTITION OF contracts FOR VALUES FROM (:half) TO (MAXVALUE) SERVER two OPTIONS (table_name 'contracts');
CREATE FOREIGN TABLE postings_one PARTITION OF postings FOR VALUES FROM (MINVALUE) TO (:half) SERVER one OPTIONS (table_name 'postings');
CREATE FOREIGN TABLE postings_two PARTITION OF postings FOR VALUES FROM (:half) TO (MAXVALUE) SERVER two OPTIONS (table_name 'postings');
ANALYZE contracts;
ANALYZE postings;
ALTER DATABASE head SET enable_partitionwise_join = on;
ALTER DATABASE head SET enable_partitionwise_aggregate = on;
