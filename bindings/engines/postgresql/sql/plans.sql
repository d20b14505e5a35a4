-- Plans: an index on an expression that is used, workers, a view that is asked through its barrier, and updates.
CREATE TABLE many AS SELECT n AS id, 'https://h' || n % 1000 || '.example/' || n AS url FROM generate_series(1, 200000) n;
CREATE INDEX many_host ON many (url_host(url));
CREATE INDEX many_refused ON many (id) WHERE NOT url_is_valid(url);
INSERT INTO many VALUES (0, 'https://h h/');
ANALYZE many;
EXPLAIN (COSTS OFF) SELECT id FROM many WHERE url_host(url) = 'h7.example';
SELECT count(*) FROM many WHERE url_host(url) = 'h7.example';
EXPLAIN (COSTS OFF) SELECT id FROM many WHERE NOT url_is_valid(url);
SELECT id, url_rule(url) FROM many WHERE NOT url_is_valid(url);
-- workers that are launched, and not only planned
SET parallel_setup_cost = 0;
SET parallel_tuple_cost = 0;
SET min_parallel_table_scan_size = 0;
SET max_parallel_workers_per_gather = 2;
CREATE FUNCTION launched(query text) RETURNS integer LANGUAGE plpgsql AS $$
DECLARE
    line text;
    count integer := 0;
BEGIN
    FOR line IN EXECUTE 'EXPLAIN (ANALYZE, COSTS OFF, TIMING OFF, SUMMARY OFF) ' || query LOOP
        count := count + coalesce(substring(line FROM 'Workers Launched: (\d+)')::integer, 0);
    END LOOP;
    RETURN count;
END
$$;
SELECT launched('SELECT count(*) FROM many WHERE url_is_valid(url) AND url_resolve(url) = url') > 0 AS has_workers;
SELECT count(*) FROM many WHERE url_is_valid(url) AND url_resolve(url) = url;
SELECT launched($$SELECT max(length(url_mend(url, 'http://h/', 'wide'))), count(url_place(url)) FROM many$$) > 0 AS has_workers;
SELECT launched('SELECT count((url_check(url)).host) FROM many, LATERAL (SELECT 1) x') > 0 AS has_workers;
RESET ALL;
-- a filter that says nothing else of a row is asked below the barrier of a view, and one that says more isn't
CREATE VIEW seen WITH (security_barrier) AS SELECT url FROM many WHERE id % 2 = 0;
CREATE FUNCTION is_below(query text) RETURNS boolean LANGUAGE plpgsql AS $$
DECLARE
    line text;
BEGIN
    FOR line IN EXECUTE 'EXPLAIN (COSTS OFF) ' || query LOOP
        IF line LIKE '%Subquery Scan on seen%' THEN RETURN false; END IF;
    END LOOP;
    RETURN true;
END
$$;
-- (before PostgreSQL 14 no function is leakproof that converts texts)
SELECT is_below('SELECT * FROM seen WHERE url_is_valid(url)') = (current_setting('server_version_num')::integer >= 140000) AS is_as_wanted,
    is_below('SELECT * FROM seen WHERE url_require(url)') AS is_below;
-- the next version: this one is the library's
SELECT extversion = urlcheck_version() AS is_of_the_library FROM pg_extension WHERE extname = 'urlcheck';
ALTER EXTENSION urlcheck UPDATE TO 'next';
SELECT extversion, url_is_next() FROM pg_extension WHERE extname = 'urlcheck';
SELECT url_is_valid('http://h/'), (SELECT count(*) FROM register);
ALTER EXTENSION urlcheck UPDATE TO 'none';
