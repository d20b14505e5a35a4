-- The extension urlcheck, version 0.3.0. Each function takes (url [, base [, profile]]): a base that is NULL or left
-- out is none, and a profile is 'standard' where it is NULL or left out, 'wide' or 'parser'. A url that is NULL gives
-- NULL, and no row. Places count characters from 1, as substr and strpos do.
\echo Use "CREATE EXTENSION urlcheck" to load this file. \quit

-- Whether a url is a valid URL string. Without a base it says nothing else of the url, so a view may be asked by it.
CREATE FUNCTION url_is_valid(url text) RETURNS boolean
    AS 'MODULE_PATHNAME', 'pg_url_is_valid' LANGUAGE C IMMUTABLE PARALLEL SAFE STRICT COST 1;
CREATE FUNCTION url_is_valid(url text, base text, profile text DEFAULT 'standard') RETURNS boolean
    AS 'MODULE_PATHNAME', 'pg_url_is_valid' LANGUAGE C IMMUTABLE PARALLEL SAFE COST 2;

-- (A server before 14 raises an error that shows what can't be converted to UTF-8, so there it isn't leakproof.)
DO $$
BEGIN
    IF current_setting('server_version_num')::integer >= 140000 THEN
        ALTER FUNCTION url_is_valid(text) LEAKPROOF;
    END IF;
END
$$;

-- True, or an error that says what is wrong, where, and what to write in its place: for constraints.
CREATE FUNCTION url_require(url text) RETURNS boolean
    AS 'MODULE_PATHNAME', 'pg_url_require' LANGUAGE C IMMUTABLE PARALLEL SAFE STRICT COST 1;
CREATE FUNCTION url_require(url text, base text, profile text DEFAULT 'standard') RETURNS boolean
    AS 'MODULE_PATHNAME', 'pg_url_require' LANGUAGE C IMMUTABLE PARALLEL SAFE COST 2;

-- The first fault of a url: its rule, its place, and what is wrong there. NULL where the url is valid.
CREATE FUNCTION url_rule(url text, base text DEFAULT NULL, profile text DEFAULT 'standard') RETURNS text
    AS 'MODULE_PATHNAME', 'pg_url_rule' LANGUAGE C IMMUTABLE PARALLEL SAFE COST 2;
CREATE FUNCTION url_place(url text, base text DEFAULT NULL, profile text DEFAULT 'standard') RETURNS integer
    AS 'MODULE_PATHNAME', 'pg_url_place' LANGUAGE C IMMUTABLE PARALLEL SAFE COST 2;
CREATE FUNCTION url_message(url text, base text DEFAULT NULL, profile text DEFAULT 'standard') RETURNS text
    AS 'MODULE_PATHNAME', 'pg_url_message' LANGUAGE C IMMUTABLE PARALLEL SAFE COST 2;

-- The parts of a valid url as they are written in it. NULL where it lacks the part or isn't valid.
CREATE FUNCTION url_scheme(url text, base text DEFAULT NULL, profile text DEFAULT 'standard') RETURNS text
    AS 'MODULE_PATHNAME', 'pg_url_scheme' LANGUAGE C IMMUTABLE PARALLEL SAFE COST 3;
CREATE FUNCTION url_host(url text, base text DEFAULT NULL, profile text DEFAULT 'standard') RETURNS text
    AS 'MODULE_PATHNAME', 'pg_url_host' LANGUAGE C IMMUTABLE PARALLEL SAFE COST 3;
CREATE FUNCTION url_port(url text, base text DEFAULT NULL, profile text DEFAULT 'standard') RETURNS text
    AS 'MODULE_PATHNAME', 'pg_url_port' LANGUAGE C IMMUTABLE PARALLEL SAFE COST 3;
CREATE FUNCTION url_path(url text, base text DEFAULT NULL, profile text DEFAULT 'standard') RETURNS text
    AS 'MODULE_PATHNAME', 'pg_url_path' LANGUAGE C IMMUTABLE PARALLEL SAFE COST 3;
CREATE FUNCTION url_query(url text, base text DEFAULT NULL, profile text DEFAULT 'standard') RETURNS text
    AS 'MODULE_PATHNAME', 'pg_url_query' LANGUAGE C IMMUTABLE PARALLEL SAFE COST 3;
CREATE FUNCTION url_fragment(url text, base text DEFAULT NULL, profile text DEFAULT 'standard') RETURNS text
    AS 'MODULE_PATHNAME', 'pg_url_fragment' LANGUAGE C IMMUTABLE PARALLEL SAFE COST 3;

-- All of them at once.
CREATE TYPE url_answer AS (
    valid boolean, rule text, place integer, message text,
    scheme text, host text, port text, path text, query text, fragment text);
CREATE FUNCTION url_check(url text, base text DEFAULT NULL, profile text DEFAULT 'standard') RETURNS url_answer
    AS 'MODULE_PATHNAME', 'pg_url_check' LANGUAGE C IMMUTABLE PARALLEL SAFE COST 10;

-- The text of the URL that a valid url denotes: one text for one URL. NULL where it isn't valid.
CREATE FUNCTION url_resolve(url text, base text DEFAULT NULL, profile text DEFAULT 'standard') RETURNS text
    AS 'MODULE_PATHNAME', 'pg_url_resolve' LANGUAGE C IMMUTABLE PARALLEL SAFE COST 5;

-- The url where it is valid, else a valid text in its place, or NULL; and how that differs: 'same', 'escaped' or
-- 'changed', NULL where nothing was changed.
CREATE FUNCTION url_mend(url text, base text DEFAULT NULL, profile text DEFAULT 'standard') RETURNS text
    AS 'MODULE_PATHNAME', 'pg_url_mend' LANGUAGE C IMMUTABLE PARALLEL SAFE COST 5;
CREATE FUNCTION url_mend_kind(url text, base text DEFAULT NULL, profile text DEFAULT 'standard') RETURNS text
    AS 'MODULE_PATHNAME', 'pg_url_mend_kind' LANGUAGE C IMMUTABLE PARALLEL SAFE COST 5;

-- All that is wrong with a url, a row each.
CREATE FUNCTION url_faults(url text, base text DEFAULT NULL, profile text DEFAULT 'standard',
        OUT rule text, OUT place integer, OUT message text) RETURNS SETOF record
    AS 'MODULE_PATHNAME', 'pg_url_faults' LANGUAGE C IMMUTABLE PARALLEL SAFE COST 20 ROWS 1;

-- The version of the library that checks: columns and indexes of url_resolve are to be built anew where it changes.
CREATE FUNCTION urlcheck_version() RETURNS text
    AS 'MODULE_PATHNAME', 'pg_urlcheck_version' LANGUAGE C IMMUTABLE PARALLEL SAFE STRICT COST 1;

-- Texts that are valid, by the standard profile and by the wide one.
CREATE DOMAIN valid_url AS text CONSTRAINT valid_url CHECK (url_require(VALUE));
CREATE DOMAIN wide_url AS text CONSTRAINT wide_url CHECK (url_require(VALUE, NULL, 'wide'));
