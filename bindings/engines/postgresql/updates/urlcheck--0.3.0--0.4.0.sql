-- Takes a database from version 0.3.0 to 0.4.0 of the extension.
\echo Use "ALTER EXTENSION urlcheck UPDATE" to load this file. \quit

CREATE FUNCTION url_mend_offered(url text, base text DEFAULT NULL, profile text DEFAULT 'standard') RETURNS boolean
    AS 'MODULE_PATHNAME', 'pg_url_mend_offered' LANGUAGE C IMMUTABLE PARALLEL SAFE COST 5;
