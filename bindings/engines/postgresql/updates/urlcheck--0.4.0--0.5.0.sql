-- Takes a database from version 0.4.0 to 0.5.0 of the extension.
\echo Use "ALTER EXTENSION urlcheck UPDATE" to load this file. \quit

-- Another library may have another version, which an index is not to hold.
ALTER FUNCTION urlcheck_version() STABLE;
