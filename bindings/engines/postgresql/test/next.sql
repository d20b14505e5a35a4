-- A version after this one, for the test that an extension in use is taken to it.
CREATE FUNCTION url_is_next() RETURNS boolean LANGUAGE sql IMMUTABLE PARALLEL SAFE AS 'SELECT true';
