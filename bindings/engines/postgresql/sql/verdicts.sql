-- What the functions say of a url: the verdict, the first fault, the parts. Then bad arguments.
CREATE EXTENSION urlcheck;
-- names of each kind, and references, which are valid only against a base
SELECT u, url_is_valid(u) FROM (VALUES ('https://example.com/'), ('https://example.com/a b'), ('../x'), (''),
    ('http://münchen.de/ü'), ('http://a_b.de/'), ('urn:isbn:0451450523'), ('http://[::1]:80/'), ('http://h:65536/')) v(u);
SELECT u, url_is_valid(u, 'http://h/a') FROM (VALUES ('../x'), ('//'), ('#f'), (''), ('http://other/')) v(u);
-- profiles
SELECT p, url_is_valid('http://a_b.de/', NULL, p) FROM (VALUES ('standard'), ('wide'), ('parser'), (NULL)) v(p);
-- the first fault: places count characters from 1
SELECT url_rule(u), url_place(u), url_message(u), substr(u, url_place(u), 1) AS there
FROM (VALUES ('http://münchen.de/ü b'), ('http://h/'), ('x'), ('http://h:x/'), ('http://h/%zz')) v(u);
-- a base that changes from row to row, and one that stays
SELECT b, url_is_valid('x', b), url_rule('x', b)
FROM (VALUES ('http://h/'), ('mailto:x'), ('http://h/'), (NULL), ('http://h2/'), ('mailto:x')) v(b);
-- (two of one length)
SELECT b, url_is_valid('x', b) FROM (VALUES ('http://h/'), ('mailto:xy'), ('http://h/')) v(b);
SELECT count(*) FILTER (WHERE url_is_valid('x' || n, 'http://h/')) FROM generate_series(1, 1000) n;
-- the parts, as they are written
SELECT url_scheme(u), url_host(u), url_port(u), url_path(u), url_query(u), url_fragment(u)
FROM (VALUES ('HTTPS://münchen.de:80/ü?q#f'), ('http://h'), ('urn:x'), ('a b')) v(u);
SELECT url_host('//h:1/x', 'https://b/'), url_path('x/y', 'https://b/');
SELECT (url_check('https://münchen.de:80/ü?q#f')).*;
SELECT c.* FROM url_check('http://münchen.de/ü b') c;
SELECT c.path FROM url_check('http://h//a', NULL, 'wide') c;
-- NULLs
SELECT url_is_valid(NULL), url_is_valid(NULL, 'http://h/'), url_rule(NULL), url_check(NULL) IS NULL AS no_answer,
    url_require(NULL), url_resolve(NULL), url_mend(NULL), url_host(NULL);
SELECT count(*) FROM url_faults(NULL);
-- bad arguments are errors
SELECT url_is_valid('x', NULL, 'loose');
SELECT url_is_valid('x', 'http://h/', '');
SELECT url_is_valid('x', 'no base');
SELECT url_is_valid('x', b) FROM (VALUES ('http://h/'), ('http://h h/')) v(b);
SELECT url_resolve('x', 'http://h:x/');
SELECT * FROM url_faults('x', 'http://h/^');
-- a refusal in place of an answer
SELECT url_require('http://h/'), url_require('../x', 'http://h/'), url_require('http://a_b/', NULL, 'wide');
SELECT url_require('http://h/a b');
-- a text in its place that is named and not offered
SELECT url_require('https://h/%s');
SELECT url_require('https://h//a');
SELECT url_require('tel:+1 2 ');
SELECT url_require('http:a', 'http://h/');
SELECT url_require('//', 'http://h/');
SELECT url_require('http://münchen.de/' || repeat('ü', 500) || ' ' || repeat('ü', 500));
DO $$ BEGIN PERFORM url_require('x'); EXCEPTION WHEN check_violation THEN RAISE NOTICE 'sqlstate %: %', SQLSTATE, SQLERRM; END $$;
DO $$ BEGIN PERFORM url_rule('x', 'x'); EXCEPTION WHEN invalid_parameter_value THEN RAISE NOTICE 'sqlstate %: %', SQLSTATE, SQLERRM; END $$;
-- functions of another type than the extension's
CREATE FUNCTION url_check_as_text(text) RETURNS text AS '$libdir/urlcheck', 'pg_url_check' LANGUAGE C;
SELECT url_check_as_text('http://h/');
CREATE FUNCTION url_faults_as_text(text) RETURNS SETOF text AS '$libdir/urlcheck', 'pg_url_faults' LANGUAGE C;
SELECT url_faults_as_text('http://h/');
DROP FUNCTION url_check_as_text, url_faults_as_text;
-- an error in a block leaves the base that was kept as it is
DO $$
DECLARE
    base text;
    found text := '';
BEGIN
    FOREACH base IN ARRAY ARRAY['http://h/', 'no base', 'http://h/', 'mailto:x', 'no base', 'mailto:x'] LOOP
        BEGIN
            found := found || ' ' || url_is_valid('x', base);
        EXCEPTION WHEN invalid_parameter_value THEN
            found := found || ' error';
        END;
    END LOOP;
    RAISE NOTICE 'found%', found;
END
$$;
-- what the planner is told
-- (before PostgreSQL 14 no function is leakproof that converts texts)
SELECT proname, pronargs, provolatile, proparallel, proisstrict,
    proleakproof OR proname = 'url_is_valid' AND pronargs = 1 AND current_setting('server_version_num')::integer < 140000 AS proleakproof
FROM pg_proc WHERE proname ~ '^url_|^urlcheck_' ORDER BY proname, pronargs;
SELECT urlcheck_version() ~ '^\d+\.\d+\.\d+$' AS has_version;
