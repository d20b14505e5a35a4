-- What the extension answers in DuckDB's shell: tests/runs/registers/duckdb.sh compares it with shell.out.
.mode list
.headers off
.nullvalue NULL
SELECT url_is_valid('http://h/') AS a, url_is_valid('http://h/a b') AS b, url_is_valid(NULL) AS c, url_is_valid('../x', 'http://h/') AS d, url_is_valid('http://a_b.de/', NULL, 'wide') AS e;
SELECT url_rule(u), url_place(u), url_message(u) FROM (SELECT 'http://münchen.de/ü b' AS u);
SELECT url_scheme(u), url_host(u), url_port(u), url_path(u), url_query(u), url_fragment(u) FROM (SELECT 'https://h:80/a?q#f' AS u);
SELECT url_resolve('HTTP://EXAMPLE.com:80/a/../ü'), url_resolve('../x', 'http://h/a/b'), length(url_resolve('http://h/' || repeat('x', 2000)));
SELECT url_resolve(r, b), url_mend(r, b) FROM (VALUES ('../x', 'http://h/a/b'), ('y', NULL), ('../z', 'http://h/a/b')) v(r, b);
SELECT p, url_is_valid('//a_b/', 'http://h/', p) FROM (VALUES ('standard'), ('wide'), ('standard'), (NULL)) v(p);
SELECT b, url_is_valid('x', b) FROM (VALUES ('http://h/'), ('mailto:xy'), ('http://h/'), (NULL)) v(b);
SELECT url_require('http://h/'), url_require(NULL), url_require('../x', 'http://h/'), regexp_full_match(urlcheck_version(), '\d+\.\d+\.\d+');
SELECT unnest(url_check('https://münchen.de/ü?q'));
SELECT id, url_check(u) IS NULL, url_check(u).rule, url_check(u).place, url_check(u).message, url_check(u).path FROM (VALUES (1, 'http://h/a b'), (2, 'http://h/'), (3, NULL)) v(id, u) ORDER BY id;
SELECT id, len(url_faults(u)) FROM (VALUES (1, 'http://h/a b|c%zz'), (2, 'http://h/'), (3, NULL), (4, 'x y')) v(id, u) ORDER BY id;
SELECT id, unnest(url_faults(u, 'http://b/'), recursive := true) FROM (VALUES (1, 'http://h/a b|c%zz'), (2, 'http://h/'), (3, 'x y')) v(id, u);
SELECT sum(len(url_faults('http://h/' || repeat(' ', range::INT % 300)))), sum(len(url_faults('a:' || range))) FROM range(1000);
SELECT url_is_valid(u), length(url_resolve(u)), url_place(u || ' '), url_faults(u || ' ')[1].place FROM (SELECT 'http://h/' || repeat('a', 100000000) AS u);
SELECT url_mend('http://h/a b'), url_mend_kind('http://h/a b'), url_mend('http://h/'), url_mend_kind('http://h/'), url_mend('//');
SELECT url_mend_offered('http://h/a b'), url_mend_offered('https://h//a'), url_mend_offered('https://h/%s'), url_mend_offered('http://h/'), url_mend_offered('//');
CREATE TABLE link (url TEXT CHECK (url_is_valid(url)));
INSERT INTO link VALUES ('http://h/'), (NULL);
INSERT INTO link VALUES ('http://h/b c');
CREATE TABLE said (url TEXT CHECK (url_require(url)));
INSERT INTO said VALUES ('http://h/'), ('http://h/b c');
INSERT INTO said VALUES ('http://h/'), (NULL);
SELECT (SELECT count(*) FROM link), (SELECT count(*) FROM said);
SELECT url_is_valid('x', 'no base');
SELECT url_is_valid('x', NULL, 'loose');
SELECT url_faults('x', 'http://h/^');
SELECT url_check('x', NULL, '');
SELECT url_require('//', 'http://h/');
SELECT url_require('https://h/%s');
SELECT url_require('https://h//a');
SELECT count(*) FILTER (WHERE url_is_valid('x' || range, CASE range % 2 WHEN 0 THEN 'http://h/' ELSE 'mailto:x' END)) FROM range(10000);
