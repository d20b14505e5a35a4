-- What the extension answers in SQLite's shell: tests/runs/registers/sqlite.sh compares it with shell.out.
.mode list
.nullvalue NULL
SELECT url_is_valid('http://h/'), url_is_valid('http://h/a b'), url_is_valid(NULL), url_is_valid('../x', 'http://h/'), url_is_valid('http://a_b.de/', NULL, 'wide');
SELECT url_rule(u), url_place(u), substr(u, url_place(u), 1), url_message(u) FROM (SELECT 'http://münchen.de/ü b' AS u);
SELECT url_scheme(u), url_host(u), url_port(u), url_path(u), url_query(u), url_fragment(u) FROM (SELECT 'https://h:80/a?q#f' AS u);
SELECT url_resolve('HTTP://EXAMPLE.com:80/a/../ü'), url_resolve('../x', 'http://h/a/b'), length(url_resolve('http://h/' || printf('%.2000c', 'x')));
SELECT url_mend('http://h/a b'), url_mend_kind('http://h/a b'), url_mend('http://h/'), url_mend_kind('http://h/'), url_mend('//');
SELECT * FROM url_faults('http://h/a b|c%zz');
SELECT count(*) FROM url_faults('http://h/' || printf('%.500c', ' '));
SELECT * FROM url_check('https://münchen.de/ü?q');
SELECT u.id, f.rule, f.place FROM (SELECT 1 AS id, 'http://h/a b' AS url UNION SELECT 2, 'http://h/' UNION SELECT 3, '//') u, url_faults(u.url) f;
CREATE TABLE link (written TEXT CHECK (url_is_valid(written)), url TEXT GENERATED ALWAYS AS (url_resolve(written)) STORED UNIQUE);
INSERT INTO link VALUES ('HTTP://H/a/../b');
INSERT INTO link VALUES ('http://h/b');
INSERT INTO link VALUES ('http://h/b c');
CREATE INDEX host ON link (url_host(written));
SELECT * FROM link WHERE url_host(written) = 'H';
SELECT url_is_valid('x', 'no base');
SELECT url_is_valid('x', NULL, 'loose');
SELECT url_require('http://h/a b');
SELECT url_require('https://h/%s');
SELECT url_rule(CAST(x'687474703a2f2f682fff' AS TEXT)), url_place(CAST(x'687474703a2f2f682fff' AS TEXT));
SELECT sum(url_is_valid(u)) = count(url_resolve(u)), sum(url_is_valid(u)) = count(url_host(u, 'http://b/')), count(url_mend(u)) FROM (SELECT 'http://h/' || char(32 + value % 400) || value AS u FROM (WITH RECURSIVE s(value) AS (SELECT 1 UNION ALL SELECT value + 1 FROM s WHERE value < 2000) SELECT value FROM s));
SELECT length(url_resolve(u)), url_resolve(u) = u FROM (WITH RECURSIVE s(n) AS (SELECT 502 UNION ALL SELECT n + 1 FROM s WHERE n < 505) SELECT 'http://h/' || substr(printf('%.600c', 'x'), 1, n) AS u FROM s);
SELECT length(url_mend(u)), url_mend(u) = replace(u, ' ', '%20') FROM (WITH RECURSIVE s(n) AS (SELECT 499 UNION ALL SELECT n + 1 FROM s WHERE n < 502) SELECT 'http://h/ ' || substr(printf('%.600c', 'x'), 1, n) AS u FROM s);
SELECT n, count(*), min(place), max(place), sum(place) FROM (WITH RECURSIVE s(n) AS (SELECT 15 UNION ALL SELECT n + 1 FROM s WHERE n < 18) SELECT n FROM s), url_faults('http://h/' || substr(printf('%.600c', ' '), 1, n)) GROUP BY n;
SELECT url_mend_offered('http://h/a b'), url_mend_offered('https://h//a'), url_mend_offered('https://h/%s'), url_mend_offered('http://h/'), url_mend_offered('//');
