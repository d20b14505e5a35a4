-- What is made of a url: the text of its URL, a valid text in its place, and its faults.
SELECT url_resolve('HTTP://EXAMPLE.com:80/a/../ü'), url_resolve('../x', 'http://h/a/b/c'), url_resolve('a b');
SELECT length(url_resolve('http://h/' || repeat('ü', 1000))) AS long_text;
SELECT url_resolve('http://H:80/%41/..') = url_resolve('http://h/') AS same_url;
SELECT url_resolve('http://münchen.de/');
SELECT url_resolve('http://a_b/'), url_resolve('http://a_b/', NULL, 'wide');
-- mended, unchanged, and with no way
SELECT u, url_mend(u), url_mend_kind(u)
FROM (VALUES ('http://h/a b'), ('http://h/ü b'), ('http://h/'), ('//'), ('http://h:x/'), ('urn:a ')) v(u);
SELECT url_mend('a b', 'http://h/'), url_mend_kind('a b', 'http://h/');
-- whether reports offer it
SELECT u, url_mend(u), url_mend_kind(u), url_mend_offered(u)
FROM (VALUES ('http://h/a b'), ('https://h//a'), ('https://h/%s'), ('http://h/'), ('//')) v(u);
SELECT url_mend('http://h/' || repeat(' ', 400) || 'x') = 'http://h/' || repeat('%20', 400) || 'x' AS long_text;
-- the faults
SELECT * FROM url_faults('http://h/a b|c%zz');
SELECT * FROM url_faults('http://h/');
SELECT rule, place FROM url_faults('//x y', 'http://h/');
SELECT count(*), min(place), max(place) FROM url_faults('http://h/' || repeat(' ', 10000));
SELECT v.id, f.rule, f.place FROM (VALUES (1, 'http://h/a b'), (2, 'http://h/'), (3, 'x')) v(id, u), url_faults(v.u) f;
SELECT rule FROM url_faults('http://h/' || repeat(' ', 10000)) LIMIT 1;
-- in a text of more than 4096 bytes the faults are said by their rules, and the first one as ever
SELECT length(u), url_message(u), f.message FROM (SELECT 'http://h/' || repeat('a', n) || '^' AS u FROM (VALUES (4086), (4087)) v(n)) x, url_faults(u) f;
SELECT message FROM url_faults('http://h/' || 'ü^', NULL, 'wide');
-- a list that is longer than a value of the server may be
SELECT count(*) FROM url_faults('http://h/' || repeat(' ', 50000000));
-- a text of 100 MB
SELECT url_is_valid('http://h/' || repeat('a', 100000000)), url_place('http://h/' || repeat('a', 100000000) || ' ');
SELECT length(url_resolve('http://h/' || repeat('a', 100000000)));
SELECT url_require('http://h/' || repeat('a', 100000000) || ' ');
