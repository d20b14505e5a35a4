-- Tables that hold urls: constraints, domains, columns that are made, COPY, partitions.
\set VERBOSITY default
CREATE TABLE plain (url text CHECK (url_is_valid(url)));
INSERT INTO plain VALUES ('http://h/'), (NULL);
INSERT INTO plain VALUES ('http://h/a b');
CREATE TABLE said (url text CONSTRAINT valid CHECK (url_require(url)));
INSERT INTO said VALUES ('http://h/');
INSERT INTO said VALUES ('http://h/a b');
-- COPY says the line, and nothing of it is stored
COPY said FROM stdin;
http://h/a
http://h/ü b
http://h/c
\.
SELECT * FROM said;
-- the domains
CREATE TABLE link (id serial, url valid_url, wide wide_url);
INSERT INTO link (url, wide) VALUES ('http://h/', 'http://a_b/'), (NULL, NULL);
INSERT INTO link (url) VALUES ('http://a_b/');
INSERT INTO link (wide) VALUES ('http://a b/');
SELECT 'http://h/a b'::valid_url;
UPDATE link SET url = 'nothing' WHERE url = 'http://h/';
SELECT count(*) FROM link;
-- a register without duplicates: the text of the URL is made of the text that was written
CREATE TABLE register (
    written text CHECK (url_require(written)),
    url text GENERATED ALWAYS AS (url_resolve(written)) STORED UNIQUE);
INSERT INTO register (written) VALUES ('HTTP://H/a/../b'), ('http://h/c');
INSERT INTO register (written) VALUES ('http://h/b');
INSERT INTO register (written) VALUES ('http://h:80/b'), ('http://h/%64') ON CONFLICT (url) DO NOTHING;
INSERT INTO register (written) VALUES ('http://h/./c') ON CONFLICT (url) DO UPDATE SET written = excluded.written;
SELECT * FROM register ORDER BY url;
-- the version in each row: what another one made is checked and made again
ALTER TABLE register ADD COLUMN made_by text NOT NULL DEFAULT urlcheck_version();
UPDATE register SET made_by = '0.1.0' WHERE url = 'http://h/c';
UPDATE register SET written = written, made_by = DEFAULT WHERE made_by <> urlcheck_version() RETURNING written, url;
SELECT count(*) FROM register WHERE made_by = urlcheck_version();
-- partitions inherit the constraint; one URL is in one of them
CREATE TABLE spread (written text CHECK (url_require(written)), url text CHECK (url = url_resolve(written)), UNIQUE (url))
    PARTITION BY HASH (url);
CREATE TABLE spread_0 PARTITION OF spread FOR VALUES WITH (MODULUS 2, REMAINDER 0);
CREATE TABLE spread_1 PARTITION OF spread FOR VALUES WITH (MODULUS 2, REMAINDER 1);
INSERT INTO spread SELECT w, url_resolve(w) FROM (SELECT 'http://h:80/' || n AS w FROM generate_series(1, 100) n) x;
INSERT INTO spread VALUES ('http://h/7', 'http://h/7');
INSERT INTO spread VALUES ('http://h/101', 'http://h/102');
INSERT INTO spread VALUES ('http://h/1 0', 'http://h/10');
SELECT count(*), count(DISTINCT tableoid) AS partitions FROM spread;
-- a constraint on a table that has rows: new rows are checked at once, the others when it is validated
CREATE TABLE old (url text);
INSERT INTO old VALUES ('http://h/'), ('http://h/a b');
ALTER TABLE old ADD CONSTRAINT valid CHECK (url_require(url)) NOT VALID;
INSERT INTO old VALUES ('http://h/c d');
ALTER TABLE old VALIDATE CONSTRAINT valid;
UPDATE old SET url = url_mend(url) WHERE NOT url_is_valid(url);
ALTER TABLE old VALIDATE CONSTRAINT valid;
SELECT * FROM old ORDER BY url;
-- against a base in another column
CREATE TABLE reference (page valid_url, link text, CHECK (url_require(link, page)));
INSERT INTO reference VALUES ('http://h/', '../x'), ('http://h/', 'mailto:x');
INSERT INTO reference VALUES ('http://h/', 'a b');
INSERT INTO reference VALUES ('mailto:x', 'a');
INSERT INTO reference VALUES (NULL, 'a');
-- it can't go while tables need it, and it is in another schema as well
\set VERBOSITY terse
DROP EXTENSION urlcheck;
CREATE SCHEMA urls;
ALTER EXTENSION urlcheck SET SCHEMA urls;
INSERT INTO said VALUES ('http://h/a b');
INSERT INTO register (written) VALUES ('http://h/e');
ALTER EXTENSION urlcheck SET SCHEMA public;
SELECT url FROM register WHERE written = 'http://h/e';
