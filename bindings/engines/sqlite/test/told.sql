-- What the extension says of answers that no text has: tests/runs/registers/sqlite.sh compares it with told.out.
.mode list
SELECT url_is_valid('77');
SELECT url_resolve('77');
SELECT valid FROM url_check('77');
SELECT rule FROM url_faults('77');
SELECT url_is_valid('5');
SELECT url_message('1 15'), url_rule('1 15');
