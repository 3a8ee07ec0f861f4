#!/bin/sh
# psql (Debian: postgresql-client): every statement is a simple query.
psql -X -h 127.0.0.1 -p "$1" -U a a <<'END'
CREATE TABLE psql (k bigint PRIMARY KEY, v text);
BEGIN;
INSERT INTO psql VALUES (1, 'it''s');
COMMIT;
BEGIN;
INSERT INTO psql VALUES (1, NULL);
ROLLBACK;
SELECT k, v FROM psql;
SELECT v FROM psql \gdesc
\d
END
