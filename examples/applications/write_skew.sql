-- Two doctors, both on call.
CREATE TABLE doctor (id bigint PRIMARY KEY, on_call boolean NOT NULL);
INSERT INTO doctor VALUES (1, true), (2, true);
