-- Two accounts, which hold 200 together.
CREATE TABLE account (id bigint PRIMARY KEY, balance bigint NOT NULL);
INSERT INTO account VALUES (1, 100), (2, 100);
