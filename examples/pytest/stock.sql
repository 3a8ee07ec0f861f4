-- Three pieces of one item.
CREATE TABLE stock (item bigint PRIMARY KEY, pieces bigint NOT NULL);
INSERT INTO stock VALUES (1, 3);
