-- A counter that begins at 1.
CREATE TABLE counter (id bigint PRIMARY KEY, next bigint NOT NULL);
INSERT INTO counter VALUES (1, 1);
