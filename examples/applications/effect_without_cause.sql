-- Posts and their replies, none at first.
CREATE TABLE post (id bigint PRIMARY KEY, body text NOT NULL);
CREATE TABLE reply (post bigint PRIMARY KEY, body text NOT NULL);
