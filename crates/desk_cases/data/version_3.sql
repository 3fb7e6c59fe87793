CREATE TABLE version (one INTEGER PRIMARY KEY, number INTEGER NOT NULL);
INSERT INTO version (one, number) VALUES (1, 3);
