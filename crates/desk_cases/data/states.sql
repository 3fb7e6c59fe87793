CREATE TABLE states (number INTEGER PRIMARY KEY, party TEXT NOT NULL, reference TEXT NOT NULL, state TEXT NOT NULL, UNIQUE (party, reference));
CREATE INDEX states_by_number ON states (state, number);
CREATE INDEX states_by_name ON states (state, party, reference);
INSERT INTO states (number, party, reference, state) SELECT number, party, reference, 'decided' FROM cases WHERE number <> 6;
