-- The tables of pools with two ranges and two members of each kind: in each column the rows have different values, and in no row two columns
-- have the same one. model/tables.py has the program sqlite3 make a database of this text.
PRAGMA page_size = 512;
CREATE TABLE meta (name TEXT PRIMARY KEY, value INTEGER NOT NULL) STRICT;
CREATE TABLE ranges (id INTEGER PRIMARY KEY, kind TEXT NOT NULL, name TEXT NOT NULL, first INTEGER NOT NULL, last INTEGER NOT NULL) STRICT;
CREATE TABLE members (id INTEGER PRIMARY KEY, range INTEGER NOT NULL, number INTEGER NOT NULL, name TEXT NOT NULL) STRICT;
INSERT INTO meta (name, value) VALUES ('next_ranges', 9), ('next_members', 21);
INSERT INTO ranges (id, kind, name, first, last) VALUES
    (2, 'asn', 'office', 64512, 64600), (3, 'vlan', 'floor', 10, 4094), (5, 'asn', 'lab "x"', 4200000000, 4294967295), (8, 'vlan', 'façade', 7, 9);
INSERT INTO members (id, range, number, name) VALUES
    (11, 2, 64513, 'edge'), (12, 3, 20, 'voice'), (14, 5, 4294967294, 'core'), (20, 8, 1, 'd''or');
