-- The tables of version 2 with two rows of each kind: no column has its default, and of columns side by side that have the same values one row has
-- different ones. model/tables.py has the program sqlite3 make a database of this text.
PRAGMA page_size = 512;
CREATE TABLE meta (name TEXT PRIMARY KEY, value INTEGER NOT NULL) STRICT;
CREATE TABLE vrfs (id INTEGER PRIMARY KEY, name TEXT NOT NULL, rd TEXT NOT NULL, enforce_unique TEXT NOT NULL, description TEXT NOT NULL) STRICT;
CREATE TABLE rirs (id INTEGER PRIMARY KEY, name TEXT NOT NULL, slug TEXT NOT NULL, is_private TEXT NOT NULL, description TEXT NOT NULL) STRICT;
CREATE TABLE roles (id INTEGER PRIMARY KEY, name TEXT NOT NULL, slug TEXT NOT NULL, weight TEXT NOT NULL, description TEXT NOT NULL) STRICT;
CREATE TABLE aggregates (id INTEGER PRIMARY KEY, prefix TEXT NOT NULL, rir TEXT NOT NULL, description TEXT NOT NULL) STRICT;
CREATE TABLE prefixes (id INTEGER PRIMARY KEY, prefix TEXT NOT NULL, vrf TEXT NOT NULL, status TEXT NOT NULL, role TEXT NOT NULL, is_pool TEXT NOT NULL, mark_utilized TEXT NOT NULL, description TEXT NOT NULL) STRICT;
CREATE TABLE ip_ranges (id INTEGER PRIMARY KEY, start_address TEXT NOT NULL, end_address TEXT NOT NULL, vrf TEXT NOT NULL, status TEXT NOT NULL, role TEXT NOT NULL, mark_utilized TEXT NOT NULL, mark_populated TEXT NOT NULL, description TEXT NOT NULL) STRICT;
CREATE TABLE ip_addresses (id INTEGER PRIMARY KEY, address TEXT NOT NULL, vrf TEXT NOT NULL, status TEXT NOT NULL, role TEXT NOT NULL, dns_name TEXT NOT NULL, description TEXT NOT NULL) STRICT;
INSERT INTO meta (name, value) VALUES ('version', 2), ('next_vrfs', 3), ('next_rirs', 4), ('next_roles', 5), ('next_aggregates', 6),
    ('next_prefixes', 7), ('next_ip_ranges', 8), ('next_ip_addresses', 9);
INSERT INTO vrfs (id, name, rd, enforce_unique, description) VALUES (1, 'red', '65000:1', 'false', 'office'), (2, 'blue', '65000:2', 'true', 'guests');
INSERT INTO rirs (id, name, slug, is_private, description) VALUES (1, 'ARIN', 'arin', 'true', 'north'), (2, 'RIPE NCC', 'ripe', 'false', 'east');
INSERT INTO roles (id, name, slug, weight, description) VALUES (1, 'LAN', 'lan', '10', 'cables'), (2, 'WAN', 'wan', '32767', 'links');
INSERT INTO aggregates (id, prefix, rir, description) VALUES (1, '10.0.0.0/8', '2', 'own'), (2, '2001:db8::/32', '1', 'six');
INSERT INTO prefixes (id, prefix, vrf, status, role, is_pool, mark_utilized, description) VALUES
    (1, '10.0.0.0/16', '1', 'container', '2', 'true', 'false', 'halls'), (2, '2001:db8::/48', '2', 'reserved', '1', 'false', 'true', 'rooms');
INSERT INTO ip_ranges (id, start_address, end_address, vrf, status, role, mark_utilized, mark_populated, description) VALUES
    (1, '10.0.0.10/24', '10.0.0.19/24', '1', 'reserved', '2', 'true', 'false', 'printers'), (2, '2001:db8::a/64', '2001:db8::f/64', '2', 'deprecated', '1', 'false', 'true', 'phones');
INSERT INTO ip_addresses (id, address, vrf, status, role, dns_name, description) VALUES
    (1, '10.0.0.1/24', '1', 'dhcp', 'vip', 'gw.example.org', 'gateway'), (2, '2001:db8::5/64', '2', 'slaac', 'carp', 'b.example.org', 'host');
