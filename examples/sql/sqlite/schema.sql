-- The four tables of TATP for SQLite: keys, foreign keys, and as checks the values of docs/FORMATS.md.
-- SQLite looks at foreign keys only after PRAGMA foreign_keys = ON, in each connection.
-- A sub_nbr and a numberx are text: fifteen digits, of which the first may be zeros.

CREATE TABLE Subscriber (
    s_id         INTEGER NOT NULL PRIMARY KEY CHECK (s_id BETWEEN 1 AND 4294967295),
    sub_nbr      TEXT NOT NULL UNIQUE CHECK (length(sub_nbr) = 15 AND sub_nbr NOT GLOB '*[^0-9]*'),
    bit_1        INTEGER NOT NULL CHECK (bit_1 IN (0, 1)),
    bit_2        INTEGER NOT NULL CHECK (bit_2 IN (0, 1)),
    bit_3        INTEGER NOT NULL CHECK (bit_3 IN (0, 1)),
    bit_4        INTEGER NOT NULL CHECK (bit_4 IN (0, 1)),
    bit_5        INTEGER NOT NULL CHECK (bit_5 IN (0, 1)),
    bit_6        INTEGER NOT NULL CHECK (bit_6 IN (0, 1)),
    bit_7        INTEGER NOT NULL CHECK (bit_7 IN (0, 1)),
    bit_8        INTEGER NOT NULL CHECK (bit_8 IN (0, 1)),
    bit_9        INTEGER NOT NULL CHECK (bit_9 IN (0, 1)),
    bit_10       INTEGER NOT NULL CHECK (bit_10 IN (0, 1)),
    hex_1        INTEGER NOT NULL CHECK (hex_1 BETWEEN 0 AND 15),
    hex_2        INTEGER NOT NULL CHECK (hex_2 BETWEEN 0 AND 15),
    hex_3        INTEGER NOT NULL CHECK (hex_3 BETWEEN 0 AND 15),
    hex_4        INTEGER NOT NULL CHECK (hex_4 BETWEEN 0 AND 15),
    hex_5        INTEGER NOT NULL CHECK (hex_5 BETWEEN 0 AND 15),
    hex_6        INTEGER NOT NULL CHECK (hex_6 BETWEEN 0 AND 15),
    hex_7        INTEGER NOT NULL CHECK (hex_7 BETWEEN 0 AND 15),
    hex_8        INTEGER NOT NULL CHECK (hex_8 BETWEEN 0 AND 15),
    hex_9        INTEGER NOT NULL CHECK (hex_9 BETWEEN 0 AND 15),
    hex_10       INTEGER NOT NULL CHECK (hex_10 BETWEEN 0 AND 15),
    byte2_1      INTEGER NOT NULL CHECK (byte2_1 BETWEEN 0 AND 255),
    byte2_2      INTEGER NOT NULL CHECK (byte2_2 BETWEEN 0 AND 255),
    byte2_3      INTEGER NOT NULL CHECK (byte2_3 BETWEEN 0 AND 255),
    byte2_4      INTEGER NOT NULL CHECK (byte2_4 BETWEEN 0 AND 255),
    byte2_5      INTEGER NOT NULL CHECK (byte2_5 BETWEEN 0 AND 255),
    byte2_6      INTEGER NOT NULL CHECK (byte2_6 BETWEEN 0 AND 255),
    byte2_7      INTEGER NOT NULL CHECK (byte2_7 BETWEEN 0 AND 255),
    byte2_8      INTEGER NOT NULL CHECK (byte2_8 BETWEEN 0 AND 255),
    byte2_9      INTEGER NOT NULL CHECK (byte2_9 BETWEEN 0 AND 255),
    byte2_10     INTEGER NOT NULL CHECK (byte2_10 BETWEEN 0 AND 255),
    msc_location INTEGER NOT NULL CHECK (msc_location BETWEEN 1 AND 4294967295),
    vlr_location INTEGER NOT NULL CHECK (vlr_location BETWEEN 1 AND 4294967295)
);

CREATE TABLE Access_Info (
    s_id    INTEGER NOT NULL REFERENCES Subscriber (s_id),
    ai_type INTEGER NOT NULL CHECK (ai_type BETWEEN 1 AND 4),
    data1   INTEGER NOT NULL CHECK (data1 BETWEEN 0 AND 255),
    data2   INTEGER NOT NULL CHECK (data2 BETWEEN 0 AND 255),
    data3   TEXT NOT NULL CHECK (length(data3) = 3 AND data3 NOT GLOB '*[^A-Z]*'),
    data4   TEXT NOT NULL CHECK (length(data4) = 5 AND data4 NOT GLOB '*[^A-Z]*'),
    PRIMARY KEY (s_id, ai_type)
);

CREATE TABLE Special_Facility (
    s_id        INTEGER NOT NULL REFERENCES Subscriber (s_id),
    sf_type     INTEGER NOT NULL CHECK (sf_type BETWEEN 1 AND 4),
    is_active   INTEGER NOT NULL CHECK (is_active IN (0, 1)),
    error_cntrl INTEGER NOT NULL CHECK (error_cntrl BETWEEN 0 AND 255),
    data_a      INTEGER NOT NULL CHECK (data_a BETWEEN 0 AND 255),
    data_b      TEXT NOT NULL CHECK (length(data_b) = 5 AND data_b NOT GLOB '*[^A-Z]*'),
    PRIMARY KEY (s_id, sf_type)
);

CREATE TABLE Call_Forwarding (
    s_id       INTEGER NOT NULL,
    sf_type    INTEGER NOT NULL,
    start_time INTEGER NOT NULL CHECK (start_time IN (0, 8, 16)),
    end_time   INTEGER NOT NULL CHECK (end_time BETWEEN 1 AND 24),
    numberx    TEXT NOT NULL CHECK (length(numberx) = 15 AND numberx NOT GLOB '*[^0-9]*'),
    PRIMARY KEY (s_id, sf_type, start_time),
    FOREIGN KEY (s_id, sf_type) REFERENCES Special_Facility (s_id, sf_type)
);
