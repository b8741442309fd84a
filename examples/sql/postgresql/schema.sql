-- The four tables of TATP for PostgreSQL: keys, foreign keys, and as checks the values of docs/FORMATS.md.
-- An s_id and the locations reach 4294967295, which is past INTEGER.
-- A sub_nbr and a numberx are text: fifteen digits, of which the first may be zeros.

CREATE TABLE Subscriber (
    s_id         BIGINT NOT NULL PRIMARY KEY CHECK (s_id BETWEEN 1 AND 4294967295),
    sub_nbr      CHAR(15) NOT NULL UNIQUE CHECK (sub_nbr ~ '^[0-9]{15}$'),
    bit_1        SMALLINT NOT NULL CHECK (bit_1 IN (0, 1)),
    bit_2        SMALLINT NOT NULL CHECK (bit_2 IN (0, 1)),
    bit_3        SMALLINT NOT NULL CHECK (bit_3 IN (0, 1)),
    bit_4        SMALLINT NOT NULL CHECK (bit_4 IN (0, 1)),
    bit_5        SMALLINT NOT NULL CHECK (bit_5 IN (0, 1)),
    bit_6        SMALLINT NOT NULL CHECK (bit_6 IN (0, 1)),
    bit_7        SMALLINT NOT NULL CHECK (bit_7 IN (0, 1)),
    bit_8        SMALLINT NOT NULL CHECK (bit_8 IN (0, 1)),
    bit_9        SMALLINT NOT NULL CHECK (bit_9 IN (0, 1)),
    bit_10       SMALLINT NOT NULL CHECK (bit_10 IN (0, 1)),
    hex_1        SMALLINT NOT NULL CHECK (hex_1 BETWEEN 0 AND 15),
    hex_2        SMALLINT NOT NULL CHECK (hex_2 BETWEEN 0 AND 15),
    hex_3        SMALLINT NOT NULL CHECK (hex_3 BETWEEN 0 AND 15),
    hex_4        SMALLINT NOT NULL CHECK (hex_4 BETWEEN 0 AND 15),
    hex_5        SMALLINT NOT NULL CHECK (hex_5 BETWEEN 0 AND 15),
    hex_6        SMALLINT NOT NULL CHECK (hex_6 BETWEEN 0 AND 15),
    hex_7        SMALLINT NOT NULL CHECK (hex_7 BETWEEN 0 AND 15),
    hex_8        SMALLINT NOT NULL CHECK (hex_8 BETWEEN 0 AND 15),
    hex_9        SMALLINT NOT NULL CHECK (hex_9 BETWEEN 0 AND 15),
    hex_10       SMALLINT NOT NULL CHECK (hex_10 BETWEEN 0 AND 15),
    byte2_1      SMALLINT NOT NULL CHECK (byte2_1 BETWEEN 0 AND 255),
    byte2_2      SMALLINT NOT NULL CHECK (byte2_2 BETWEEN 0 AND 255),
    byte2_3      SMALLINT NOT NULL CHECK (byte2_3 BETWEEN 0 AND 255),
    byte2_4      SMALLINT NOT NULL CHECK (byte2_4 BETWEEN 0 AND 255),
    byte2_5      SMALLINT NOT NULL CHECK (byte2_5 BETWEEN 0 AND 255),
    byte2_6      SMALLINT NOT NULL CHECK (byte2_6 BETWEEN 0 AND 255),
    byte2_7      SMALLINT NOT NULL CHECK (byte2_7 BETWEEN 0 AND 255),
    byte2_8      SMALLINT NOT NULL CHECK (byte2_8 BETWEEN 0 AND 255),
    byte2_9      SMALLINT NOT NULL CHECK (byte2_9 BETWEEN 0 AND 255),
    byte2_10     SMALLINT NOT NULL CHECK (byte2_10 BETWEEN 0 AND 255),
    msc_location BIGINT NOT NULL CHECK (msc_location BETWEEN 1 AND 4294967295),
    vlr_location BIGINT NOT NULL CHECK (vlr_location BETWEEN 1 AND 4294967295)
);

CREATE TABLE Access_Info (
    s_id    BIGINT NOT NULL REFERENCES Subscriber (s_id),
    ai_type SMALLINT NOT NULL CHECK (ai_type BETWEEN 1 AND 4),
    data1   SMALLINT NOT NULL CHECK (data1 BETWEEN 0 AND 255),
    data2   SMALLINT NOT NULL CHECK (data2 BETWEEN 0 AND 255),
    data3   CHAR(3) NOT NULL CHECK (data3 ~ '^[A-Z]{3}$'),
    data4   CHAR(5) NOT NULL CHECK (data4 ~ '^[A-Z]{5}$'),
    PRIMARY KEY (s_id, ai_type)
);

CREATE TABLE Special_Facility (
    s_id        BIGINT NOT NULL REFERENCES Subscriber (s_id),
    sf_type     SMALLINT NOT NULL CHECK (sf_type BETWEEN 1 AND 4),
    is_active   SMALLINT NOT NULL CHECK (is_active IN (0, 1)),
    error_cntrl SMALLINT NOT NULL CHECK (error_cntrl BETWEEN 0 AND 255),
    data_a      SMALLINT NOT NULL CHECK (data_a BETWEEN 0 AND 255),
    data_b      CHAR(5) NOT NULL CHECK (data_b ~ '^[A-Z]{5}$'),
    PRIMARY KEY (s_id, sf_type)
);

CREATE TABLE Call_Forwarding (
    s_id       BIGINT NOT NULL,
    sf_type    SMALLINT NOT NULL,
    start_time SMALLINT NOT NULL CHECK (start_time IN (0, 8, 16)),
    end_time   SMALLINT NOT NULL CHECK (end_time BETWEEN 1 AND 24),
    numberx    CHAR(15) NOT NULL CHECK (numberx ~ '^[0-9]{15}$'),
    PRIMARY KEY (s_id, sf_type, start_time),
    FOREIGN KEY (s_id, sf_type) REFERENCES Special_Facility (s_id, sf_type)
);
