-- The seven transactions of TATP for SQLite. A line of the form `-- NAME :argument ..` begins one; its arguments are
-- those of a call line, in order. Each call is one transaction, from BEGIN to COMMIT:
--
-- - A SELECT that finds no row, and an UPDATE or a DELETE that changes none, ends it: ROLLBACK, and FAILED 1.
-- - An INSERT that breaks the primary key ends it with FAILED 2, one that breaks the foreign key with FAILED 3.
-- - What a SELECT finds under a name that is no argument's is the value of that name in later statements.
-- - Otherwise COMMIT, and OK. Where the last statement is a SELECT, the columns of its rows follow, row after row.
--
-- The benchmark's text has no ORDER BY; a reply is compared as a whole, so it has to have one order.

-- GET_SUBSCRIBER_DATA :s_id
SELECT s_id, sub_nbr,
    bit_1, bit_2, bit_3, bit_4, bit_5, bit_6, bit_7, bit_8, bit_9, bit_10,
    hex_1, hex_2, hex_3, hex_4, hex_5, hex_6, hex_7, hex_8, hex_9, hex_10,
    byte2_1, byte2_2, byte2_3, byte2_4, byte2_5, byte2_6, byte2_7, byte2_8, byte2_9, byte2_10,
    msc_location, vlr_location
FROM Subscriber
WHERE s_id = :s_id;

-- GET_NEW_DESTINATION :s_id :sf_type :start_time :end_time
SELECT cf.numberx
FROM Special_Facility AS sf, Call_Forwarding AS cf
WHERE sf.s_id = :s_id AND sf.sf_type = :sf_type AND sf.is_active = 1
AND cf.s_id = sf.s_id AND cf.sf_type = sf.sf_type
AND cf.start_time <= :start_time AND :end_time < cf.end_time
ORDER BY cf.start_time;

-- GET_ACCESS_DATA :s_id :ai_type
SELECT data1, data2, data3, data4
FROM Access_Info
WHERE s_id = :s_id AND ai_type = :ai_type;

-- UPDATE_SUBSCRIBER_DATA :s_id :bit_1 :sf_type :data_a
UPDATE Subscriber
SET bit_1 = :bit_1
WHERE s_id = :s_id;
UPDATE Special_Facility
SET data_a = :data_a
WHERE s_id = :s_id AND sf_type = :sf_type;

-- UPDATE_LOCATION :sub_nbr :vlr_location
UPDATE Subscriber
SET vlr_location = :vlr_location
WHERE sub_nbr = :sub_nbr;

-- INSERT_CALL_FORWARDING :sub_nbr :sf_type :start_time :end_time :numberx
SELECT s_id
FROM Subscriber
WHERE sub_nbr = :sub_nbr;
SELECT sf_type
FROM Special_Facility
WHERE s_id = :s_id;
INSERT INTO Call_Forwarding
VALUES (:s_id, :sf_type, :start_time, :end_time, :numberx);

-- DELETE_CALL_FORWARDING :sub_nbr :sf_type :start_time
SELECT s_id
FROM Subscriber
WHERE sub_nbr = :sub_nbr;
DELETE FROM Call_Forwarding
WHERE s_id = :s_id AND sf_type = :sf_type AND start_time = :start_time;
