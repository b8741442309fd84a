-- The seven transactions of TATP for PostgreSQL: functions that give a reply line, as docs/FORMATS.md has it. A SELECT
-- of one of them, outside BEGIN and COMMIT, is one transaction.
--
-- The block with EXCEPTION undoes what was done in it before one of these conditions ends it. A broken primary key is
-- 23505 unique_violation, a broken foreign key 23503 foreign_key_violation.
--
-- The benchmark's text has no ORDER BY; a reply is compared as a whole, so it has to have one order.

CREATE FUNCTION get_subscriber_data(of_s_id BIGINT) RETURNS TEXT LANGUAGE plpgsql AS $$
DECLARE
    one Subscriber;
BEGIN
    SELECT * INTO one FROM Subscriber WHERE s_id = of_s_id;
    IF NOT FOUND THEN
        RETURN 'FAILED 1';
    END IF;
    -- (a row as text is '(1,000000000000001,..)'; no value has a comma or a space)
    RETURN 'OK ' || translate(one::TEXT, ',()', ' ');
END $$;

CREATE FUNCTION get_new_destination(of_s_id BIGINT, of_sf_type INT, of_start_time INT, of_end_time INT)
RETURNS TEXT LANGUAGE plpgsql AS $$
DECLARE
    numbers TEXT;
BEGIN
    SELECT string_agg(cf.numberx, ' ' ORDER BY cf.start_time) INTO numbers
    FROM Special_Facility AS sf, Call_Forwarding AS cf
    WHERE sf.s_id = of_s_id AND sf.sf_type = of_sf_type AND sf.is_active = 1
    AND cf.s_id = sf.s_id AND cf.sf_type = sf.sf_type
    AND cf.start_time <= of_start_time AND of_end_time < cf.end_time;
    RETURN coalesce('OK ' || numbers, 'FAILED 1');
END $$;

CREATE FUNCTION get_access_data(of_s_id BIGINT, of_ai_type INT) RETURNS TEXT LANGUAGE plpgsql AS $$
DECLARE
    reply TEXT;
BEGIN
    SELECT concat_ws(' ', 'OK', data1, data2, data3, data4) INTO reply
    FROM Access_Info
    WHERE s_id = of_s_id AND ai_type = of_ai_type;
    RETURN coalesce(reply, 'FAILED 1');
END $$;

CREATE FUNCTION update_subscriber_data(of_s_id BIGINT, new_bit_1 INT, of_sf_type INT, new_data_a INT)
RETURNS TEXT LANGUAGE plpgsql AS $$
BEGIN
    UPDATE Subscriber SET bit_1 = new_bit_1 WHERE s_id = of_s_id;
    IF NOT FOUND THEN
        RAISE no_data_found;
    END IF;
    UPDATE Special_Facility SET data_a = new_data_a WHERE s_id = of_s_id AND sf_type = of_sf_type;
    IF NOT FOUND THEN
        RAISE no_data_found;
    END IF;
    RETURN 'OK';
EXCEPTION
    WHEN no_data_found THEN
        RETURN 'FAILED 1';
END $$;

CREATE FUNCTION update_location(of_sub_nbr CHAR(15), new_vlr_location BIGINT) RETURNS TEXT LANGUAGE plpgsql AS $$
BEGIN
    UPDATE Subscriber SET vlr_location = new_vlr_location WHERE sub_nbr = of_sub_nbr;
    IF NOT FOUND THEN
        RETURN 'FAILED 1';
    END IF;
    RETURN 'OK';
END $$;

CREATE FUNCTION insert_call_forwarding(
    of_sub_nbr CHAR(15), of_sf_type INT, of_start_time INT, of_end_time INT, of_numberx CHAR(15)
) RETURNS TEXT LANGUAGE plpgsql AS $$
DECLARE
    of_s_id BIGINT;
BEGIN
    SELECT s_id INTO of_s_id FROM Subscriber WHERE sub_nbr = of_sub_nbr;
    IF NOT FOUND THEN
        RETURN 'FAILED 1';
    END IF;
    PERFORM sf_type FROM Special_Facility WHERE s_id = of_s_id;
    INSERT INTO Call_Forwarding VALUES (of_s_id, of_sf_type, of_start_time, of_end_time, of_numberx);
    RETURN 'OK';
EXCEPTION
    WHEN unique_violation THEN
        RETURN 'FAILED 2';
    WHEN foreign_key_violation THEN
        RETURN 'FAILED 3';
END $$;

CREATE FUNCTION delete_call_forwarding(of_sub_nbr CHAR(15), of_sf_type INT, of_start_time INT)
RETURNS TEXT LANGUAGE plpgsql AS $$
DECLARE
    of_s_id BIGINT;
BEGIN
    SELECT s_id INTO of_s_id FROM Subscriber WHERE sub_nbr = of_sub_nbr;
    IF NOT FOUND THEN
        RETURN 'FAILED 1';
    END IF;
    DELETE FROM Call_Forwarding WHERE s_id = of_s_id AND sf_type = of_sf_type AND start_time = of_start_time;
    IF NOT FOUND THEN
        RETURN 'FAILED 1';
    END IF;
    RETURN 'OK';
END $$;
