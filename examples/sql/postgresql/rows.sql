-- The rows as lines of docs/FORMATS.md, by subscriber, then by table in the order S, A, F, C, then by key.
-- A row as text is '(1,000000000000001,..)'; no value has a comma or a space.
SELECT letter || ' ' || translate(line, ',()', ' ')
FROM (
    SELECT s_id, 0 AS place, 'S' AS letter, 0 AS kind, 0 AS start, t::TEXT AS line FROM Subscriber AS t
    UNION ALL SELECT s_id, 1, 'A', ai_type, 0, t::TEXT FROM Access_Info AS t
    UNION ALL SELECT s_id, 2, 'F', sf_type, 0, t::TEXT FROM Special_Facility AS t
    UNION ALL SELECT s_id, 3, 'C', sf_type, start_time, t::TEXT FROM Call_Forwarding AS t
) AS lines
ORDER BY s_id, place, kind, start;
