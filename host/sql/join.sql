-- Two and more cursors over one table at once: each frame with the next one, pairs of frames, and a subquery for each row.
-- CROSS JOIN with a + keeps SQLite from making an index, so that the inner scan begins anew for each outer row.
CREATE VIRTUAL TABLE temp.flight USING flight('examples/power-cut.log');
CREATE VIRTUAL TABLE temp.events USING flight_events('examples/power-cut.log');
SELECT a.place, b.place, b.time - a.time FROM flight AS a JOIN flight AS b ON b.iteration = a.iteration + 1 ORDER BY a.place;
SELECT count(*) FROM flight AS a CROSS JOIN flight AS b WHERE +b.place > +a.place;
SELECT place, (SELECT max(b.place) FROM flight AS b WHERE b.place < a.place) FROM flight AS a ORDER BY place;
SELECT kind, place FROM flight UNION ALL SELECT kind, place FROM events ORDER BY place;
