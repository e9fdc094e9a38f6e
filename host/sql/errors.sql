-- What is refused, with its text: bad logs, bad arguments, uses from a view, writing. No table comes to be.
-- The statements go on behind an error, and the last ones show what there is.
.bail off
CREATE VIRTUAL TABLE temp.a USING flight('host/logs/refused.log');
CREATE VIRTUAL TABLE temp.b USING flight_events('host/logs/refused.log');
CREATE VIRTUAL TABLE temp.c USING flight('host/logs/it''s.log');
CREATE VIRTUAL TABLE temp.d USING flight('host/logs');
CREATE VIRTUAL TABLE temp.e USING flight();
CREATE VIRTUAL TABLE temp.f USING flight('examples/section-a.log', 2);
CREATE VIRTUAL TABLE temp.g USING flight('examples/section' 'a.log');
CREATE VIRTUAL TABLE temp.h USING flight('host/logs/interval.log');
SELECT * FROM flight;
SELECT flight_end('host/logs/refused.log');
SELECT flight_end('host/logs/none.log');
SELECT count(*) FROM sqlite_temp_schema;
SELECT count(*) FROM sqlite_schema;
CREATE VIRTUAL TABLE kept USING flight('examples/section-a.log');
CREATE VIEW seen AS SELECT count(*) FROM kept;
CREATE VIEW ended AS SELECT flight_end('examples/section-a.log');
SELECT * FROM seen;
SELECT * FROM ended;
DELETE FROM kept;
SELECT count(*) FROM kept;
