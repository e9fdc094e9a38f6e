-- Counts, sums, types of values, and how the walks end.
-- Rows come in the order of their places.
.nullvalue NULL
CREATE VIRTUAL TABLE temp.flight USING flight('examples/power-cut.log');
CREATE VIRTUAL TABLE temp.flight_events USING flight_events('examples/power-cut.log');
SELECT count(*), sum("motor[0]"), min(time), max(time) FROM flight;
SELECT kind, count(*), sum(iteration) FROM flight GROUP BY kind ORDER BY kind;
SELECT typeof(kind), typeof(place), typeof(iteration), typeof(time), typeof("motor[0]") FROM flight LIMIT 1;
SELECT kind, typeof(event), typeof(first), typeof(second) FROM flight_events;
SELECT place FROM flight WHERE place > 14 AND place < 42;
SELECT place, iteration FROM flight WHERE rowid = 28;
SELECT flight_end('examples/section-a.log');
SELECT flight_end('examples/power-cut.log');
SELECT flight_end('host/logs/cut.log');
SELECT flight_end('host/logs/empty.log');
SELECT flight_end('host/logs/events.log');
SELECT flight_end(NULL);
DROP TABLE flight;
SELECT count(*) FROM sqlite_temp_schema;
