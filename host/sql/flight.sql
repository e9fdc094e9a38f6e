-- A craft's own log, as an import asks for it: how many frames, whether any is missing, the fields that go by header numbers, a lift-off, the events.
-- What comes out was reckoned from the session that gen_flight.py writes beside the log.
.nullvalue NULL
CREATE VIRTUAL TABLE temp.flight USING flight('examples/flight.log');
CREATE VIRTUAL TABLE temp.events USING flight_events('examples/flight.log');
SELECT kind, count(*), min(iteration), max(iteration), max(time) - min(time) FROM flight GROUP BY kind ORDER BY kind;
SELECT place, before, iteration FROM (SELECT place, iteration, lag(iteration) OVER (ORDER BY place) AS before FROM flight) WHERE iteration <> before + 1;
SELECT place, iteration, time, "rcCommand[3]", vbatLatest, "motor[0]", "motor[3]" FROM flight WHERE kind = 'I';
SELECT sum("rcCommand[3]"), sum(vbatLatest), sum("motor[0]"), sum("motor[1]"), sum("gyroADC[2]"), min("accSmooth[0]"), max("debug[2]") FROM flight;
SELECT place, iteration, time FROM flight WHERE "motor[0]" > 500 AND "motor[1]" > 500 AND "motor[2]" > 500 AND "motor[3]" > 500 ORDER BY place LIMIT 1;
SELECT * FROM events;
SELECT event, (SELECT max(iteration) FROM flight WHERE flight.place < events.place) FROM events WHERE kind = 'E';
SELECT flight_end('examples/flight.log');
