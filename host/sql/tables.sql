-- Both tables of every small log: all rows, all columns, their names.
-- rowid is the place.
.headers on
.nullvalue NULL
CREATE VIRTUAL TABLE temp.section_a USING flight('examples/section-a.log');
CREATE VIRTUAL TABLE temp.section_a_events USING flight_events('examples/section-a.log');
SELECT rowid, * FROM section_a;
SELECT rowid, * FROM section_a_events;
CREATE VIRTUAL TABLE temp.cut USING flight("host/logs/cut.log");
CREATE VIRTUAL TABLE temp.cut_events USING flight_events("host/logs/cut.log");
SELECT rowid, * FROM cut;
SELECT count(*) AS events FROM cut_events;
CREATE VIRTUAL TABLE temp.empty USING flight(host/logs/empty.log);
CREATE VIRTUAL TABLE temp.empty_events USING flight_events(host/logs/empty.log);
SELECT count(*) AS frames FROM empty;
SELECT count(*) AS events FROM empty_events;
CREATE VIRTUAL TABLE temp.numbers USING flight('host/logs/numbers.log');
SELECT * FROM numbers;
CREATE VIRTUAL TABLE temp.flight USING flight('host/logs/events.log');
CREATE VIRTUAL TABLE temp.flight_events USING flight_events('host/logs/events.log');
SELECT rowid, * FROM flight;
SELECT rowid, * FROM flight_events;
CREATE VIRTUAL TABLE temp.odd USING flight('host/logs/odd-names.log');
CREATE VIRTUAL TABLE temp.odd_events USING flight_events('host/logs/odd-names.log');
SELECT * FROM odd;
SELECT * FROM odd_events;
SELECT "say ""x""" AS said, field_3, gyro_2, gyro_2_2 FROM odd WHERE kind = 'P';
