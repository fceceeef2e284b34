-- Crashes by code, and by the module and offset of the address that ran: sqlite3 crashes.db < many.sql
-- lines.jsonl has a line of `summary --json` for each dump. The lines of an earlier day stay in the database: a line is there
-- once, whatever the times that it is imported. A line that is not whole is left out.
CREATE TABLE IF NOT EXISTS summary (json TEXT PRIMARY KEY) WITHOUT ROWID;
CREATE TEMPORARY TABLE line (json TEXT);
.mode ascii
.separator "\t" "\n"
.import lines.jsonl line
INSERT OR IGNORE INTO summary SELECT json FROM line WHERE json_valid(json);

-- A module of a place, or the one below an address that no module has. No image of a module has 4 GiB.
CREATE TEMPORARY VIEW crash AS
SELECT json ->> '$.file' AS file, json ->> '$.time' AS time, json ->> '$.crash.code' AS code,
    iif(json ->> '$.crash.module' IS NULL, json -> '$.crash.near', json -> '$.crash.module') AS place
FROM summary WHERE json ->> '$.crash' IS NOT NULL;

.mode tabs
.output crashes.tsv
SELECT code, ifnull(CASE WHEN is_held THEN file END, '-'), ifnull(CASE WHEN is_held THEN offset END, '-'), count(*), min(time), max(time)
FROM (SELECT code, time, ifnull(place ->> '$.file', '') AS file, place ->> '$.offset' AS offset,
    length(place ->> '$.offset') <= 10 AND CAST(place ->> '$.offset' AS INTEGER) < 4294967296 AS is_held FROM crash)
GROUP BY 1, 2, 3 ORDER BY 4 DESC, 1, 2, 3;
