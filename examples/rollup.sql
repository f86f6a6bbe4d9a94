-- SPDX-License-Identifier: Apache-2.0
-- Visitors of days, kept as sketches and merged into a month, in SQLite. From the top of the checkout, after `make`:
--
--     sqlite3 -batch :memory: < examples/rollup.sql

.load bindings/sqlite/build/hll_sketches

CREATE TABLE visits (day TEXT, visitor TEXT);
INSERT INTO visits
WITH RECURSIVE n (i) AS (SELECT 1 UNION ALL SELECT i + 1 FROM n WHERE i < 10000)
SELECT date('2026-11-01', (i % 30) || ' days'), 'visitor ' || (i % 210) FROM n;

CREATE TABLE daily (day TEXT PRIMARY KEY, image BLOB NOT NULL CHECK (hll_is_image(image)));
INSERT INTO daily SELECT day, hll_image_add_agg(visitor) FROM visits GROUP BY day;

SELECT min(day), max(day), round(hll_estimate(hll_image_union_agg(image))) FROM daily;
--> 2026-11-01|2026-11-30|210.0
